local total = 0
for i = 1, TURNS do
  total = (total + i) % 1000003
end
print(total)
