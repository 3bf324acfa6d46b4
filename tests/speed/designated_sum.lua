local x = {sum = 0}
for i = 1, TURNS do
  x.sum = (x.sum + i) % 1000003
end
print(x.sum)
