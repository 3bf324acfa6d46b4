local total = 0
for i = 1, TURNS do
  do
    local x = i
    total = x
  end
end
print(total)
