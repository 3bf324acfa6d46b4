local x
for i = 1, TURNS do
  x = {first = 0, second = 0}
  x = nil
end
print(x == nil)
