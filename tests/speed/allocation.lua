local all = {}
local x
for i = 1, TURNS do
  x = {first = 0, second = 0}
  all[i] = x
  x.first = i
end
print(x.first)
