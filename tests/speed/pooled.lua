-- no pool, as there is none in the language: a table is made and dropped
local x
for i = 1, TURNS do
  x = {first = 0, second = 0}
  x = nil
end
print(x == nil)
