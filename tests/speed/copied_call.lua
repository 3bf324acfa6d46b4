local total = 0

local function add(n, sum)
  return (sum + n) % 1000003
end

for i = 1, TURNS do
  total = add(i, total)
end
print(total)
