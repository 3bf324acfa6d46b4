local total = 0

local function add(n)
  local sum = total + n
  total = sum % 1000003
end

for i = 1, TURNS do
  add(i)
end
print(total)
