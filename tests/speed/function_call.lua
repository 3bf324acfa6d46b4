local function next_of(n)
  return (n + 7) % 1000003
end

local total = 0
for i = 1, TURNS do
  total = next_of(total)
end
print(total)
