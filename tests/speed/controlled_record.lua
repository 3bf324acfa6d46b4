local sum = 0
local guard = {__close = function(x) sum = sum + x.number end}
local function initialize(x) x.number = 1 end
for i = 1, TURNS do
  do
    local g <close> = setmetatable({number = 0}, guard)
    initialize(g)
  end
end
print(sum)
