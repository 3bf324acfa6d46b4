local count = 0
local guard = {__close = function(x) count = count + 1 end}
for i = 1, TURNS do
  do
    local g <close> = setmetatable({number = 0}, guard)
  end
end
print(count)
