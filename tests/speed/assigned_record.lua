local adjusted, finalized = 0, 0
local handle = {}
handle.__index = handle
function handle.adjust(x) adjusted = adjusted + 1 end
function handle.finalize(x) finalized = finalized + 1 end
local function assign(target, source)
  if target ~= source then
    local number = source.number
    target:finalize()
    target.number = number
    target:adjust()
  end
end
local source = setmetatable({number = 7}, handle)
local target = setmetatable({number = 0}, handle)
for i = 1, TURNS do
  assign(target, source)
end
print(adjusted .. " " .. finalized .. " " .. target.number)
