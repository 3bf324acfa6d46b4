local lost = {}
local handled = 0
local function raise() error(lost) end
for i = 1, TURNS do
  local good, raised = pcall(raise)
  if not good and raised == lost then
    handled = handled + 1
  end
end
print(handled)
