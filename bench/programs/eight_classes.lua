local function class(k)
  local c = {}
  c.__index = c
  function c:m() return k end
  return setmetatable({}, c)
end
local all = {class(1), class(3), class(2), class(4), class(8), class(7), class(6), class(5)}
local sum = 0
for i = 0, 599999 do sum = sum + all[(i & 7) + 1]:m() end
print(sum)
