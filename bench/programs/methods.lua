local Counter = {}
Counter.__index = Counter
function Counter:next(x) return x + 1 end
local c = setmetatable({}, Counter)
local i = 0
while i < 1000000 do i = c:next(i) end
print(i)
