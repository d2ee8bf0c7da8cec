local function class(base)
  local c = setmetatable({}, base and {__index = base} or nil)
  c.__index = c
  return c
end
local function variable(value) return {value = value, mark = 0} end
local Constraint = class()
function Constraint:choose() self.output.by = self end
local Stay = class(Constraint)
function Stay:is_ready(mark) return true end
function Stay:execute() end
local Edit = class(Constraint)
function Edit:is_ready(mark) return true end
function Edit:execute() self.output.value = self.next end
local Equal = class(Constraint)
function Equal:is_ready(mark) return self.input.mark == mark end
function Equal:execute() self.output.value = self.input.value end
local Scale = class(Constraint)
function Scale:is_ready(mark)
  return self.input.mark == mark and self.factor.mark == mark and self.offset.mark == mark
end
function Scale:execute()
  self.output.value = (self.input.value * self.factor.value + self.offset.value) & 1048575
end
local Planner = class()
function Planner:plan()
  self.mark = self.mark + 1
  local order = {}
  local waiting = self.constraints
  while #waiting > 0 do
    local later = {}
    for i = 1, #waiting do
      local c = waiting[i]
      if c:is_ready(self.mark) then
        c:choose()
        c.output.mark = self.mark
        order[#order + 1] = c
      else
        later[#later + 1] = c
      end
    end
    waiting = later
  end
  return order
end
local factor, offset, first = variable(3), variable(7), variable(0)
local edit = setmetatable({output = first, next = 0}, Edit)
local all = {setmetatable({output = factor}, Stay), setmetatable({output = offset}, Stay), edit}
local at = first
for i = 0, 199 do
  local next = variable(0)
  if i % 2 == 0 then
    all[#all + 1] = setmetatable({input = at, output = next}, Equal)
  else
    all[#all + 1] = setmetatable({input = at, factor = factor, offset = offset, output = next}, Scale)
  end
  at = next
end
local planner = setmetatable({constraints = all, mark = 0}, Planner)
local sum = 0
for turn = 0, 9 do
  local order = planner:plan()
  for k = 0, 59 do
    edit.next = turn * 100 + k
    for i = 1, #order do order[i]:execute() end
    sum = (sum + at.value) & 1048575
  end
end
print(sum)
