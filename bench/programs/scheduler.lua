local function class(base)
  local c = setmetatable({}, base and {__index = base} or nil)
  c.__index = c
  return c
end
local function packet(value) return {value = value} end
local Task = class()
function Task:put(p)
  if self.queue == nil then self.queue = p else self.last.link = p end
  self.last = p
end
function Task:take()
  local p = self.queue
  self.queue = p.link
  p.link = nil
  return p
end
function Task:ready() return self.queue ~= nil end
local Idle = class(Task)
function Idle:ready() return self.left > 0 end
function Idle:run(scheduler)
  self.left = self.left - 1
  self.seed = (self.seed * 73 + 41) & 1023
  scheduler:send(1 + (self.seed & 1), packet(self.seed))
end
local Worker = class(Task)
function Worker:run(scheduler)
  local p = self:take()
  self.sum = (self.sum + p.value) & 65535
  scheduler:send(2, p)
end
local Handler = class(Task)
function Handler:run(scheduler)
  local p = self:take()
  self.count = self.count + 1
  p.value = p.value ~ (self.count & 255)
  scheduler:send(3, p)
end
local Device = class(Task)
function Device:run(scheduler)
  self.total = (self.total * 7 + self:take().value) & 1048575
end
local Scheduler = class()
function Scheduler:send(to, p) self.tasks[to + 1]:put(p) end
function Scheduler:run()
  local busy = true
  while busy do
    busy = false
    for i = 1, #self.tasks do
      local task = self.tasks[i]
      if task:ready() then
        busy = true
        self.switches = self.switches + 1
        task:run(self)
      end
    end
  end
end
local device = setmetatable({total = 0}, Device)
local scheduler = setmetatable({
  switches = 0,
  tasks = {
    setmetatable({left = 40000, seed = 1}, Idle), setmetatable({sum = 0}, Worker),
    setmetatable({count = 0}, Handler), device,
  },
}, Scheduler)
scheduler:run()
print(scheduler.switches)
print(device.total)
