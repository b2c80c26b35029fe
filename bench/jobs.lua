-- A queue of 1,000 jobs by links: the first one works, and goes behind the last one until it is done, ten times.
local Job = {}
Job.__index = Job

function Job.new() return setmetatable({next = nil, left = 0, turns = 0}, Job) end

function Job:begin(work) self.left = work end

function Job:work()
  self.left = self.left - 1
  self.turns = self.turns + 1
end

function Job:link(other) self.next = other end

local Queue = {}
Queue.__index = Queue

function Queue.new() return setmetatable({first = nil, last = nil, length = 0}, Queue) end

function Queue:put(job)
  job:link(nil)
  if self.first == nil then self.first = job else self.last:link(job) end
  self.last = job
  self.length = self.length + 1
end

function Queue:take()
  self.first = self.first.next
  self.length = self.length - 1
end

local Jobs = {}
Jobs.__index = Jobs

function Jobs.new() return setmetatable({at = {}, queue = nil, turns = 0}, Jobs) end

function Jobs:make()
  self.queue = Queue.new()
  for i = 0, 999 do self.at[i] = Job.new() end
end

function Jobs:fill()
  for i = 0, 999 do
    self.at[i]:begin(1 + i % 60)
    self.queue:put(self.at[i])
  end
end

function Jobs:run()
  while self.queue.length > 0 do
    local job = self.queue.first
    self.queue:take()
    job:work()
    self.turns = self.turns + 1
    if job.left > 0 then self.queue:put(job) end
  end
end

local jobs = Jobs.new()
jobs:make()
for r = 0, 9 do
  jobs:fill()
  jobs:run()
end
print(jobs.turns)
print(jobs.at[999].turns)
