-- A linked structure of 100,000 objects is built and walked.
local Link = {}
Link.__index = Link

function Link.new() return setmetatable({next = nil, n = 0}, Link) end

function Link:set(x, v)
  self.next = x
  self.n = v
end

local head = nil
for i = 0, 99999 do
  local k = Link.new()
  k:set(head, i % 10)
  head = k
end
local total = 0
for r = 0, 59 do
  local at = head
  while at ~= nil do
    total = total + at.n
    at = at.next
  end
end
print(total)
