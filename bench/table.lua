-- A hash table in arrays, whose keys that meet go to the next free place: 300,000 words are counted in it, and asked for.
local Table = {}
Table.__index = Table

function Table.new()
  local keys, counts = {}, {}
  for i = 0, 65535 do
    keys[i] = 0
    counts[i] = 0
  end
  return setmetatable({keys = keys, counts = counts, used = 0, next = 0}, Table)
end

function Table:place(key)
  local at = key * 31 % 65536
  while self.keys[at] ~= 0 and self.keys[at] ~= key do at = (at + 1) % 65536 end
  return at
end

function Table:add(key)
  local at = self:place(key)
  if self.keys[at] == 0 then
    self.keys[at] = key
    self.used = self.used + 1
  end
  self.counts[at] = self.counts[at] + 1
end

-- The next of 65,536 numbers, each of which comes once before the first comes again.
function Table:draw() self.next = (self.next * 75 + 74) % 65537 end

function Table:fill(n)
  for i = 0, n - 1 do
    self:draw()
    self:add(1 + self.next % 40000 * 5)
  end
end

function Table:total(n)
  local s = 0
  for i = 0, n - 1 do s = s + self.counts[self:place(1 + i * 5)] end
  return s
end

local t = Table.new()
t:fill(300000)
print(t.used)
print(t:total(40000))
print(t:total(30000))
