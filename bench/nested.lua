-- Value methods whose arguments are calls of value methods.
local Numbers = {}
Numbers.__index = Numbers

function Numbers:square(n) return n * n end

function Numbers:far(a, b)
  if a < b then return b - a end
  return a - b
end

function Numbers:between(low, n, high) return math.max(low, math.min(n, high)) end

function Numbers:blend(a, b)
  return self:between(0, self:far(self:square(a), self:square(b)) - self:square(self:far(a, b)), 1000)
end

function Numbers:tak(x, y, z)
  if y < x then return self:tak(self:tak(x - 1, y, z), self:tak(y - 1, z, x), self:tak(z - 1, x, y)) end
  return z
end

local n = setmetatable({}, Numbers)
local sum = 0
for i = 0, 119999 do sum = sum + n:blend(n:between(3, i % 50, 40), n:blend(i % 31, i % 17)) end
print(sum)
for i = 6, 11 do print(n:tak(18, 12, i)) end
