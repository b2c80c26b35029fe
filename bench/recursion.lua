-- Deep recursion of value methods.
local Sums = {}
Sums.__index = Sums

function Sums:down(n)
  if n == 0 then return 0 end
  return n + self:down(n - 1)
end

function Sums:pairs(n)
  if n < 2 then return n end
  return self:pairs(n - 1) + self:pairs(n - 2)
end

local s = setmetatable({}, Sums)
local total = 0
for i = 0, 19 do total = total + s:down(100000) end
print(total)
print(s:pairs(25))
