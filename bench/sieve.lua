-- The sieve of Eratosthenes: the primes below 200,000 are counted, ten times.
local Sieve = {}
Sieve.__index = Sieve

function Sieve.new()
  local crossed = {}
  for i = 0, 199999 do crossed[i] = false end
  return setmetatable({crossed = crossed, count = 0}, Sieve)
end

function Sieve:clear(n)
  self.count = 0
  for i = 0, n - 1 do self.crossed[i] = false end
end

function Sieve:cross(n)
  for i = 2, n - 1 do
    if not self.crossed[i] then
      self.count = self.count + 1
      for j = i * i, n - 1, i do self.crossed[j] = true end
    end
  end
end

local s = Sieve.new()
for r = 0, 9 do
  s:clear(200000)
  s:cross(200000)
end
print(s.count)
