-- A value method that calls itself twice in one expression.
local Fib = {}
Fib.__index = Fib

function Fib:of(n)
  if n < 2 then return n end
  return self:of(n - 1) + self:of(n - 2)
end

local f = setmetatable({}, Fib)
print(f:of(31))
