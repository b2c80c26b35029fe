-- A triple loop over array fields.
local Matrices = {}
Matrices.__index = Matrices

function Matrices.new()
  local a, b, c = {}, {}, {}
  for i = 0, 39999 do
    a[i] = 0
    b[i] = 0
    c[i] = 0
  end
  return setmetatable({a = a, b = b, c = c}, Matrices)
end

function Matrices:fill(n)
  for i = 0, n * n - 1 do
    self.a[i] = i % 7
    self.b[i] = i % 5
  end
end

function Matrices:multiply(n)
  for i = 0, n - 1 do
    for j = 0, n - 1 do
      local s = 0
      for k = 0, n - 1 do s = s + self.a[i * n + k] * self.b[k * n + j] end
      self.c[i * n + j] = s
    end
  end
end

function Matrices:trace(n)
  local s = 0
  for i = 0, n - 1 do s = s + self.c[i * n + i] end
  return s
end

local m = Matrices.new()
m:fill(200)
m:multiply(200)
print(m:trace(200))
