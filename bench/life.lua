-- The game of life on a torus of 100 by 100 places, for 60 generations.
local Life = {}
Life.__index = Life

function Life.new()
  local now, next = {}, {}
  for i = 0, 9999 do
    now[i] = 0
    next[i] = 0
  end
  return setmetatable({now = now, next = next}, Life)
end

function Life:begin(n)
  for i = 0, n * n - 1 do
    if i % 3 == 0 or i % 7 == 2 then self.now[i] = 1 end
  end
end

function Life:around(n, row, column)
  local now = self.now
  local up = (row + n - 1) % n * n
  local here = row * n
  local down = (row + 1) % n * n
  local left = (column + n - 1) % n
  local right = (column + 1) % n
  return now[up + left] + now[up + column] + now[up + right] + now[here + left] + now[here + right] +
         now[down + left] + now[down + column] + now[down + right]
end

function Life:step(n)
  for row = 0, n - 1 do
    for column = 0, n - 1 do
      local count = self:around(n, row, column)
      if count == 3 or count == 2 and self.now[row * n + column] == 1 then
        self.next[row * n + column] = 1
      else
        self.next[row * n + column] = 0
      end
    end
  end
  for i = 0, n * n - 1 do self.now[i] = self.next[i] end
end

function Life:alive(n)
  local s = 0
  for i = 0, n * n - 1 do s = s + self.now[i] end
  return s
end

local life = Life.new()
life:begin(100)
for r = 0, 59 do life:step(100) end
print(life:alive(100))
