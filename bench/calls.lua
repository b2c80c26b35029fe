-- Many small calls of operations on many objects.
local Cell = {}
Cell.__index = Cell

function Cell.new() return setmetatable({sum = 0}, Cell) end

function Cell:add(p) self.sum = self.sum + p end

local Cells = {}
Cells.__index = Cells

function Cells.new() return setmetatable({at = {}}, Cells) end

function Cells:fill()
  for i = 0, 999 do self.at[i] = Cell.new() end
end

function Cells:round(p)
  for i = 0, 999 do self.at[i]:add(i + p) end
end

function Cells:total()
  local s = 0
  for i = 0, 999 do s = s + self.at[i].sum end
  return s
end

local c = Cells.new()
c:fill()
for r = 0, 2999 do c:round(r) end
print(c:total())
