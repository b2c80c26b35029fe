-- Sums over 1,000 objects in a loop of calls of a value method.
local Cell = {}
Cell.__index = Cell

function Cell.new() return setmetatable({n = 0}, Cell) end

function Cell:set(v) self.n = v end

function Cell:plus(p) return self.n + p end

local Cells = {}
Cells.__index = Cells

function Cells.new() return setmetatable({at = {}}, Cells) end

function Cells:fill()
  for i = 0, 999 do self.at[i] = Cell.new() end
  for i = 0, 999 do self.at[i]:set(i % 7) end
end

function Cells:sum(p)
  local s = 0
  for i = 0, 999 do s = s + self.at[i]:plus(p) end
  return s
end

local c = Cells.new()
c:fill()
local total = 0
for r = 0, 3999 do total = total + c:sum(r) end
print(total)
