-- A graph of 100,000 nodes with three edges each is built, and visited depth first ten times.
local Node = {}
Node.__index = Node

function Node.new() return setmetatable({a = nil, b = nil, c = nil, seen = 0}, Node) end

function Node:link(x, y, z)
  self.a = x
  self.b = y
  self.c = z
end

function Node:visit(r)
  if self.seen < r then
    self.seen = r
    self.a:visit(r)
    self.b:visit(r)
    self.c:visit(r)
  end
end

local Graph = {}
Graph.__index = Graph

function Graph.new() return setmetatable({at = {}}, Graph) end

function Graph:fill(n)
  for i = 0, n - 1 do self.at[i] = Node.new() end
  for i = 0, n - 1 do self.at[i]:link(self.at[(i * 7 + 1) % n], self.at[(i * 31 + 5) % n], self.at[(i + 1) % n]) end
end

function Graph:total(n)
  local s = 0
  for i = 0, n - 1 do s = s + self.at[i].seen end
  return s
end

function Graph:visit(r) self.at[0]:visit(r) end

local g = Graph.new()
g:fill(100000)
for r = 1, 10 do g:visit(r) end
print(g:total(100000))
