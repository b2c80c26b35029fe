# A graph of 100,000 nodes with three edges each is built, and visited depth first ten times.
import sys

sys.setrecursionlimit(200000)


class Node:
    def __init__(self):
        self.a = None
        self.b = None
        self.c = None
        self.seen = 0

    def link(self, x, y, z):
        self.a = x
        self.b = y
        self.c = z

    def visit(self, r):
        if self.seen < r:
            self.seen = r
            self.a.visit(r)
            self.b.visit(r)
            self.c.visit(r)


class Graph:
    def __init__(self):
        self.at = [None] * 100000

    def fill(self, n):
        for i in range(n):
            self.at[i] = Node()
        for i in range(n):
            self.at[i].link(self.at[(i * 7 + 1) % n], self.at[(i * 31 + 5) % n], self.at[(i + 1) % n])

    def total(self, n):
        s = 0
        for i in range(n):
            s = s + self.at[i].seen
        return s

    def visit(self, r):
        self.at[0].visit(r)


def main():
    g = Graph()
    g.fill(100000)
    for r in range(1, 11):
        g.visit(r)
    print(g.total(100000))


main()
