# Sums over 1,000 objects in a loop of calls of a value method.
class Cell:
    def __init__(self):
        self.n = 0

    def set(self, v):
        self.n = v

    def plus(self, p):
        return self.n + p


class Cells:
    def __init__(self):
        self.at = [None] * 1000

    def fill(self):
        for i in range(1000):
            self.at[i] = Cell()
        for i in range(1000):
            self.at[i].set(i % 7)

    def sum(self, p):
        s = 0
        for i in range(1000):
            s = s + self.at[i].plus(p)
        return s


def main():
    c = Cells()
    c.fill()
    total = 0
    for r in range(4000):
        total = total + c.sum(r)
    print(total)


main()
