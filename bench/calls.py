# Many small calls of operations on many objects.
class Cell:
    def __init__(self):
        self.sum = 0

    def add(self, p):
        self.sum = self.sum + p


class Cells:
    def __init__(self):
        self.at = [None] * 1000

    def fill(self):
        for i in range(1000):
            self.at[i] = Cell()

    def round(self, p):
        for i in range(1000):
            self.at[i].add(i + p)

    def total(self):
        s = 0
        for i in range(1000):
            s = s + self.at[i].sum
        return s


def main():
    c = Cells()
    c.fill()
    for r in range(3000):
        c.round(r)
    print(c.total())


main()
