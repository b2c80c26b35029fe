# Deep recursion of value methods.
import sys

sys.setrecursionlimit(200000)


class Sums:
    def down(self, n):
        if n == 0:
            return 0
        return n + self.down(n - 1)

    def pairs(self, n):
        if n < 2:
            return n
        return self.pairs(n - 1) + self.pairs(n - 2)


def main():
    s = Sums()
    total = 0
    for i in range(20):
        total = total + s.down(100000)
    print(total)
    print(s.pairs(25))


main()
