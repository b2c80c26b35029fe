# Value methods whose arguments are calls of value methods.
class Numbers:
    def square(self, n):
        return n * n

    def far(self, a, b):
        if a < b:
            return b - a
        return a - b

    def between(self, low, n, high):
        return max(low, min(n, high))

    def blend(self, a, b):
        return self.between(0, self.far(self.square(a), self.square(b)) - self.square(self.far(a, b)), 1000)

    def tak(self, x, y, z):
        if y < x:
            return self.tak(self.tak(x - 1, y, z), self.tak(y - 1, z, x), self.tak(z - 1, x, y))
        return z


def main():
    n = Numbers()
    s = 0
    for i in range(120000):
        s = s + n.blend(n.between(3, i % 50, 40), n.blend(i % 31, i % 17))
    print(s)
    for i in range(6, 12):
        print(n.tak(18, 12, i))


main()
