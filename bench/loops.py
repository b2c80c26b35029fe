# A triple loop over array fields.
class Matrices:
    def __init__(self):
        self.a = [0] * 40000
        self.b = [0] * 40000
        self.c = [0] * 40000

    def fill(self, n):
        for i in range(n * n):
            self.a[i] = i % 7
            self.b[i] = i % 5

    def multiply(self, n):
        for i in range(n):
            for j in range(n):
                s = 0
                for k in range(n):
                    s = s + self.a[i * n + k] * self.b[k * n + j]
                self.c[i * n + j] = s

    def trace(self, n):
        s = 0
        for i in range(n):
            s = s + self.c[i * n + i]
        return s


def main():
    m = Matrices()
    m.fill(200)
    m.multiply(200)
    print(m.trace(200))


main()
