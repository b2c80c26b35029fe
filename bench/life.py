# The game of life on a torus of 100 by 100 places, for 60 generations.
class Life:
    def __init__(self):
        self.now = [0] * 10000
        self.next = [0] * 10000

    def begin(self, n):
        for i in range(n * n):
            if i % 3 == 0 or i % 7 == 2:
                self.now[i] = 1

    def around(self, n, row, column):
        now = self.now
        up = (row + n - 1) % n * n
        here = row * n
        down = (row + 1) % n * n
        left = (column + n - 1) % n
        right = (column + 1) % n
        return (
            now[up + left] + now[up + column] + now[up + right] + now[here + left] + now[here + right]
            + now[down + left] + now[down + column] + now[down + right]
        )

    def step(self, n):
        for row in range(n):
            for column in range(n):
                count = self.around(n, row, column)
                if count == 3 or count == 2 and self.now[row * n + column] == 1:
                    self.next[row * n + column] = 1
                else:
                    self.next[row * n + column] = 0
        for i in range(n * n):
            self.now[i] = self.next[i]

    def alive(self, n):
        s = 0
        for i in range(n * n):
            s = s + self.now[i]
        return s


def main():
    life = Life()
    life.begin(100)
    for r in range(60):
        life.step(100)
    print(life.alive(100))


main()
