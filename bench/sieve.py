# The sieve of Eratosthenes: the primes below 200,000 are counted, ten times.
class Sieve:
    def __init__(self):
        self.crossed = [False] * 200000
        self.count = 0

    def clear(self, n):
        self.count = 0
        for i in range(n):
            self.crossed[i] = False

    def cross(self, n):
        for i in range(2, n):
            if not self.crossed[i]:
                self.count += 1
                for j in range(i * i, n, i):
                    self.crossed[j] = True


def main():
    s = Sieve()
    for r in range(10):
        s.clear(200000)
        s.cross(200000)
    print(s.count)


main()
