# A value method that calls itself twice in one expression.
class Fib:
    def of(self, n):
        if n < 2:
            return n
        return self.of(n - 1) + self.of(n - 2)


def main():
    f = Fib()
    print(f.of(31))


main()
