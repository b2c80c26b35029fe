# A hash table in arrays, whose keys that meet go to the next free place: 300,000 words are counted in it, and asked for.
class Table:
    def __init__(self):
        self.keys = [0] * 65536
        self.counts = [0] * 65536
        self.used = 0
        self.next = 0

    def place(self, key):
        at = key * 31 % 65536
        while self.keys[at] != 0 and self.keys[at] != key:
            at = (at + 1) % 65536
        return at

    def add(self, key):
        at = self.place(key)
        if self.keys[at] == 0:
            self.keys[at] = key
            self.used += 1
        self.counts[at] += 1

    # The next of 65,536 numbers, each of which comes once before the first comes again.
    def draw(self):
        self.next = (self.next * 75 + 74) % 65537

    def fill(self, n):
        for i in range(n):
            self.draw()
            self.add(1 + self.next % 40000 * 5)

    def total(self, n):
        s = 0
        for i in range(n):
            s = s + self.counts[self.place(1 + i * 5)]
        return s


def main():
    table = Table()
    table.fill(300000)
    print(table.used)
    print(table.total(40000))
    print(table.total(30000))


main()
