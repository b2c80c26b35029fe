# A linked structure of 100,000 objects is built and walked.
class Link:
    def __init__(self):
        self.next = None
        self.n = 0

    def set(self, x, v):
        self.next = x
        self.n = v


def main():
    head = None
    for i in range(100000):
        k = Link()
        k.set(head, i % 10)
        head = k
    total = 0
    for r in range(60):
        at = head
        while at is not None:
            total = total + at.n
            at = at.next
    print(total)


main()
