# A queue of 1,000 jobs by links: the first one works, and goes behind the last one until it is done, ten times.
class Job:
    def __init__(self):
        self.next = None
        self.left = 0
        self.turns = 0

    def begin(self, work):
        self.left = work

    def work(self):
        self.left = self.left - 1
        self.turns = self.turns + 1

    def link(self, other):
        self.next = other


class Queue:
    def __init__(self):
        self.first = None
        self.last = None
        self.length = 0

    def put(self, job):
        job.link(None)
        if self.first is None:
            self.first = job
        else:
            self.last.link(job)
        self.last = job
        self.length += 1

    def take(self):
        self.first = self.first.next
        self.length -= 1


class Jobs:
    def __init__(self):
        self.at = [None] * 1000
        self.queue = None
        self.turns = 0

    def make(self):
        self.queue = Queue()
        for i in range(1000):
            self.at[i] = Job()

    def fill(self):
        for i in range(1000):
            self.at[i].begin(1 + i % 60)
            self.queue.put(self.at[i])

    def run(self):
        while self.queue.length > 0:
            job = self.queue.first
            self.queue.take()
            job.work()
            self.turns += 1
            if job.left > 0:
                self.queue.put(job)


def main():
    jobs = Jobs()
    jobs.make()
    for r in range(10):
        jobs.fill()
        jobs.run()
    print(jobs.turns)
    print(jobs.at[999].turns)


main()
