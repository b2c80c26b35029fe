"""Order reasoning: whether two terms are the same whatever the order of the numbers that they compare.

Points are the numbers that are sides of comparisons, and the atoms that are numbers. An order of points is a list of blocks, the least
one first; it is put together by setting one point after the other into a block or between two. Terms are looked at under it by
their forms. Beside that numbers are chosen that stand in this order, and where the forms are the same the terms must give the same
there, with anything for all that isn't a point.
"""

import random

from reference.reference import OPERATORS, wrap
from reference.terms import BOOL, LONG, POINTER, Term, number, truth

MOST_POINTS = 5
COMPARISONS = {"less": "<", "less_equal": "<=", "same": "=="}
WORDS = {"add": "+", "sub": "-", "mul": "*", "divide": "/", "remainder": "%", **COMPARISONS}
TRIALS = 2


def is_point(t):
    return t.kind == "atom" and t.sort == LONG and not t.is_array


def points_in(*terms):
    """The points of terms: numbers by value, then atoms by group and number."""
    numbers, atoms, seen = set(), set(), set()
    waiting = list(terms)
    while waiting:
        t = waiting.pop()
        if id(t) in seen:
            continue
        seen.add(id(t))
        waiting += t.parts
        if is_point(t):
            atoms.add(t.more)
        if t.kind in COMPARISONS:
            numbers.update(side.more for side in t.parts if side.kind == "number")
    return sorted(numbers) + sorted(atoms)


def rise(blocks):
    """Whether no block has two numbers, and numbers rise."""
    found = [n for block in blocks for n in block if isinstance(n, int)]
    return found == sorted(found) and all(sum(isinstance(p, int) for p in block) < 2 for block in blocks)


def orders(points):
    """All orders of points in which numbers rise."""
    found = [[]]
    for p in points:
        set_in = [blocks[:i] + [blocks[i] + [p]] + blocks[i + 1 :] for blocks in found for i in range(len(blocks))]
        between = [blocks[:i] + [[p]] + blocks[i:] for blocks in found for i in range(len(blocks) + 1)]
        found = set_in + between
    return [blocks for blocks in found if rise(blocks)]


def term_of(point):
    return number(point) if isinstance(point, int) else Term("atom", LONG, more=point)


class Under:
    """Terms under an order: each atom is the first point of its block, and comparisons of two points are decided."""

    def __init__(self, blocks):
        self.firsts = {p: term_of(block[0]) for block in blocks for p in block}
        self.places = {term_of(p).form(): place for place, block in enumerate(blocks) for p in block}
        self.known = {}

    def of(self, t):
        if id(t) not in self.known:
            self.known[id(t)] = self.made(t)
        return self.known[id(t)]

    def made(self, t):
        if is_point(t):
            return self.firsts[t.more]
        parts = tuple(self.of(p) for p in t.parts)
        if t.kind in COMPARISONS and parts[0].sort == LONG:
            a, b = (self.places.get(p.form()) for p in parts)
            if a is not None and b is not None:
                return truth(OPERATORS[COMPARISONS[t.kind]](a, b))
        return Term(t.kind, t.sort, parts, t.more, t.is_array)


def chosen_numbers(rng, blocks):
    """Numbers for the points that stand in this order, or None where there are none."""
    known = [(i, next(n for n in block if isinstance(n, int))) for i, block in enumerate(blocks) if any(isinstance(p, int) for p in block)]
    ends = [(-1, -(2**63) - 1), *known, (len(blocks), 2**63)]
    values = dict(known)
    for (i, low), (j, high) in zip(ends, ends[1:]):
        free = j - i - 1
        if high - low - 1 < free:
            return None
        near = range(low + 1, high) if high - low < 1000 else [n for n in range(-40, 40) if low < n < high]
        picked = rng.sample(near, free) if len(near) >= free else rng.sample(range(low + 1, low + 1 + 1000), free)
        values.update(zip(range(i + 1, j), sorted(picked)))
    return {p: values[i] for i, block in enumerate(blocks) for p in block}


class Valued:
    """What terms give, with numbers for the points; anything else is drawn from what it is made of."""

    def __init__(self, numbers, seed):
        self.numbers, self.seed = numbers, seed

    def drawn(self, sort, *what):
        rng = random.Random(hash((self.seed, *what)))
        if sort == BOOL:
            return rng.random() < 0.5
        return rng.randrange(-9, 10) if sort == LONG else rng.choice([None, 1, 2])

    def of(self, t):
        give = getattr(self, t.kind, None)
        return give(t, *t.parts) if give else wrap_if(t.sort, OPERATORS[WORDS[t.kind]](*[self.of(p) for p in t.parts]))

    def number(self, t):
        return t.more

    def truth(self, t):
        return t.more

    def null(self, t):
        return None

    def atom(self, t):
        if is_point(t):
            return self.numbers[t.more]
        return 0 if t.sort == POINTER and t.more == (0, 0) else self.drawn(t.sort, t.kind, t.sort, t.more)

    def neg(self, t, a):
        return wrap(-self.of(a))

    def divide(self, t, a):
        return OPERATORS["/"](self.of(a), t.more)

    def remainder(self, t, a):
        return OPERATORS["%"](self.of(a), t.more)

    def fold(self, t, a, b):
        return OPERATORS[t.more](self.of(a), self.of(b))

    def choose(self, t, c, a, b):
        return self.of(a if self.of(c) else b)

    def read(self, t, *parts):
        return self.drawn(t.sort, t.kind, t.sort, t.more, *[self.of(p) for p in parts])

    read_at = result = read

    def select(self, t, a, i):
        return self.item(a, self.of(i))

    def item(self, array, i):
        """The item of an array at a number."""
        if array.kind == "atom":
            return self.drawn(array.sort, "item", array.sort, array.more, i)
        if array.kind == "choose":
            c, a, b = array.parts
            return self.item(a if self.of(c) else b, i)
        if array.kind == "sweep":
            a, first, last, v = array.parts
            return wrap(self.item(a, i) + self.of(v)) if self.of(first) <= i < self.of(last) else self.item(a, i)
        a, j, v = array.parts
        if self.of(j) != i:
            return self.item(a, i)
        return self.of(v) if array.kind == "put" else wrap(self.item(a, i) + self.of(v))


setattr(Valued, "not", lambda self, t, a: not self.of(a))
setattr(Valued, "and", lambda self, t, a, b: self.of(a) and self.of(b))
setattr(Valued, "or", lambda self, t, a, b: self.of(a) or self.of(b))


def wrap_if(sort, value):
    return wrap(value) if sort == LONG else value


def agree(rng, blocks, t, u):
    """Whether two terms give the same where numbers stand in this order."""
    for _ in range(TRIALS):
        numbers = chosen_numbers(rng, blocks)
        if numbers is not None:
            valued = Valued(numbers, rng.random())
            if valued.of(t) != valued.of(u):
                return False
    return True


class Disagreement(Exception):
    """Terms of one form under an order give different values there."""


def order_same(t, u):
    """Whether two terms that are no arrays have few points and one form under each order of them."""
    points = points_in(t, u)
    if len(points) > MOST_POINTS:
        return False
    rng = random.Random(len(points))
    for blocks in orders(points):
        under = Under(blocks)
        if under.of(t).form() != under.of(u).form():
            return False
        if not agree(rng, blocks, t, u):
            raise Disagreement(blocks)
    return True
