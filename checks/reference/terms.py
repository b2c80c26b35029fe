"""Terms of the symbolic execution with their weights, and their normal forms.

The form of a number or truth value is a sum: a frozen set of pairs of a monomial and its factor modulo 2^64, and a
monomial is a frozen set of pairs of a part and its exponent. Truth is 1, and falsehood the empty sum. A part is a tuple
of a word, its sort and what it is made of. A part that `&`, `|`, `^`, `max` or `min` makes has the operator, what its
numbers come to and the set of its other operands, which are sums. The form of a pointer is a part, ("null",) or
("choice", sum, form, form). That of an array is ("items", sort, number), ("put", array, index, form), ("sums", array, frozen set of pairs of an
index, or a range ("range", sum, sum), and a sum) or ("choice", sum, array, array).
"""

from collections import Counter
from functools import reduce

LONG, BOOL, POINTER = "long", "bool", "pointer"
WORD, LEAST = 2**64, -(2**63)
DEPTH_WEIGHT = 16
# Operators whose operands may stand in any order: the value of two numbers, the number that changes no other, and the
# one that no other changes. Two equal operands of `^` are nothing, of the others one.
FOLDS = {
    "max": (max, LEAST, -LEAST - 1),
    "min": (min, -LEAST - 1, LEAST),
    "&": (lambda a, b: a & b, -1, 0),
    "|": (lambda a, b: a | b, 0, -1),
    "^": (lambda a, b: a ^ b, 0, None),
}


class Term:
    """A term with its weight. `more` is what isn't a term in it; an array has the sort of its items, and is_array."""

    def __init__(self, kind, sort, parts=(), more=None, is_array=False):
        self.kind, self.sort, self.parts, self.more, self.is_array = kind, sort, parts, more, is_array
        self.spread = SPREADS.get(kind, plain_spread)(*parts)
        self.share = SHARES[kind](*parts) if is_array and kind in SHARES else 1
        self.nodes = 1 + sum(t.nodes for t in parts)
        self.depth = 1 + max((t.depth for t in parts), default=0)
        self.known = None

    def weight(self):
        return max(self.spread, self.nodes, DEPTH_WEIGHT * self.depth)

    def form(self):
        if self.known is None:
            self.known = FORMS[self.kind](self, *self.parts)
        return self.known


def plain_spread(*parts):
    return 1 + sum(t.spread for t in parts)


def sum_of(*parts):
    return sum(t.spread for t in parts)


def either_spread(a, b):
    return a.spread + b.spread + a.spread * b.spread


SPREADS = {
    "add": sum_of,
    "sub": sum_of,
    "neg": sum_of,
    "less": sum_of,
    "less_equal": sum_of,
    "put": sum_of,
    "add_at": sum_of,
    "sweep": sum_of,
    "fold": sum_of,
    "mul": lambda a, b: a.spread * b.spread,
    "and": lambda a, b: a.spread * b.spread,
    "or": either_spread,
    "same": lambda a, b: 1 + either_spread(a, b) if a.sort == BOOL else sum_of(a, b),
    "choose": lambda c, a, b: b.spread + c.spread * (a.spread + b.spread),
    "select": lambda a, i: 1 + i.spread * a.share,
}
SHARES = {
    "put": lambda a, i, v: 2 * a.share + i.spread * v.spread,
    "add_at": lambda a, i, v: a.share + i.spread * v.spread,
    "sweep": lambda a, f, t, v: a.share + f.spread * t.spread * v.spread,
    "choose": lambda c, a, b: b.share + c.spread * (a.share + b.share),
}

# Sums

NOTHING, ONE = frozenset(), frozenset()


def constant(n):
    return frozenset([(ONE, n % WORD)]) if n % WORD else NOTHING


def alone(part):
    return frozenset([(frozenset([(part, 1)]), 1)])


def frozen(factors):
    return frozenset((m, factor % WORD) for m, factor in factors.items() if factor % WORD)


def combined(*pairs):
    """The sum of sums, each so many times."""
    factors = {}
    for times, form in pairs:
        for m, factor in form:
            factors[m] = factors.get(m, 0) + times * factor
    return frozen(factors)


def monomials_product(m, n):
    exponents = dict(m)
    for part, exponent in n:
        exponents[part] = 1 if part[1] == BOOL else exponents.get(part, 0) + exponent
    return frozenset(exponents.items())


def product(a, b):
    factors = {}
    for m, left in a:
        for n, right in b:
            both = monomials_product(m, n)
            factors[both] = factors.get(both, 0) + left * right
    return frozen(factors)


def opposite(a):
    return combined((-1, a))


def negation(a):
    return combined((1, constant(1)), (-1, a))


def chosen(c, a, b):
    return combined((1, b), (1, product(c, combined((1, a), (-1, b)))))


def constancy(form):
    """The number, with its sign, that a sum is, or None."""
    if not form:
        return 0
    (m, factor), *more = form
    return (factor - LEAST) % WORD + LEAST if m == ONE and not more else None


def less(a, b):
    m, n = constancy(a), constancy(b)
    if m is not None and n is not None:
        return constant(m < n)
    return NOTHING if a == b else alone(("less", BOOL, a, b))


def same_numbers(a, b):
    difference = combined((1, a), (-1, b))
    n = constancy(difference)
    return alone(("zero", BOOL, frozenset([difference, opposite(difference)]))) if n is None else constant(n == 0)


def same_truths(a, b):
    return combined((1, constant(1)), (-1, a), (-1, b), (2, product(a, b)))


def divided(form, divisor, word):
    n = constancy(form)
    if n is None:
        return alone((word, LONG, form, divisor))
    quotient = abs(n) // abs(divisor) * (1 if (n < 0) == (divisor < 0) else -1)
    return constant(quotient if word == "quotient" else n - quotient * divisor)


def only_part(form):
    """The part that a sum is, or None."""
    if len(form) != 1:
        return None
    [(m, factor)] = form
    return next((part for part, exponent in m if len(m) == exponent == factor == 1), None)


def operands_of(op, form):
    """The numbers and the other operands that an operand stands for."""
    n, part = constancy(form), only_part(form)
    if n is not None:
        return [n], []
    return ([part[3]], part[4]) if part and part[:3] == ("fold", LONG, op) else ([], [form])


def folded(op, a, b):
    value, neutral, absorbing = FOLDS[op]
    numbers, counts = [neutral], Counter()
    for form in (a, b):
        found, operands = operands_of(op, form)
        numbers += found
        counts.update(operands)
    n = reduce(value, numbers)
    kept = frozenset(form for form, count in counts.items() if op != "^" or count % 2)
    if n == absorbing or not kept:
        return constant(n)
    return next(iter(kept)) if len(kept) == 1 and n == neutral else alone(("fold", LONG, op, n, kept))


# Pointers

NULL, RECEIVER = ("null",), ("atom", POINTER, 0, 0)


def same_pointers(p, q):
    if p == q:
        return constant(1)
    return NOTHING if {p, q} == {NULL, RECEIVER} else alone(("same", BOOL, frozenset([p, q])))


def chosen_pointer(c, p, q):
    n = constancy(c)
    if p == q or n is None:
        return p if p == q else ("choice", c, p, q)
    return p if n else q


# Arrays


def last_sums(array):
    """An array without a last gathered sum, and this sum as a dictionary."""
    return (array[1], dict(array[2])) if array[0] == "sums" else (array, {})


def with_sums(array, rows):
    kept = frozenset((index, form) for index, form in rows.items() if form)
    return ("sums", array, kept) if kept else array


def added(array, index, form):
    base, rows = last_sums(array)
    rows[index] = combined((1, rows.get(index, NOTHING)), (1, form))
    return with_sums(base, rows)


def swept(array, first, last, form):
    """A range of two equal bounds adds nothing."""
    return array if first == last else added(array, ("range", first, last), form)


def lies_in(place, j):
    """Whether j is an index, or lies in a range."""
    if isinstance(place, tuple):
        return product(negation(less(j, place[1])), less(j, place[2]))
    return same_numbers(place, j)


def chosen_array(c, a, b):
    (base, ones), (other, twos) = last_sums(a), last_sums(b)
    if base != other:
        return ("choice", c, a, b)
    indexes = ones.keys() | twos.keys()
    return with_sums(base, {i: chosen(c, ones.get(i, NOTHING), twos.get(i, NOTHING)) for i in indexes})


def item(array, j, sort):
    """The form of the item at j."""
    choose = chosen_pointer if sort == POINTER else chosen
    kind, *parts = array
    if kind == "items":
        part = ("item", sort, parts[1], j)
        return part if sort == POINTER else alone(part)
    if kind == "choice":
        return choose(parts[0], item(parts[1], j, sort), item(parts[2], j, sort))
    before = item(parts[0], j, sort)
    if kind == "put":
        return choose(same_numbers(parts[1], j), parts[2], before)
    return combined((1, before), *[(1, product(lies_in(i, j), form)) for i, form in parts[1]])


# Terms and their forms


def form_of_part(sort, part):
    return part if sort == POINTER else alone(part)


def atom_form(t):
    group, number = t.more
    if t.is_array:
        return ("items", t.sort, number)
    return form_of_part(t.sort, ("atom", t.sort, group, number))


def choose_form(t, c, a, b):
    choose = chosen_array if t.is_array else chosen_pointer if t.sort == POINTER else chosen
    return choose(c.form(), a.form(), b.form())


def same_form(t, a, b):
    compare = {LONG: same_numbers, BOOL: same_truths, POINTER: same_pointers}[a.sort]
    return compare(a.form(), b.form())


def read_form(t, *parts):
    return form_of_part(t.sort, (t.kind, t.sort, t.more, *[p.form() for p in parts]))


def either(a, b):
    return combined((1, a), (1, b), (-1, product(a, b)))


FORMS = {
    "number": lambda t: constant(t.more),
    "truth": lambda t: constant(t.more),
    "null": lambda t: NULL,
    "atom": atom_form,
    "add": lambda t, a, b: combined((1, a.form()), (1, b.form())),
    "sub": lambda t, a, b: combined((1, a.form()), (-1, b.form())),
    "neg": lambda t, a: opposite(a.form()),
    "mul": lambda t, a, b: product(a.form(), b.form()),
    "and": lambda t, a, b: product(a.form(), b.form()),
    "or": lambda t, a, b: either(a.form(), b.form()),
    "not": lambda t, a: negation(a.form()),
    "divide": lambda t, a: divided(a.form(), t.more, "quotient"),
    "remainder": lambda t, a: divided(a.form(), t.more, "modulus"),
    "fold": lambda t, a, b: folded(t.more, a.form(), b.form()),
    "less": lambda t, a, b: less(a.form(), b.form()),
    "less_equal": lambda t, a, b: negation(less(b.form(), a.form())),
    "same": same_form,
    "choose": choose_form,
    "read": read_form,
    "read_at": read_form,
    "result": read_form,
    "select": lambda t, a, i: item(a.form(), i.form(), t.sort),
    "put": lambda t, a, i, v: ("put", a.form(), i.form(), v.form()),
    "add_at": lambda t, a, i, v: added(a.form(), i.form(), v.form()),
    "sweep": lambda t, a, f, u, v: swept(a.form(), f.form(), u.form(), v.form()),
}


def sort_of(ty):
    return ty if ty in (LONG, BOOL) else POINTER


def number(n):
    return Term("number", LONG, more=n)


def truth(b):
    return Term("truth", BOOL, more=b)


def null():
    return Term("null", POINTER)


def atom(ty, group, n, is_array=False):
    return Term("atom", sort_of(ty), more=(group, n), is_array=is_array)


def operation(op, left, right):
    """The term of a binary operator other than a division."""
    if op in (">", ">="):
        return operation(op.replace(">", "<"), right, left)
    if op == "!=":
        return Term("not", BOOL, (operation("==", left, right),))
    if op in FOLDS:
        return Term("fold", LONG, (left, right), more=op)
    word, sort = OPERATIONS[op]
    return Term(word, sort, (left, right))


OPERATIONS = {
    "+": ("add", LONG),
    "-": ("sub", LONG),
    "*": ("mul", LONG),
    "<": ("less", BOOL),
    "<=": ("less_equal", BOOL),
    "==": ("same", BOOL),
    "&&": ("and", BOOL),
    "||": ("or", BOOL),
}
