"""Symbolic execution of two operations one after the other, and the verdict on a pair by both orders."""

from functools import reduce

from reference.rankings import order_same
from reference.terms import BOOL, LONG, POINTER, Term, atom, combined, null, number, operation, sort_of, truth

GREATEST_WEIGHT = 65536
RECEIVER_GROUP, START_GROUP = 0, 3


class Heavy(Exception):
    """A term that is made weighs too much."""


def light(term):
    if term.weight() > GREATEST_WEIGHT:
        raise Heavy()
    return term


def start_of(ty):
    return {LONG: number(0), BOOL: truth(False)}.get(ty) or null()


def counts_up(s):
    """Whether a `for` declares its counter, compares it with something, and counts it up by one."""
    _, _, first, condition, step, _, counter = s
    i = ("local", counter)
    steps = [("+=", ("number", 1)), ("=", ("binary", "+", i, ("number", 1)))]
    return (
        counter is not None
        and first[4] is not None
        and condition[:3] == ("binary", "<", i)
        and step[0] == "put" and step[2] == counter and step[3:] in steps
    )


def held_in(body):
    return body[2] if body[0] == "block" else [body]


def is_call_loop(s):
    calls = held_in(s[5])
    return counts_up(s) and calls != [] and all(call[0] == "invoke" for call in calls)


def sweep_form(s):
    """The field that a `for` sweeps by its form, its bounds, what it adds, and whether it takes that off; or None."""
    body = held_in(s[5])
    if not counts_up(s) or len(body) != 1 or body[0][0] != "put_item" or body[0][3] != ("local", s[6]):
        return None
    _, _, field, index, op, right = body[0]
    if op == "=" and right is not None and right[0] == "binary" and right[2] == ("own_item", field, index):
        op, right = f"{right[1]}=", right[3]
    elif op == "=":
        return None
    return (field, s[2][4], s[3][3], right, op == "-=") if op in ("+=", "-=") else None


def is_sum(e, may_name):
    """Whether an expression is a sum of products of numbers and of what may be named."""
    if e[:2] == ("binary", "+"):
        return is_sum(e[2], may_name) and is_sum(e[3], may_name)
    return is_product(e, may_name)


def is_product(e, may_name):
    if e[:2] == ("binary", "*"):
        return is_product(e[2], may_name) and is_product(e[3], may_name)
    return e[0] == "number" or e[0] in ("local", "own") and may_name(e)


def sweep_in(s, may_name=lambda e: True):
    """What a `for` sweeps, where its bounds and what it adds are such sums, none of which names its counter."""
    found = sweep_form(s)
    parts = found[1:4] if found else ()
    return found if all(is_sum(e, lambda e: e != ("local", s[6]) and may_name(e)) for e in parts) else None


# What stands in a statement: other statements, and its own expressions. And what stands in an expression.
HELD = {
    "block": lambda s: s[2],
    "if": lambda s: s[3:],
    "while": lambda s: s[3:],
    "for": lambda s: (s[2], s[4], s[5]),
}
EXPRESSIONS = {
    "put": lambda s: s[4:],
    "put_field": lambda s: s[4:],
    "put_item": lambda s: (s[3], s[5]),
    "invoke": lambda s: (s[2], *s[4]),
    "block": lambda s: (),
    "for": lambda s: s[3:4],
}
INNER = {
    "own_item": lambda e: e[2:],
    "read": lambda e: e[1:2],
    "read_item": lambda e: (e[1], e[3]),
    "value": lambda e: (e[1], *e[3]),
    "unary": lambda e: e[2:],
    "binary": lambda e: e[2:],
}


def statements_in(s):
    """A statement and those that it holds, in the order of the text."""
    yield s
    for held in HELD.get(s[0], lambda s: ())(s):
        yield from statements_in(held)


def expressions_in(e):
    """An expression and those that it holds."""
    yield e
    for inner in INNER.get(e[0], lambda e: ())(e):
        yield from expressions_in(inner)


def expressions_of(s):
    """The expressions of a statement and of those that it holds."""
    for each in statements_in(s):
        for e in EXPRESSIONS.get(each[0], lambda s: s[2:3])(each):
            if e is not None:
                yield from expressions_in(e)


def first_other_loop(method, written):
    """The line of the first loop that is neither a call loop nor a sweep of parameters and of fields that aren't written."""

    def may_name(e):
        return e[1] < method.params if e[0] == "local" else e[1] not in written

    loops = (s for top in method.body for s in statements_in(top) if s[0] in ("while", "for"))
    others = (s for s in loops if s[0] == "while" or not is_call_loop(s) and sweep_in(s, may_name) is None)
    return next((s[1] for s in others), None)


def targets_in(s):
    """The fields and the locals that a branch puts; the counter of a loop is none."""
    puts = [each for each in statements_in(s) if each[0].startswith("put")]
    counters = {each[6] for each in statements_in(s) if each[0] == "for"}
    return {p[2] for p in puts} - counters


class Order:
    """What operations on one object, one after the other, leave in the fields and demand."""

    def __init__(self, fields):
        self.state = {f: atom(f.ty, START_GROUP, f.number, f.length is not None) for f in fields}
        self.demands = {}

    def run(self, op, group):
        for local, ty in enumerate(op.locals):
            self.state[local] = atom(ty, group, local) if local < op.params else start_of(ty)
        self.statements(op.body, truth(True))

    def demand(self, guard, kind, *parts):
        self.demands.setdefault(kind, []).append((guard, [light(t) for t in parts]))

    def demanded(self):
        """The conditions under each kind and forms of parts, in the order of the demands."""
        conditions = {}
        for kind, found in self.demands.items():
            for guard, parts in found:
                conditions.setdefault((kind, *[t.form() for t in parts]), []).append(guard)
        return conditions

    def both(self, guard, condition):
        return light(Term("and", BOOL, (guard, condition)))

    def without(self, guard, condition):
        return self.both(guard, Term("not", BOOL, (condition,)))

    # Statements

    def statements(self, statements, guard):
        for s in statements:
            getattr(self, f"{s[0]}_statement")(guard, s)

    def block_statement(self, guard, s):
        self.statements(s[2], guard)

    def put_statement(self, guard, s):
        """A put to a local, or to a field that is no array."""
        _, _, place, op, right = s
        value = self.value(right, guard)
        self.state[place] = light(value if op == "=" else operation(op[0], self.state[place], value))

    put_field_statement = put_statement

    def put_item_statement(self, guard, s):
        _, _, field, index, op, right = s
        i = self.value(index, guard)
        self.demand(guard, ("in_range", field), i)
        self.state[field] = light(self.array(guard, field, ("own_item", field, index), i, op, right))

    def array(self, guard, field, place, i, op, right):
        """The array behind a put to an item. What is written as a sum with the item adds to it."""
        array = self.state[field]
        if op == "=" and right[0] == "binary" and right[1] in ("+", "-") and right[2] == place:
            self.value(place, guard)
            op, right = f"{right[1]}=", right[3]
        value = self.value(right, guard)
        if op not in ("=", "+=", "-="):
            value = operation(op[0], Term("select", array.sort, (array, i)), value)
        if op == "-=":
            value = Term("neg", LONG, (value,))
        return Term("add_at" if op in ("+=", "-=") else "put", array.sort, (array, i, value), is_array=True)

    def invoke_statement(self, guard, s):
        _, _, receiver, op, arguments = s
        self.call(guard, ("invokes", op), receiver, arguments)

    def call(self, guard, kind, receiver, arguments):
        parts = [self.value(e, guard) for e in (receiver, *arguments)]
        self.demand(guard, "not_null", parts[0])
        self.demand(guard, kind, *parts)
        return parts

    def for_statement(self, guard, s):
        """A sweep, or a call loop: one demand, with the locals that it reads beside its counter."""
        found = sweep_in(s)
        if found:
            return self.sweep(guard, *found)
        read = {e[1] for e in expressions_of(s) if e[0] == "local"} - {s[6]}
        self.demand(guard, ("loop", id(s)), *[self.state[local] for local in sorted(read)])

    def sweep(self, guard, field, first, last, added, is_minus):
        """One demand, with the bounds. Sums demand nothing."""
        bounds = self.value(first, guard), self.value(last, guard)
        value = self.value(added, guard)
        if is_minus:
            value = Term("neg", LONG, (value,))
        self.demand(guard, ("sweeps", field), *bounds)
        array = self.state[field]
        self.state[field] = light(Term("sweep", array.sort, (array, *bounds, value), is_array=True))

    def if_statement(self, guard, s):
        _, _, e, yes, no = s
        condition, before = self.value(e, guard), dict(self.state)
        self.statements([yes], self.both(guard, condition))
        ones, self.state = self.state, before
        self.statements([no], self.without(guard, condition))
        for place in targets_in(yes) | targets_in(no):
            a, b = ones[place], self.state[place]
            self.state[place] = light(Term("choose", a.sort, (condition, a, b), is_array=a.is_array))

    # Expressions: the term, and what it demands.

    def value(self, e, guard):
        return getattr(self, f"{e[0]}_value")(guard, *e[1:])

    def number_value(self, guard, n):
        return number(n)

    def truth_value(self, guard, b):
        return truth(b)

    def null_value(self, guard):
        return null()

    def this_value(self, guard):
        return atom(POINTER, RECEIVER_GROUP, 0)

    def local_value(self, guard, local):
        return self.state[local]

    def own_value(self, guard, field):
        return self.state[field]

    def own_item_value(self, guard, field, index):
        i = self.value(index, guard)
        self.demand(guard, ("in_range", field), i)
        return Term("select", sort_of(field.ty), (self.state[field], i))

    def read_value(self, guard, e, field):
        p = self.value(e, guard)
        self.demand(guard, "not_null", p)
        return Term("read", sort_of(field.ty), (p,), more=field)

    def read_item_value(self, guard, e, field, index):
        p = self.value(e, guard)
        self.demand(guard, "not_null", p)
        i = self.value(index, guard)
        self.demand(guard, ("in_range", field), i)
        return Term("read_at", sort_of(field.ty), (p, i), more=field)

    def value_value(self, guard, e, method, arguments):
        parts = self.call(guard, ("calls", method), e, arguments)
        return Term("result", sort_of(method.result), tuple(parts), more=method)

    def unary_value(self, guard, op, e):
        word, sort = ("neg", LONG) if op == "-" else ("not", BOOL)
        return Term(word, sort, (self.value(e, guard),))

    def binary_value(self, guard, op, left, right):
        a = self.value(left, guard)
        if op in ("/", "%"):
            divisor = right[1] if right[0] == "number" else -right[2][1]
            return Term("divide" if op == "/" else "remainder", LONG, (a,), more=divisor)
        inner = {"&&": self.both, "||": self.without}.get(op)
        return operation(op, a, self.value(right, inner(guard, a) if inner else guard))


def compared(fields, a, b):
    """What comparing the orders of two separable operations without other loops says: None, or the reason."""
    one, other = Order(fields), Order(fields)
    try:
        one.run(a, 1), one.run(b, 2)
        other.run(b, 2), other.run(a, 1)
    except Heavy:
        return "Large"
    for field in fields:
        if not same_field(one.state[field], other.state[field]):
            return f"FieldDiffers {field.name}"
    ones, others = one.demanded(), other.demanded()
    same = all(same_demand(ones.get(key, []), others.get(key, [])) for key in ones.keys() | others.keys())
    return None if same else "DemandsDiffer"


def same_field(t, u):
    """Whether the terms of a field are the same by forms, or those of a single value by orders."""
    return t.form() == u.form() or (not t.is_array and order_same(t, u))


def same_demand(ones, others):
    """Whether demands under these conditions are as many: by the sum of these, or by orders, where it isn't too heavy."""
    sums = [combined(*[(1, guard.form()) for guard in guards]) for guards in (ones, others)]
    if sums[0] == sums[1]:
        return True
    counts = [count_of(ones), count_of(others)]
    return all(t.weight() <= GREATEST_WEIGHT for t in counts) and order_same(*counts)


def count_of(guards):
    """How many of the conditions hold, as a term."""
    counted = [Term("choose", LONG, (guard, number(1), number(0))) for guard in guards]
    return reduce(lambda t, u: Term("add", LONG, (t, u)), counted) if counted else number(0)
