"""Pairs that are said to commute, run in both orders on random objects.

An operation's body is run on its receiver's object alone. Calls of operations are listed in place of being made, and
all other objects are as they were at the start.
"""

from collections import Counter

from reference.programs import BOOL, LONG
from reference.reference import OPERATORS, start_of, wrap

BUDGET = 300
TRIALS = 20
NUMBERS = [0, 1, 2, 3, 5, -1, -2, 2**62, 2**63 - 1, -(2**63)]


class Trap(Exception):
    pass


class Over(Exception):
    """More steps are due than these trials take."""


class Returned(Exception):
    pass


class Section:
    """Runs bodies on one object of a heap. An object is its fields, a pointer None or its number in the heap."""

    def __init__(self, heap, receiver, own, left):
        self.heap, self.receiver, self.own, self.left, self.listed = heap, receiver, own, left, []

    def run(self, method, arguments):
        self.step()
        self.locals = [start_of(ty) for ty in method.locals]
        self.locals[: method.params] = arguments
        self.body(method.body)

    def step(self):
        if self.left == 0:
            raise Over()
        self.left -= 1

    def object(self, pointer):
        if pointer is None:
            raise Trap()
        return self.heap[pointer]

    def checked(self, index, field):
        if not 0 <= index < field.length:
            raise Trap()
        return index

    # Statements

    def body(self, statements):
        for s in statements:
            getattr(self, f"{s[0]}_statement")(*s[2:])

    def block_statement(self, statements):
        self.body(statements)

    def assigned(self, old, op, right):
        value = self.value(right)
        return value if op == "=" else OPERATORS[op[0]](old, value)

    def put_statement(self, local, op, right):
        self.locals[local] = self.assigned(self.locals[local], op, right)

    def put_field_statement(self, field, op, right):
        self.own[field] = self.assigned(self.own[field], op, right)

    def put_item_statement(self, field, index, op, right):
        i = self.checked(self.value(index), field)
        self.own[field][i] = self.assigned(self.own[field][i], op, right)

    def invoke_statement(self, e, method, arguments):
        receiver, given = self.value(e), tuple(self.value(a) for a in arguments)
        self.object(receiver)
        self.listed.append((receiver, method, given))

    def if_statement(self, condition, yes, no):
        self.body([yes if self.value(condition) else no])

    def while_statement(self, condition, body):
        while self.value(condition):
            self.step()
            self.body([body])

    def for_statement(self, first, condition, step, body, counter):
        self.body([first])
        while self.value(condition):
            self.step()
            self.body([body, step])

    def return_statement(self, e):
        raise Returned(self.value(e))

    # Expressions

    def value(self, e):
        return getattr(self, f"{e[0]}_value")(*e[1:])

    def number_value(self, n):
        return n

    def truth_value(self, b):
        return b

    def null_value(self):
        return None

    def this_value(self):
        return self.receiver

    def local_value(self, local):
        return self.locals[local]

    def own_value(self, field):
        return self.own[field]

    def own_item_value(self, field, index):
        return self.own[field][self.checked(self.value(index), field)]

    def read_value(self, e, field):
        return self.object(self.value(e))[field]

    def read_item_value(self, e, field, index):
        found = self.object(self.value(e))[field]
        return found[self.checked(self.value(index), field)]

    def value_value(self, e, method, arguments):
        receiver, given = self.value(e), [self.value(a) for a in arguments]
        inner = Section(self.heap, receiver, self.object(receiver), self.left)
        try:
            inner.run(method, given)
        except Returned as it:
            self.left = inner.left
            return it.args[0]

    def unary_value(self, op, e):
        return wrap(-self.value(e)) if op == "-" else not self.value(e)

    def binary_value(self, op, left, right):
        a = self.value(left)
        if op in ("&&", "||"):
            return self.value(right) if a == (op == "&&") else a
        b = self.value(right)
        if op in ("/", "%") and b == 0:
            raise Trap()
        return OPERATORS[op](a, b)


class Trials:
    """Random objects, two of each class."""

    def __init__(self, rng, program):
        self.rng, self.program = rng, program
        self.classes = [name for name in program.fields for _ in range(2)]

    def differs(self, extent, a, b):
        """Whether the orders of two operations are seen to differ."""
        return any(self.trial(extent, a, b) for _ in range(TRIALS))

    def trial(self, extent, a, b):
        heap = [self.object(name) for name in self.classes]
        receiver = self.rng.choice([i for i, name in enumerate(self.classes) if name == a.of])
        own, other = dict(heap[receiver]), self.object(a.of)
        own.update((field, other[field]) for field in extent.written if field in own)
        first, second = ((op, [self.some(ty) for ty in op.locals[: op.params]]) for op in (a, b))
        try:
            return self.end(heap, receiver, own, first, second) != self.end(heap, receiver, own, second, first)
        except Over:
            return False

    def object(self, name):
        fields = self.program.fields[name].values()
        return {f: self.some(f.ty) if f.length is None else [self.some(f.ty) for _ in range(f.length)] for f in fields}

    def some(self, ty):
        if ty in (LONG, BOOL):
            return self.rng.choice(NUMBERS if ty == LONG else [False, True])
        return self.rng.choice([None] + 3 * [i for i, name in enumerate(self.classes) if name == ty])

    def end(self, heap, receiver, own, *calls):
        """What two operations leave, what they call, and how many steps they take; None where one traps."""
        copied = {f: list(v) if f.length is not None else v for f, v in own.items()}
        section = Section(heap, receiver, copied, BUDGET)
        try:
            for op, arguments in calls:
                section.run(op, arguments)
        except Trap:
            return None
        return copied, Counter(section.listed), section.left


def wrong_verdicts(rng, plan):
    """The pairs that are said to commute, and are seen not to."""
    trials, seen = Trials(rng, plan.program), set()
    for extent, verdicts in plan.verdicts.items():
        for a, b, reason in verdicts:
            key = (a, b, frozenset(extent.written))
            if reason is None and key not in seen and trials.differs(extent, a, b):
                yield f"{a.title()} {b.title()} commutes"
            seen.add(key)
