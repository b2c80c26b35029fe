"""Random programs for the analysis: operations that mostly commute, some of which are broken in one place.

The first letter of a field says what operations do with it: k is read alone, s is added to, t multiplied, l put to one
literal, a an array whose items are added to, and d is set where an operation does something once. To f an operator is
applied whose operands may stand in any order, one to each field.
"""

from reference.programs import BOOL, FOLDS, LONG, Class, Method, Program, assignments
from reference.texts import Writer, type_text

HEAVY = 17
# With which number an operator leaves the other operand as it is.
MINUS_ONE, GREATEST = ("unary", "-", ("number", 1)), ("number", 2**63 - 1)
LEAST = ("binary", "-", ("unary", "-", GREATEST), ("number", 1))
NEUTRAL = {"&": MINUS_ONE, "|": ("number", 0), "^": ("number", 0), "max": LEAST, "min": GREATEST}


def own(field):
    return ("read", None, field, None, None)


def fold_of(field):
    return FOLDS[int(field[1:]) % len(FOLDS)]


def put(field, op, right, index=None, length=None):
    return ("put_field", field, index, length, op, right)


class Objects(Program):
    """`careful` tells that expressions may only read what no operation writes, and divide by literals."""

    def __init__(self, rng, folds=FOLDS):
        self.rng, self.folds, self.fresh, self.loops, self.careful = rng, folds, 0, 0, True
        self.classes = [Class(f"C{i}") for i in range(rng.randint(1, 2))]
        for c in self.classes:
            c.fields = self.some_fields()
            c.methods = [self.header(c, f"m{i}") for i in range(rng.randint(1, 4))] + self.values()
        self.callable = [(c, m) for c in self.classes for m in c.methods]
        for c, m in self.callable:
            self.within, self.result = c, m.result
            m.body = self.operation(m.params) if m.result is None else self.value_body(m)
        self.within, self.result = None, None
        self.main = self.main_body()

    def main_body(self):
        made = [(f"o{i}", self.rng.choice(self.classes).name) for i in range(self.rng.randint(1, 3))]
        return [("local", name, ty, ("new", ty)) for name, ty in made] + self.calls(made, self.rng.randint(0, 4))

    def chance(self, probability):
        return self.rng.random() < probability

    # Classes

    def some_fields(self):
        has_folds = bool(self.folds)
        weights = [5, 4, 2, 2, 2, 2] + [5] * has_folds
        kinds = self.rng.choices("kstlad" + "f" * has_folds, weights, k=self.rng.randint(2, 7))
        return [self.field(f"{kind}{i}", kind) for i, kind in enumerate(kinds)]

    def field(self, name, kind):
        pointer = self.rng.choice(self.classes).name
        ty = self.rng.choice({"k": [LONG, BOOL, pointer, pointer], "l": [LONG, BOOL], "d": [BOOL]}.get(kind, [LONG]))
        lengths = {"a": [1, 4], "k": [None, None, None, 2]}
        return name, ty, self.rng.choice(lengths.get(kind, [None]))

    def header(self, c, name):
        hidden = [f[0] for f in c.fields] if self.chance(0.1) else []
        params = [f"p{i}" for i in range(self.rng.randint(0, 3))]
        for name_of_field in hidden[: len(params)]:
            params[hidden.index(name_of_field)] = name_of_field
        return Method(name, None, [(p, self.type()) for p in params])

    def values(self):
        """Value methods; c is careful, and w reads anything."""
        letters = self.rng.choice(["c", "cw", "cc", ""])
        return [self.method_of(f"{letter}{i}", letter) for i, letter in enumerate(letters)]

    def method_of(self, name, letter):
        result = self.rng.choice([LONG, LONG, BOOL, self.rng.choice(self.classes).name])
        return Method(name, result, [(f"p{j}", self.type()) for j in range(self.rng.randint(0, 2))])

    def value_body(self, m):
        self.careful = m.name[0] == "c"
        body = self.block(m.params, 1) + [("return", self.expr(m.result, m.params, 2))]
        self.careful = True
        return body

    # Expressions

    def readable(self, c):
        return [f for f in c.fields if f[0][0] == "k" or not self.careful]

    def callees(self, result):
        found = super().callees(result)
        return [(c, m) for c, m in found if result is None or m.name[0] == "c" or not self.careful]

    def operate(self, ty, names, depth):
        e = super().operate(ty, names, depth)
        if e and self.careful and e[1] in ("/", "%"):
            divisor = ("number", self.rng.choice([1, 2, 7, 2**63 - 1]))
            return (*e[:3], self.rng.choice([divisor, divisor, ("unary", "-", divisor)]))
        return e

    def fields_of(self, kinds):
        return [f for f in self.within.fields if f[0][0] in kinds]

    # Operations: updates, and then calls.

    def operation(self, params):
        names = list(params)
        body = self.updates(names, 2, self.rng.randint(0, 4))
        body += self.once() if self.chance(0.3) else []
        body += self.calls(names, self.rng.choice([0, 0, 1, 1, 2]))
        for _ in range(self.rng.choice([0, 0, 0, 0, 1, 1, 2])):
            self.careful = self.chance(0.8)
            self.break_at(body, names)
            self.careful = True
        return body

    def updates(self, names, depth, count):
        found = [self.update(names, depth) for _ in range(count)]
        return [s for s in found if s is not None]

    def update(self, names, depth):
        kind = self.rng.choice("ssstlaavpnw" + "ff" * bool(self.folds) + "i" * (depth > 0))
        if kind == "n":
            return ("block", self.neutral(names))
        if kind == "w":
            return self.sweep(names)
        if kind == "v":
            return self.local(names, 0)
        if kind == "p":
            return self.put(names, 0)
        if kind == "i":
            return self.choice(lambda: self.updates(list(names), depth - 1, self.rng.randint(0, 2)), names)
        fields = self.fields_of(kind)
        return self.put_to(*self.rng.choice(fields), names) if fields else None

    def choice(self, branch, names):
        return ("if", self.expr(BOOL, names, 2), branch(), branch() if self.chance(0.4) else None)

    def right(self, ty, names):
        return self.expr(ty, names, 2)

    def put_to(self, field, ty, length, names):
        kind = field[0]
        if kind == "l":
            return put(field, "=", ("truth", True) if ty == BOOL else ("number", len(field)))
        if kind == "f":
            return self.put_fold(field, names)
        index = self.expr(LONG, names, 1) if length and self.chance(0.6) else self.index(length, names, 1)
        old, e = ("read", None, field, index, length), self.expr(LONG, names, 2)
        op = "*" if kind == "t" else self.rng.choice("+-")
        is_turned = op != "-" and not length and self.chance(0.3)
        right = ("binary", op, e, old) if is_turned else ("binary", op, old, e)
        return self.rng.choice([put(field, f"{op}=", e, index, length), put(field, "=", right, index, length)])

    def put_fold(self, field, names):
        op, sides = fold_of(field), [own(field), self.expr(LONG, names, 2)]
        if len(op) == 1 and self.chance(0.5):
            return put(field, f"{op}=", sides[1])
        if self.chance(0.2):
            sides.append(self.expr(LONG, names, 1))
        self.rng.shuffle(sides)
        e = sides[0]
        for side in sides[1:]:
            e = ("binary", op, e, side) if self.chance(0.7) else ("binary", op, side, e)
        return put(field, "=", e)

    # Sweeps of arrays, and loops that are nearly such

    def sweep(self, names):
        fields = self.fields_of("a")
        if not fields:
            return None
        name, _, length = self.rng.choice(fields)
        i, e = self.new_name("i"), self.sum(names)
        steps = [("put", i, "+=", ("number", 1)), ("put", i, "=", ("binary", "+", ("local", i), ("number", 1)))]
        start = None if self.chance(0.2) else self.bound(names, length)
        condition = ("binary", "<" if self.chance(0.97) else "<=", ("local", i), self.bound(names, length))
        return ("for", ("local", i, LONG, start), condition, self.rng.choice(steps), self.swept(name, i, length, e))

    def swept(self, name, i, length, e):
        """The body: one thing is added to the item at the counter, or taken off."""
        index, op = ("local", i), self.rng.choice("++-")
        if self.chance(0.06):
            e = self.rng.choice([index, ("binary", "-", e, ("number", 1)), ("unary", "-", ("number", 2))])
        added = ("binary", op, ("read", None, name, index, length), e)
        forms = [put(name, f"{op}=", e, index, length), put(name, "=", added, index, length)]
        if self.chance(0.05):
            forms = [put(name, "=", e, index, length), put(name, "*=", e, index, length)]
        return [self.rng.choice(forms)] * (2 if self.chance(0.03) else 1)

    def bound(self, names, length):
        return ("number", self.rng.randint(0, length)) if self.chance(0.7) else self.sum(names)

    def sum(self, names):
        """A sum of products of numbers, parameters and fields that no operation writes, mostly."""
        if self.chance(0.04):
            return self.expr(LONG, names, 1)
        operator = self.rng.choice([None, None, None, "+", "*"])
        if operator is None:
            return self.atom(names)
        side = ("binary", "*", self.atom(names), self.atom(names)) if self.chance(0.2) else self.atom(names)
        return ("binary", operator, side, self.atom(names))

    def atom(self, names):
        params = [("local", n) for n, t in names if n[0] in "pq" and t == LONG]
        constants = [own(f[0]) for f in self.fields_of("k") if f[1] == LONG and f[2] is None]
        number = ("number", self.rng.choice([0, 1, 1, 2, 3, 7]))
        written = [own(f[0]) for f in self.fields_of("st")] if self.chance(0.03) else []
        return self.rng.choice([number] + params * 2 + constants + written)

    # What leaves all as it was, or does the same on each path, whatever others have written

    def neutral(self, names):
        ways = [self.to_and_fro, self.on_each_path, self.twice_negated, self.same_pointer]
        ways += [self.folded_twice] * bool(self.folds)
        return self.rng.choice(ways)(names) or []

    def condition(self, names):
        """A condition on written fields, which asks for nothing else."""
        fields = [own(f[0]) for f in self.fields_of("stld") if f[1] == BOOL]
        numbers = [own(f[0]) for f in self.fields_of("stf")] + [("number", 3)]
        op = self.rng.choice(["<", "<=", "==", "!=", ">", ">="])
        compared = ("binary", op, self.rng.choice(numbers), self.leaf(LONG, names, 0))
        found = self.rng.choice(fields + [compared])
        return ("unary", "!", found) if self.chance(0.3) else found

    def change(self, names):
        """A field that is added to, what is added, and its place in it."""
        fields = self.fields_of("sa")
        name, _, length = self.rng.choice(fields) if fields else (None, None, None)
        return name, self.expr(LONG, names, 1), self.index(length, names, 0), length

    def to_and_fro(self, names):
        name, e, index, length = self.change(names)
        return name and [put(name, op, e, index, length) for op in self.rng.choice([("+=", "-="), ("-=", "+=")])]

    def on_each_path(self, names):
        name, e, index, length = self.change(names)
        if name is None:
            return []
        condition, added = self.condition(names), put(name, "+=", e, index, length)
        if self.chance(0.5):
            return [("if", condition, [added], [added])]
        return [("if", condition, [added], None), ("if", ("unary", "!", condition), [added], None)]

    def twice_negated(self, names):
        fields = [f for f in self.fields_of("stld") if f[2] is None]
        if not fields:
            return []
        name, ty, _ = self.rng.choice(fields)
        it, yes, no = own(name), ("truth", True), ("truth", False)
        if ty == LONG:
            same = [("unary", "-", ("unary", "-", it)), ("binary", "*", it, ("number", 1))]
        else:
            pairs = [("&&", it), ("||", it), ("==", yes), ("!=", no), ("&&", yes), ("||", no)]
            same = [("unary", "!", ("unary", "!", it))] + [("binary", op, it, other) for op, other in pairs]
        return [put(name, "=", self.rng.choice(same))]

    def folded_twice(self, names):
        """A field with itself or with the number that doesn't change it, or the same twice to it."""
        fields = self.fields_of("stf")
        if not fields:
            return []
        name, e = self.rng.choice(fields)[0], self.expr(LONG, names, 1)
        if self.chance(0.4):
            return [put(name, "^=", e), put(name, "^=", e)]
        op = self.rng.choice(FOLDS)
        sides = [own(name), own(name) if op != "^" and self.chance(0.5) else NEUTRAL[op]]
        self.rng.shuffle(sides)
        return [put(name, "=", ("binary", op, *sides))]

    def same_pointer(self, names):
        c = self.rng.choice(self.classes).name
        e, v = self.expr(c, names, 0), self.new_name("v")
        return [("local", v, c, e), ("if", self.condition(names), [("put", v, "=", e)], None)]

    def once(self):
        """What is done under a mark; it names nothing that depends on the call."""
        marks = self.fields_of("d")
        if not marks:
            return []
        mark = self.rng.choice(marks)[0]
        inner = self.updates([], 1, self.rng.randint(0, 2)) + self.calls([], self.rng.randint(0, 2))
        return [("if", ("unary", "!", own(mark)), [put(mark, "=", ("truth", True))] + inner, None)]

    def calls(self, names, count):
        found = [self.some_call(names) for _ in range(count)]
        return [s for s in found if s is not None]

    def some_call(self, names):
        kind = self.rng.random()
        if kind < 0.2:
            return self.call_loop(names)
        if kind < 0.4:
            return self.choice(lambda: self.calls(names, self.rng.randint(0, 2)), names)
        return self.call_statement(names, 0)

    def call_loop(self, names):
        i = self.new_name("i")
        inner = names + [(i, LONG)]
        body = [s for s in (self.call_statement(inner, 0) for _ in range(self.rng.choice([1, 1, 2]))) if s is not None]
        start = None if self.chance(0.2) else self.expr(LONG, names, 1)
        steps = [("put", i, "+=", ("number", 1)), ("put", i, "=", ("binary", "+", ("local", i), ("number", 1)))]
        bound = ("binary", "<", ("local", i), self.expr(LONG, names, 1))
        return ("for", ("local", i, LONG, start), bound, self.rng.choice(steps), body)

    # What keeps an operation from commuting, mostly

    def break_at(self, body, names):
        """Puts something at a place of the body, or of a block in it."""
        inner = [s for s in body if s[0] == "if"]
        if inner and self.chance(0.3):
            return self.break_at(self.rng.choice(inner)[2], names)
        breaks = [self.careless, self.statement_of_any, self.greatest, self.division, self.printed, self.created]
        breaks += [self.looped, self.heavy, self.foreign, self.at_sum] + [self.mixed, self.mixed, self.told] * 3
        visible = names[: len([p for p in names if p[0][0] != "v"])]
        found = [s for s in self.rng.choice(breaks)(visible) if s is not None]
        front = next((at for at, s in enumerate(body) if s[0] in ("call", "if", "for")), len(body))
        at = self.rng.randint(0, front) if self.chance(0.8) else self.rng.randint(0, len(body))
        body[at:at] = found

    def sum_field(self):
        fields = self.fields_of("st")
        return self.rng.choice(fields)[0] if fields else None

    def careless(self, names):
        self.careful = False
        return self.updates(list(names), 1, 1)

    def statement_of_any(self, names):
        self.careful = False
        return [self.statement(list(names), 1)]

    def greatest(self, names):
        f, e = self.sum_field(), self.expr(LONG, names, 0)
        return [("if", ("binary", "<", own(f), e), [put(f, "=", e)], None)] if f else []

    def mixed(self, names):
        """Another operation than the usual one on a field."""
        changed = self.fields_of("stladf")
        name, ty, length = self.rng.choice(changed if changed and self.chance(0.9) else self.within.fields)
        op = self.rng.choice(["+=", "*=", "=", "="] + assignments(self.folds)) if ty == LONG else "="
        return [put(name, op, self.expr(ty, names, 1), self.index(length, names, 1), length)]

    def division(self, names):
        f, divisor = self.sum_field(), self.expr(LONG, names, 0)
        return [put(f, "+=", ("binary", self.rng.choice("/%"), self.expr(LONG, names, 0), divisor))] if f else []

    def printed(self, names):
        return [self.print(names, 0)]

    def created(self, names):
        name, ty, length = self.rng.choice(self.within.fields)
        if ty in (LONG, BOOL):
            ty = self.rng.choice(self.classes).name
            return [("local", self.new_name("v"), ty, ("new", ty))]
        return [put(name, "=", ("new", ty), self.index(length, names, 0), length)]

    def looped(self, names):
        return [self.rng.choice([self.while_loop, self.for_loop])(list(names), 0)]

    def heavy(self, names):
        f = self.sum_field()
        if f is None:
            return []
        if self.chance(0.5):
            op = self.rng.choice(["+", *self.folds]) if self.folds else "+"
            return [put(f, "=", ("binary", op, own(f), own(f)))] * self.rng.randint(HEAVY - 3, HEAVY + 1)
        wide = ("binary", "+", self.expr(LONG, names, 1), ("binary", "+", own(f), ("number", 1)))
        return [put(f, "*=", wide)] * self.rng.randint(2, 12)

    def foreign(self, names):
        f, c = self.sum_field(), self.rng.choice(self.classes)
        pointer, fields = self.pointer(c, names, 1), [g for g in c.fields if g[1] == LONG and g[2] is None]
        if f is None or pointer is None or not fields:
            return []
        return [put(f, "+=", ("read", pointer, self.rng.choice(fields)[0], None, None))]

    def told(self, names):
        """A call that is handed what others change."""
        self.careful = False
        return [self.call_statement(names, 0)]

    def at_sum(self, names):
        f, arrays = self.sum_field(), self.fields_of("a")
        if f is None or not arrays:
            return []
        name, _, length = self.rng.choice(arrays)
        return [put(name, "+=", self.expr(LONG, names, 1), own(f), length)]


class FreeWriter(Writer):
    """Writes what means the same in several ways: `this->f`, branches without a block, empty statements, fields in one
    declaration, forward declarations, the end of `main`."""

    def __init__(self, rng):
        super().__init__(rng)
        self.hidden = set()

    def own(self, field, index):
        front = "this->" if field in self.hidden or self.rng.random() < 0.1 else ""
        return front + super().own(field, index)

    def method(self, m):
        self.hidden = {name for name, _ in m.params}
        super().method(m)

    def branch(self, body, has_else=False):
        if len(body) != 1 or self.rng.random() < 0.3:
            return self.block(body)
        if body[0][0] == "local" or has_else and body[0][0] in ("if", "while", "for"):
            return self.block(body)
        self.statement(body[0])

    def statement(self, s):
        super().statement(s)
        if self.rng.random() < 0.02 and s[0] == "local":
            self.put(";")

    def fields(self, fields):
        if self.rng.random() < 0.2:
            self.put(f"{type_text(LONG)}z0, z1[2];\n")
        super().fields(fields)

    def program(self, p):
        if self.rng.random() < 0.2:
            self.put(f"class {self.rng.choice(p.classes).name};\n")
        if self.rng.random() < 0.2:
            p.main.append(("return", ("number", 0)))
        return super().program(p)
