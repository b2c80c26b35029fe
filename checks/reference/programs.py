"""Random well typed programs.

An expression or a statement is a tuple whose first word says what it is:

    ("number", n) ("truth", b) ("null",) ("this",) ("local", name) ("new", class)
    ("read", pointer, field, index, length)     pointer None: an own field; index None: no array
    ("call", receiver, method, arguments)       receiver None: left out; a value, or a statement
    ("unary", op, e) ("binary", op, left, right)
    ("local", name, type, value) ("put", name, op, right) ("put_field", field, index, length, op, right)
    ("print", e) ("return", e) ("block", body) ("if", e, body, body) ("while", e, body)
    ("for", first, e, next, body)
"""

LONG, BOOL = "long", "bool"
NUMBERS = [0, 1, 2, 3, 7, 10, 2**31, 2**62, 2**63 - 1]
# Operators whose operands may stand in any order.
FOLDS = ["&", "|", "^", "max", "min"]
# Operators that give truth values.
TRUTHS = ["<", ">", "<=", ">=", "==", "!=", "&&", "||", "!"]


def assignments(folds):
    """The assignments of these operators."""
    return [f"{op}=" for op in folds if len(op) == 1]


class Class:
    """Fields are (name, type, length or None)."""

    def __init__(self, name):
        self.name, self.fields, self.methods = name, [], []


class Method:
    """An operation has no result. Parameters are (name, type)."""

    def __init__(self, name, result, params):
        self.name, self.result, self.params, self.body = name, result, params, []


class Program:
    """A random program. A method calls only those that stand before it in some order, so that runs are short.

    `folds` has the operators of FOLDS that it uses: all or none.
    """

    def __init__(self, rng, folds=FOLDS):
        self.rng, self.folds, self.fresh, self.loops = rng, folds, 0, 0
        self.classes = [Class(f"C{i}") for i in range(rng.randint(1, 3))]
        for c in self.classes:
            c.fields = [(f"f{i}", self.type(), rng.choice([None, None, None, 1, 3])) for i in range(rng.randint(1, 5))]
            c.methods = [self.method(f"m{i}") for i in range(rng.randint(1, 5))]
        order = [(c, m) for c in self.classes for m in c.methods]
        rng.shuffle(order)
        for at, (c, m) in enumerate(order):
            self.callable, self.within, self.result = order[:at], c, m.result
            m.body = self.block(m.params, 2)
            if m.result is not None:
                m.body.append(("return", self.expr(m.result, m.params, 2)))
        self.callable, self.within, self.result = order, None, None
        made = [(f"o{i}", rng.choice(self.classes).name) for i in range(rng.randint(1, 4))]
        self.main = [("local", name, ty, ("new", ty)) for name, ty in made] + self.block(made, 3, rng.randint(3, 20))

    def method(self, name):
        result = self.rng.choice([None, None, LONG, BOOL, self.rng.choice(self.classes).name])
        return Method(name, result, [(f"p{j}", self.type()) for j in range(self.rng.randint(0, 3))])

    def type(self):
        return self.rng.choice([LONG, LONG, BOOL, self.rng.choice(self.classes).name])

    # Expressions: of a type, over visible locals, nested so deep at most. Where one has no such form, it is a leaf.

    def expr(self, ty, names, depth):
        kinds = [self.leaf] * 2
        if depth > 0:
            kinds += [self.operate] * 4 + [self.value_call] * 2 + [self.read] * 3
        return self.rng.choice(kinds)(ty, names, depth - 1) or self.leaf(ty, names, 0)

    def leaf(self, ty, names, _):
        found = [n for n, t in names if t == ty]
        if found and self.rng.random() < (0.7 if ty in (LONG, BOOL) else 0.95):
            return ("local", self.rng.choice(found))
        if ty == LONG:
            return ("number", self.rng.choice(NUMBERS))
        if ty == BOOL:
            return ("truth", self.rng.choice([True, False]))
        if self.within and self.within.name == ty and self.rng.random() < 0.8:
            return ("this",)
        return ("null",)

    def operate(self, ty, names, depth):
        ops = {LONG: ["+", "-", "*", "-1"] * 6 + ["/", "%"] + 2 * self.folds, BOOL: TRUTHS}
        op = self.rng.choice(ops.get(ty, [None]))
        if op in ("-1", "!", None):
            return op and ("unary", op[0], self.expr(ty, names, depth))
        of = BOOL if op in ("&&", "||") else self.type() if op in ("==", "!=") else LONG
        return ("binary", op, self.expr(of, names, depth), self.expr(of, names, depth))

    def value_call(self, ty, names, depth):
        return self.call(ty, names, depth)

    def call(self, result, names, depth):
        found = self.callees(result)
        if not found:
            return None
        c, method = self.rng.choice(found)
        receiver = None
        if self.within is not c or self.rng.random() < 0.5:
            receiver = self.pointer(c, names, depth)
            if receiver is None:
                return None
        return ("call", receiver, method, [self.expr(t, names, depth) for _, t in method.params])

    def callees(self, result):
        return [(c, m) for c, m in self.callable if m.result == result]

    def pointer(self, c, names, depth):
        """An expression that may stand before `->`, which `nullptr` may not."""
        for _ in range(8):
            e = self.expr(c.name, names, depth if self.rng.random() < 0.2 else 0)
            if e != ("null",):
                return e
        return None

    def read(self, ty, names, depth):
        is_own = self.within and self.rng.random() < 0.6
        c = self.within if is_own else self.rng.choice(self.classes)
        found = [f for f in self.readable(c) if f[1] == ty]
        pointer = None if is_own else self.pointer(c, names, depth)
        if not found or not is_own and pointer is None:
            return None
        name, _, length = self.rng.choice(found)
        return ("read", pointer, name, self.index(length, names, depth), length)

    def readable(self, c):
        return c.fields

    def index(self, length, names, depth):
        if length is None:
            return None
        if self.rng.random() < 0.95:
            return ("number", self.rng.randrange(length))
        return self.expr(LONG, names, depth)

    # Statements. Those of a value method write no field, and call, create and print nothing.

    def block(self, names, depth, count=None):
        names = list(names)
        return [self.statement(names, depth) for _ in range(self.rng.randint(0, 4) if count is None else count)]

    def statement(self, names, depth):
        kinds = [self.local, self.put, self.put]
        if self.result is None:
            kinds += [self.call_statement] * 4 + [self.print] + [self.put_field] * 3
        if depth > 0:
            kinds += [self.branch] + [self.while_loop, self.for_loop] * (self.loops < 2)
        return self.rng.choice(kinds)(names, depth - 1) or self.local(names, depth)

    def local(self, names, _):
        name, ty = self.new_name("v"), self.type()
        value = self.right(ty, names) if self.rng.random() < (0.8 if ty in (LONG, BOOL) else 0.98) else None
        names.append((name, ty))
        return ("local", name, ty, value)

    def new_name(self, letter):
        self.fresh += 1
        return f"{letter}{self.fresh}"

    def right(self, ty, names):
        if ty not in (LONG, BOOL) and self.result is None and self.rng.random() < 0.3:
            return ("new", ty)
        return self.expr(ty, names, 2)

    def assigned(self, ty, names):
        if ty == LONG and self.rng.random() < 0.5:
            return self.rng.choice(["+=", "-=", "*="] + assignments(self.folds)), self.expr(LONG, names, 2)
        return "=", self.right(ty, names)

    def put(self, names, _):
        found = [n for n in names if not n[0].startswith("i")]
        if not found:
            return None
        name, ty = self.rng.choice(found)
        return ("put", name, *self.assigned(ty, names))

    def put_field(self, names, _):
        if not self.within:
            return None
        name, ty, length = self.rng.choice(self.within.fields)
        return ("put_field", name, self.index(length, names, 1), length, *self.assigned(ty, names))

    def call_statement(self, names, _):
        return self.call(None, names, 2)

    def print(self, names, _):
        return ("print", self.expr(self.rng.choice([LONG, BOOL]), names, 2))

    def branch(self, names, depth):
        then = self.block(names, depth)
        if self.result is not None and self.rng.random() < 0.3:
            then.append(("return", self.expr(self.result, names, 1)))
        return ("if", self.expr(BOOL, names, 2), then, self.block(names, depth) if self.rng.random() < 0.5 else None)

    def turns(self, names, depth):
        """A counter, which the body puts nothing to, the condition of its loop, its step and the body."""
        counter = self.new_name("i")
        self.loops += 1
        body = self.block(names + [(counter, LONG)], depth)
        self.loops -= 1
        bound = ("number", self.rng.randint(0, 4))
        return counter, ("binary", "<", ("local", counter), bound), ("put", counter, "+=", ("number", 1)), body

    def while_loop(self, names, depth):
        counter, cond, step, body = self.turns(names, depth)
        return ("block", [("local", counter, LONG, None), ("while", cond, [step] + body)])

    def for_loop(self, names, depth):
        counter, cond, step, body = self.turns(names, depth)
        return ("for", ("local", counter, LONG, ("number", 0)), cond, step, body)
