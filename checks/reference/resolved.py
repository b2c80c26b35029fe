"""The program of an accepted tree: what its names mean.

An expression is a tuple whose first word says what it is; fields and methods in it are objects, and locals numbers:

    ("number", n) ("truth", b) ("null",) ("this",) ("local", number) ("own", field) ("own_item", field, i)
    ("read", e, field) ("read_item", e, field, i) ("value", e, method, arguments)
    ("unary", op, e) ("binary", op, left, right)

A statement has its line behind this word. A right side is an expression, or None where an object is created:

    ("block", line, body) ("put", line, local, op, right) ("put_field", line, field, op, right)
    ("put_item", line, field, i, op, right) ("invoke", line, e, method, arguments) ("if", line, e, yes, no)
    ("while", line, e, body) ("for", line, first, e, next, body, counter) ("return", line, e) ("print", line, e)

The counter of a `for` is the local that its first part declares, or None.
"""

STARTS = {"long": ("number", 0), "bool": ("truth", False)}


class Field:
    def __init__(self, of, number, node):
        self.of, self.number, self.name, self.ty, self.length = of, number, node.name, node.ty, node.length


class Method:
    """`locals` has the type of each local, the parameters first."""

    def __init__(self, of, node):
        self.of, self.node, self.name, self.result = of, node, node and node.name, node and node.result
        self.params, self.locals, self.body = len(node.params) if node else 0, [], []

    def title(self):
        return f"{self.of}::{self.name}"


class Program:
    """The operations and value methods in the order of the text, and `main` as a method of no class.

    `sources` has each call statement and each `for`, by the id of the call or of the first part in the tree. `compared`
    keeps what comparing pairs of operations said.
    """

    def __init__(self, tree):
        self.tree, self.fields, self.methods, self.sources, self.compared = tree, {}, {}, {}, {}
        for c in tree.classes:
            nodes = [m for m in c.members if not hasattr(m, "params")]
            self.fields[c.name] = {f.name: Field(c.name, i, f) for i, f in enumerate(nodes)}
            self.methods[c.name] = {m.name: Method(c.name, m) for m in c.members if hasattr(m, "params")}
        every = [m for methods in self.methods.values() for m in methods.values()]
        self.ops = [m for m in every if m.result is None]
        self.functions = [m for m in every if m.result is not None]
        self.main = Method(None, None)
        for m in every:
            Resolver(self, m).body(m.node.params, m.node.body)
        Resolver(self, self.main).body([], tree.main)


class Resolver:
    """Resolves the body of a method. `scopes` has the visible locals, those of the innermost block last."""

    def __init__(self, program, method):
        self.program, self.method, self.scopes = program, method, []

    def body(self, params, statements):
        self.scopes.append({})
        for ty, name in params:
            self.declare(ty, name)
        self.method.body = [self.statement(s) for s in statements]

    def declare(self, ty, name):
        self.method.locals.append(ty)
        self.scopes[-1][name] = len(self.method.locals) - 1
        return self.scopes[-1][name]

    def local(self, name):
        return next((scope[name] for scope in reversed(self.scopes) if name in scope), None)

    # Statements

    def statement(self, s):
        return getattr(self, f"{s[0]}_statement")(*s[1:])

    def inner(self, resolve):
        self.scopes.append({})
        found = resolve()
        self.scopes.pop()
        return found

    def empty_statement(self, line):
        return ("block", line, [])

    def block_statement(self, line, statements):
        return ("block", line, self.inner(lambda: [self.statement(s) for s in statements]))

    def local_statement(self, line, ty, name, right):
        value = STARTS.get(ty, ("null",)) if right is None else self.right(right)
        return ("put", line, self.declare(ty, name), "=", value)

    def right(self, right):
        return None if right[0] == "new" else self.expression(right)

    def assign_statement(self, line, target, op, right):
        place = self.expression(target)
        word = {"local": "put", "own": "put_field", "own_item": "put_item"}[place[0]]
        return (word, line, *place[1:], op, self.right(right))

    def call_statement(self, line, call):
        return self.kept(("invoke", line, *self.expression(call)[1:]), call)

    def kept(self, found, node):
        self.program.sources[id(node)] = found
        return found

    def if_statement(self, line, condition, yes, no):
        parts = self.expression(condition), self.statement(yes)
        return ("if", line, *parts, self.statement(no or ("empty", line)))

    def while_statement(self, line, condition, body):
        return ("while", line, self.expression(condition), self.statement(body))

    def for_statement(self, line, first, condition, step, body):
        return self.inner(lambda: self.loop(line, first, condition, step, body))

    def loop(self, line, first, condition, step, body):
        start = self.statement(first)
        parts = (start, self.expression(condition), self.statement(step), self.statement(body))
        return self.kept(("for", line, *parts, start[2] if first[0] == "local" else None), first)

    def return_statement(self, line, e):
        return ("return", line, self.expression(e))

    def print_statement(self, line, e):
        return ("print", line, self.expression(e))

    # Expressions

    def expression(self, e):
        if e[0] in ("number", "truth", "null", "this"):
            return e
        return getattr(self, "method_call" if e[0] == "method" else e[0])(*e[1:])

    def name(self, name):
        local = self.local(name)
        return ("local", local) if local is not None else self.field(("this",), name)

    def call(self, name, arguments):
        return self.method_call(("this",), name, arguments)

    def method_call(self, e, name, arguments):
        receiver = self.expression(e)
        method = self.program.methods[self.type(receiver)][name]
        return ("value", receiver, method, tuple(self.expression(a) for a in arguments))

    def field(self, e, name):
        pointer = self.expression(e)
        found = self.program.fields[self.type(pointer)][name]
        return ("own", found) if pointer == ("this",) else ("read", pointer, found)

    def index(self, e, i):
        array = self.expression(e)
        return (f"{array[0]}_item", *array[1:], self.expression(i))

    def unary(self, op, e):
        return ("unary", op, self.expression(e))

    def binary(self, op, left, right):
        return ("binary", op, self.expression(left), self.expression(right))

    def type(self, e):
        """The class that a pointer is to."""
        kind = e[0]
        if kind == "this":
            return self.method.of
        if kind == "local":
            return self.method.locals[e[1]]
        return e[2].result if kind == "value" else (e[1] if kind.startswith("own") else e[2]).ty
