"""The text of a program, with the line of each statement."""

from reference.programs import BOOL, LONG

LEVELS = ["||", "&&", "|", "^", "&", "== !=", "< > <= >=", "+ -", "* / %"]
STRENGTH = {op: level for level, ops in enumerate(LEVELS) for op in ops.split()}
UNARY, TAIL = len(LEVELS), len(LEVELS) + 1


def type_text(ty):
    return ty + " " if ty in (LONG, BOOL) else ty + " *"


class Writer:
    """Writes a program with random blanks and comments.

    `lines` has the line of each statement, by its id. `points` has the pieces of the text before which something can
    be put, each with what can stand there (class, member, item) and in which body, and the last piece as `end`;
    `heads` the pieces that begin a class.
    """

    def __init__(self, rng):
        self.rng, self.text, self.line, self.lines = rng, [], 1, {}
        self.points, self.heads, self.body = [], [], "outside"

    def put(self, text):
        self.text.append(text)
        self.line += text.count("\n")

    def point(self, kind):
        self.points.append((len(self.text), kind, self.body))

    def gap(self):
        self.put(self.rng.choice([" ", "\n", " ", "\t", " /* é */ ", "\n", " // y\n"]))

    def expr(self, e, least=0):
        kind = e[0]
        if kind in ("unary", "binary"):
            strength = UNARY if kind == "unary" else STRENGTH.get(e[1], UNARY)
            text = self.operation(e, strength)
            return f"({text})" if strength < least or self.rng.random() < 0.1 else text
        if kind == "read":
            return self.own(e[2], e[3]) if e[1] is None else f"{self.expr(e[1], TAIL)}->{self.place(e[2], e[3])}"
        if kind == "call":
            front = "" if e[1] is None else self.expr(e[1], TAIL) + "->"
            return f"{front}{e[2].name}({', '.join(self.expr(a) for a in e[3])})"
        if kind == "new":
            return f"new {e[1]}" + self.rng.choice(["()", ""])
        return {"null": "nullptr", "this": "this"}.get(kind) or str(e[1]).lower() * (kind == "truth") or str(e[1])

    def operation(self, e, strength):
        if e[0] == "unary":
            return f"{e[1]} {self.expr(e[2], strength)}"
        if e[1] not in STRENGTH:
            return f"{e[1]}({self.expr(e[2])}, {self.expr(e[3])})"
        return f"{self.expr(e[2], strength)} {e[1]} {self.expr(e[3], strength + 1)}"

    def place(self, field, index):
        return field if index is None else f"{field}[{self.expr(index)}]"

    def own(self, field, index):
        return self.place(field, index)

    def simple(self, s):
        if s[0] == "local":
            return type_text(s[2]) + s[1] + ("" if s[3] is None else " = " + self.expr(s[3]))
        target = s[1] if s[0] == "put" else self.own(s[1], s[2])
        op, right = s[-2], s[-1]
        if op in ("+=", "-=") and right == ("number", 1) and self.rng.random() < 0.5:
            return target + op[0] * 2
        return f"{target} {op} {self.expr(right)}"

    def statement(self, s):
        self.gap()
        self.lines[id(s)] = self.line
        self.point("item")
        kind = s[0]
        if kind == "call":
            self.put(self.expr(s) + ";")
        elif kind == "print":
            self.put(f"print({self.expr(s[1])});")
        elif kind == "return":
            self.put(f"return {self.expr(s[1])};")
        elif kind == "block":
            self.block(s[1])
        elif kind in ("if", "while", "for"):
            self.compound(s)
        else:
            self.put(self.simple(s) + ";")

    def compound(self, s):
        if s[0] == "for":
            self.put(f"for ({self.simple(s[1])}; {self.expr(s[2])}; {self.simple(s[3])})")
            return self.branch(s[4])
        self.put(f"{s[0]} ({self.expr(s[1])})")
        self.branch(s[2], s[0] == "if" and s[3] is not None)
        if s[0] == "if" and s[3] is not None:
            self.put(" else")
            self.branch(s[3])

    def branch(self, body, has_else=False):
        self.block(body)

    def block(self, statements):
        self.gap()
        self.put("{")
        for s in statements:
            self.statement(s)
        self.gap()
        self.put("}")

    def method(self, m):
        self.point("member")
        params = ", ".join(type_text(t) + n for n, t in m.params)
        self.put(f"{'void ' if m.result is None else type_text(m.result)}{m.name}({params})")
        self.body = "operation" if m.result is None else m.result if m.result in (LONG, BOOL) else "pointer"
        self.block(m.body)
        self.body = "outside"

    def fields(self, fields):
        for name, ty, length in fields:
            self.point("member")
            self.put(f"{type_text(ty)}{name}{'' if length is None else f'[{length}]'};\n")

    def program(self, p):
        for c in p.classes:
            self.point("class")
            self.heads.append(len(self.text))
            self.put(f"class {c.name} {{ public:\n")
            self.fields(c.fields)
            for m in c.methods:
                self.method(m)
            self.point("member")
            self.put("};\n")
        self.point("class")
        self.put("int main()")
        self.body = "main"
        self.block(p.main)
        self.body = "outside"
        self.points.append((len(self.text) - 1, "end", self.body))
        return "".join(self.text)
