"""The analysis by docs/reference/analysis.md: extents, separability, verdicts, marks, and the texts of `pairs` and `plan`."""

from reference.execution import compared, expressions_of, first_other_loop, is_call_loop, statements_in
from reference.resolved import Program


def calls_in(statements):
    return [s[3] for top in statements for s in statements_in(top) if s[0] == "invoke"]


def functions_in(expressions):
    return {e[2] for e in expressions if e[0] == "value"}


def fields_in(expressions):
    return {e[1] if e[0].startswith("own") else e[2] for e in expressions if e[0].split("_")[0] in ("own", "read")}


def reached(roots, further):
    """What some things lead to, themselves included."""
    found, due = set(), list(roots)
    while due:
        it = due.pop()
        if it not in found:
            found.add(it)
            due += further(it)
    return found


class Extent:
    """The operations that some lead to, in the order of the text, the fields that they write, and the pairs of them."""

    def __init__(self, program, roots):
        self.program = program
        found = reached(roots, lambda op: calls_in(op.body))
        self.ops = [op for op in program.ops if op in found]
        inner = [s for op in self.ops for top in op.body for s in statements_in(top)]
        self.written = {s[2] for s in inner if s[0] in ("put_field", "put_item")}
        self.pairs = [(a, b) for i, a in enumerate(self.ops) for b in self.ops[i:] if a.of == b.of]

    def reads_written(self, method):
        """Whether a value method reads a written field, itself or through others."""
        return any(
            fields_in(expressions_by(m)) & self.written
            for m in reached([method], lambda m: functions_in(expressions_by(m)))
        )

    def offence(self, statements, behind=False):
        """The line and the cause of the first offence, or None."""
        return next((found for found in self.offences(statements, behind)), None)

    def offences(self, statements, behind):
        for line, cause, what in nodes(statements, behind):
            if self.offends(cause, what):
                yield line, cause

    def offends(self, cause, what):
        if cause in ("AccessAfterCall", "ForeignRead"):
            return what in self.written
        return cause != "FunctionRead" or self.reads_written(what)

    def reason(self, a, b):
        """Why two operations aren't shown to commute, or None."""
        for op in (a, b):
            found = self.offence(op.body)
            if found:
                return f"NotSeparable {op.title()} {found[0]} {found[1]}"
        for op in (a, b):
            line = first_other_loop(op, self.written)
            if line is not None:
                return f"LoopForm {line}"
        known = self.program.compared
        if (a, b) not in known:
            known[a, b] = compared(list(self.program.fields[a.of].values()), a, b)
        return known[a, b]

    def verdicts(self):
        return [(a, b, self.reason(a, b)) for a, b in self.pairs]


def expressions_by(method):
    return [e for s in method.body for e in expressions_of(s)]


def accessed(method):
    """The fields that a body puts or reads, receivers and arguments of calls included."""
    put = {s[2] for top in method.body for s in statements_in(top) if s[0] in ("put_field", "put_item")}
    return put | fields_in(expressions_by(method))


# What may offend, in the order of the text: the line, the cause, and the field or method in question.


def nodes(statements, behind):
    for s in statements:
        yield from nodes_of(s, s[1], behind)
        behind = behind or calls_in([s]) != []


def nodes_of(s, line, behind):
    kind = s[0]
    if kind == "block":
        yield from nodes(s[2], behind)
    elif kind == "if":
        yield from nodes_in([s[2]], line, behind)
        yield from nodes([s[3]], behind)
        yield from nodes([s[4]], behind)
    elif kind in ("while", "for"):
        yield from loop_nodes(s, line, behind or calls_in([s]) != [])
    elif kind == "print":
        yield line, "Prints", None
        yield from nodes_in([s[2]], line, behind)
    elif kind == "invoke":
        yield from nodes_in([s[2], *s[4]], line, behind)
    elif kind == "return":
        yield from nodes_in([s[2]], line, behind)
    else:
        yield from put_nodes(s, line, behind)


def put_nodes(s, line, behind):
    if s[0] != "put":
        yield from access(s[2], line, behind)
    if s[0] == "put_item":
        yield from nodes_in([s[3]], line, behind)
    if s[-1] is None:
        yield line, "Creates", None
    else:
        yield from nodes_in([s[-1]], line, behind)


def loop_nodes(s, line, behind):
    if s[0] == "while":
        yield from nodes_in([s[2]], line, behind)
        yield from nodes([s[3]], behind)
        return
    yield from nodes_of(s[2], line, behind)
    yield from nodes_in([s[3]], line, behind)
    yield from nodes_of(s[4], line, behind)
    yield from nodes([s[5]], behind)


def access(field, line, behind):
    if behind:
        yield line, "AccessAfterCall", field


def nodes_in(expressions, line, behind):
    for e in expressions:
        kind = e[0]
        if kind.startswith("own"):
            yield from access(e[1], line, behind)
            yield from nodes_in(e[2:], line, behind)
        elif kind.startswith("read"):
            yield from nodes_in([e[1]], line, behind)
            yield line, "ForeignRead", e[2]
            yield from nodes_in(e[3:], line, behind)
        elif kind == "value":
            yield from nodes_in([e[1]], line, behind)
            yield line, "FunctionRead", e[2]
            yield from nodes_in(e[3], line, behind)
        elif kind == "unary":
            yield from nodes_in([e[2]], line, behind)
        elif kind == "binary":
            yield from nodes_in([e[2]], line, behind)
            if e[1] in ("/", "%") and not is_divisor(e[3]):
                yield line, "DividesByVariable", None
            yield from nodes_in([e[3]], line, behind)


def is_divisor(e):
    """A number other than 0, with or without one minus."""
    it = e[2] if e[:2] == ("unary", "-") else e
    return it[0] == "number" and it[1] != 0


# The plan


class Plan:
    """The verdicts in the extent of each operation and of each call loop, and what is marked."""

    def __init__(self, tree):
        self.program = program = Program(tree)
        self.ops = [(op, Extent(program, [op])) for op in program.ops]
        bodies = [op.body for op in program.ops] + [program.main.body]
        loops = [s for body in bodies for top in body for s in statements_in(top) if s[0] == "for" and is_call_loop(s)]
        self.loops = [(s, Extent(program, calls_in([s]))) for s in loops]
        self.verdicts = {extent: extent.verdicts() for _, extent in self.ops + self.loops}
        self.marked_ops = [op for op, x in self.ops if calls_in(op.body) and self.is_free(x)]
        self.marked_loops = [s for s, x in self.loops if self.is_free(x) and not x.offence([s], behind=True)]
        marked = [x for it, x in self.ops + self.loops if it in self.marked_ops or self.is_marked_loop(it)]
        self.parallel = {op for extent in marked for op in extent.ops}
        self.locked = {op for extent in marked for op in extent.ops if accessed(op) & extent.written}
        self.inside = {id(s) for loop in self.marked_loops for s in statements_in(loop)}

    def is_free(self, extent):
        """Whether every pair commutes; an operation that isn't separable makes no such pair, not even with itself."""
        return all(reason is None for _, _, reason in self.verdicts[extent])

    def is_marked_loop(self, it):
        return any(it is loop for loop in self.marked_loops)

    def pairs_text(self):
        lines = []
        for op, extent in self.ops:
            lines += [f"extent {op.title()}", *self.pair_lines(extent)]
        for loop, extent in self.loops:
            lines += [f"loop {loop[1]}", *self.pair_lines(extent)]
        return "".join(line + "\n" for line in lines)

    def pair_lines(self, extent):
        return [
            f"{a.title()} {b.title()} " + ("commutes" if reason is None else f"unproved {reason}")
            for a, b, reason in self.verdicts[extent]
        ]

    def plan_text(self):
        modes = {True: "parallel", False: "serial"}
        lines = [f"op {op.title()} {modes[op in self.marked_ops]}" for op, _ in self.ops]
        lines += [f"loop {loop[1]} {modes[self.is_marked_loop(loop)]}" for loop, _ in self.loops]
        return "".join(line + "\n" for line in lines)

    # What stands where in the annotated text, asked for by nodes of the tree

    def is_parallel(self, node):
        return any(op.node is node for op in self.parallel)

    def takes_lock(self, node):
        """Whether a body accesses what an extent of a marked operation or loop writes; value methods aren't looked into."""
        return any(op.node is node for op in self.locked)

    def is_marked(self, node):
        """Whether a statement of a body that isn't parallel has a mark."""
        if node[0] not in ("call", "for"):
            return False
        s = self.program.sources[id(node[2])]
        if s[0] == "for":
            return self.is_marked_loop(s)
        return s[3] in self.marked_ops and id(s) not in self.inside
