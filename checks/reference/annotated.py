"""The canonical text of a tree, with the marks of a plan in it or with none, and a text without its marks."""

from reference.reader import OPERATORS, STRENGTH, WORDS

LOCK, UNLOCK, SPAWN, PARALLEL = (f"/*@{word}*/" for word in ("lock", "unlock", "spawn", "parallel"))
MARKS = (LOCK, UNLOCK, SPAWN, PARALLEL)
UNARY, TAIL = len(OPERATORS), len(OPERATORS) + 1
LITERALS = ("number", "truth", "null")


class Unmarked:
    """No body is parallel, and nothing is marked."""

    def is_parallel(self, method):
        return False

    def takes_lock(self, method):
        return False

    def is_marked(self, statement):
        return False


class Pen:
    """Writes tokens and marks with what stands between them.

    The plan tells whether the body of a method is parallel and takes a lock, and whether a call or loop elsewhere is marked.
    """

    def __init__(self, plan):
        self.plan, self.parallel, self.locked, self.pieces = plan, False, False, []

    def put(self, *tokens):
        self.pieces += tokens

    def listed(self, writers):
        for at, write in enumerate(writers):
            if at > 0:
                self.put(",")
            write()

    # Classes

    def tree(self, tree):
        for c in tree.classes:
            self.put("class", c.name, "{", "public", ":")
            for member in c.members:
                self.member(member)
            self.put("}", ";")
        self.put("int", "main", "(", ")", "{")
        self.statements(tree.main)
        self.put("}")

    def type(self, ty):
        self.put(*([ty] if ty in ("long", "bool") else [ty, "*"]))

    def member(self, member):
        if hasattr(member, "params"):
            return self.method(member)
        self.type(member.ty)
        self.put(member.name)
        if member.length is not None:
            self.put("[", str(member.length), "]")
        self.put(";")

    def method(self, method):
        if method.result is None:
            self.put("void")
        else:
            self.type(method.result)
        self.put(method.name, "(")
        self.listed([lambda p=p: (self.type(p[0]), self.put(p[1])) for p in method.params])
        self.put(")", "{")
        self.parallel, self.locked = self.plan.is_parallel(method), self.plan.takes_lock(method)
        if self.locked:
            self.put(LOCK)
        self.statements(method.body)
        if self.locked:
            self.put(UNLOCK)
        self.put("}")
        self.parallel = self.locked = False

    # Statements

    def statements(self, statements):
        for front, s in zip([None, *statements], statements):
            self.statement(s, front)

    def statement(self, s, front=None):
        """A statement with the one in front of it in its list."""
        if self.parallel:
            self.put(*self.spawned(s, front))
        elif self.plan.is_marked(s):
            self.put(PARALLEL)
        if s[0] in ("if", "while", "for", "block"):
            return getattr(self, f"{s[0]}_statement")(s)
        if s[0] in ("return", "print"):
            self.word_statement(s)
        elif s[0] != "empty":
            self.simple(s)
        self.put(";")

    def spawned(self, s, front):
        """What stands before a statement of a parallel body: before each call but those that follow another."""
        if s[0] != "call" or front is not None and front[0] == "call" and receiver(front[2]) == receiver(s[2]):
            return []
        return [UNLOCK, SPAWN] if self.locked else [SPAWN]

    def block_statement(self, s):
        self.put("{")
        self.statements(s[2])
        self.put("}")

    def condition(self, word, e):
        self.put(word, "(")
        self.expression(e)
        self.put(")")

    def if_statement(self, s):
        self.condition("if", s[2])
        self.statement(s[3])
        if s[4] is not None:
            self.put("else")
            self.statement(s[4])

    def while_statement(self, s):
        self.condition("while", s[2])
        self.statement(s[3])

    def for_statement(self, s):
        _, _, first, condition, step, body = s
        self.put("for", "(")
        self.simple(first)
        self.put(";")
        self.expression(condition)
        self.put(";")
        self.simple(step)
        self.put(")")
        self.statement(body)

    def word_statement(self, s):
        if s[0] == "print":
            return self.condition("print", s[2])
        self.put("return")
        self.expression(s[2])

    def simple(self, s):
        """A local, an assignment or a call, without its end."""
        if s[0] == "call":
            return self.expression(s[2])
        if s[0] == "local":
            self.type(s[2])
            self.put(s[3])
            op, right = "=", s[4]
        else:
            self.expression(s[2], TAIL)
            op, right = s[3], s[4]
        if right is not None:
            self.put(op)
            self.put(*["new", right[1], "(", ")"]) if right[0] == "new" else self.expression(right)

    # Expressions: in round brackets where they bind less than is due, or where nothing may follow them.

    def expression(self, e, due=0):
        strength = STRENGTH.get(e[1], TAIL) if e[0] == "binary" else UNARY if e[0] == "unary" else TAIL
        is_closed = e[0] in LITERALS or e[0] == "binary" and e[1] in WORDS
        is_bare = strength >= due and not (due == TAIL and is_closed)
        self.put(*([] if is_bare else ["("]))
        getattr(self, "method_call" if e[0] == "method" else e[0])(*e[1:])
        self.put(*([] if is_bare else [")"]))

    def number(self, n):
        self.put(str(n))

    def truth(self, b):
        self.put("true" if b else "false")

    def null(self):
        self.put("nullptr")

    def this(self):
        self.put("this")

    def name(self, name):
        self.put(name)

    def call(self, name, arguments):
        self.put(name, "(")
        self.listed([lambda e=e: self.expression(e) for e in arguments])
        self.put(")")

    def field(self, e, name):
        self.expression(e, TAIL)
        self.put("->", name)

    def method_call(self, e, name, arguments):
        self.expression(e, TAIL)
        self.put("->")
        self.call(name, arguments)

    def index(self, e, i):
        self.expression(e, TAIL)
        self.put("[")
        self.expression(i)
        self.put("]")

    def unary(self, op, e):
        self.put(op)
        self.expression(e, UNARY)

    def binary(self, op, left, right):
        if op in WORDS:
            self.call(op, (left, right))
            return
        self.expression(left, STRENGTH[op])
        self.put(op)
        self.expression(right, STRENGTH[op] + 1)

    # Text

    def text(self):
        text, depth = [], 0
        for piece, behind in zip(self.pieces, self.pieces[1:] + [""]):
            depth += {"(": 1, ")": -1}.get(piece, 0)
            ends = piece in ("{", ":") or piece == ";" and depth == 0 or piece == "}" and behind != ";"
            text.append(piece + ("\n" if ends else " "))
        return "".join(text)


def receiver(call):
    """The receiver of a call; that of a bare one is `this`."""
    return ("this",) if call[0] == "call" else call[1]


def annotated(tree, plan):
    pen = Pen(plan)
    pen.tree(tree)
    return pen.text()


def canonical(tree):
    return annotated(tree, Unmarked())


class BadMark(Exception):
    """A comment that begins as marks do and is none, at its line and column."""


def erase(text):
    """A text of bytes without its marks, each with one space behind it."""
    kept, at = [], 0
    while at < len(text):
        mark = next((m.encode() for m in MARKS if text.startswith(m.encode(), at)), None)
        if mark is not None:
            at += len(mark) + text.startswith(b" ", at + len(mark))
            continue
        if text.startswith(b"/*@", at):
            before = text[:at]
            raise BadMark(before.count(b"\n") + 1, at - before.rfind(b"\n"))
        end = behind_comment(text, at)
        kept.append(text[at:end])
        at = end
    return b"".join(kept)


def behind_comment(text, at):
    """The place behind the comment that begins here, or behind the byte where none does."""
    ends = {b"//": b"\n", b"/*": b"*/"}.get(text[at : at + 2])
    if ends is None:
        return at + 1
    found = text.find(ends, at + 2)
    return len(text) if found < 0 else found + len(ends)
