"""Reads an accepted text into its tree. It refuses nothing that isn't a wrong token.

An expression is a tuple whose first word says what it is:

    ("number", n) ("truth", b) ("null",) ("this",) ("name", n) ("call", n, arguments)
    ("field", e, n) ("method", e, n, arguments) ("index", e, i) ("unary", op, e) ("binary", op, left, right)

A statement has its line behind this word, and a right side is an expression or ("new", class):

    ("empty", line) ("block", line, body) ("local", line, type, name, right or None)
    ("assign", line, target, op, right) ("call", line, e) ("if", line, e, yes, no or None)
    ("while", line, e, body) ("for", line, first, e, next, body) ("return", line, e) ("print", line, e)

A type is "long", "bool" or the name of a class.
"""

import re

KEYS = set(
    "class public long bool int void if else while for return new nullptr this true false print main max min".split()
)
TOKEN = re.compile(
    r"(?P<gap>[ \t\r\n]+|//[^\n]*|/\*.*?\*/)|(?P<word>[A-Za-z_]\w*)|(?P<number>\d+)"
    r"|(?P<sign>->|&&|\|\||[=!<>+*&|^-]=|\+\+|--|[{}()\[\];,:=<>+*/%!&|^-])",
    re.DOTALL | re.ASCII,
)
# Binary operators, from the weakest to the strongest.
OPERATORS = [
    ("||",), ("&&",), ("|",), ("^",), ("&",), ("==", "!="), ("<", ">", "<=", ">="), ("+", "-"), ("*", "/", "%"),
]
STRENGTH = {op: strength for strength, ops in enumerate(OPERATORS) for op in ops}
# Operators that are written as calls, and those that an assignment may have.
WORDS = ("max", "min")
ASSIGNED = ("+=", "-=", "*=", "&=", "|=", "^=")
LITERALS = {"true": ("truth", True), "false": ("truth", False), "nullptr": ("null",), "this": ("this",)}


class Class:
    """Members are fields and methods, in the order of the text."""

    def __init__(self, name, members):
        self.name, self.members = name, members


class Field:
    def __init__(self, ty, name, length):
        self.ty, self.name, self.length = ty, name, length


class Method:
    """An operation has no result. Parameters are (type, name)."""

    def __init__(self, result, name, params, body):
        self.result, self.name, self.params, self.body = result, name, params, body


class Tree:
    def __init__(self, classes, main):
        self.classes, self.main = classes, main


def tokens_of(text):
    """The tokens, each with its line, and an empty one at the end."""
    found, at, line = [], 0, 1
    while at < len(text):
        match = TOKEN.match(text, at)
        if match is None:
            raise SyntaxError(f"line {line}: {text[at]!r} begins no token")
        if match.lastgroup != "gap":
            found.append((match[0], line))
        at, line = match.end(), line + match[0].count("\n")
    return found + [("", line)]


class Reader:
    def __init__(self, text):
        self.tokens, self.at = tokens_of(text), 0

    # Tokens

    def next(self, ahead=0):
        return self.tokens[min(self.at + ahead, len(self.tokens) - 1)][0]

    def line(self):
        return self.tokens[self.at][1]

    def take(self):
        self.at += 1
        return self.tokens[self.at - 1][0]

    def has(self, *words):
        """Whether these tokens come next, which are taken then."""
        if any(self.next(i) != word for i, word in enumerate(words)):
            return False
        self.at += len(words)
        return True

    def must(self, *words):
        for word in words:
            if not self.has(word):
                raise SyntaxError(f"line {self.line()}: {word!r} is due at {self.next()!r}")

    def name(self):
        word = self.take()
        if not re.fullmatch(r"[A-Za-z_]\w*", word, re.ASCII) or word in KEYS:
            raise SyntaxError(f"line {self.line()}: a name is due at {word!r}")
        return word

    # Classes

    def tree(self):
        classes = []
        while self.has("class"):
            name = self.name()
            if not self.has(";"):
                classes.append(self.of_class(name))
        self.must("int", "main", "(", ")", "{")
        main = self.items(("return", "0", ";", "}"), ("}",))
        self.must("")
        return Tree(classes, main)

    def of_class(self, name):
        self.must("{", "public", ":")
        members = []
        while not self.has("}"):
            members += self.members()
        self.must(";")
        return Class(name, members)

    def members(self):
        if self.has("void"):
            return [self.method(None)]
        ty = self.type()
        if self.next(1) == "(":
            return [self.method(ty)]
        fields = [self.field(ty)]
        while self.has(","):
            if ty not in ("long", "bool"):
                self.must("*")
            fields.append(self.field(ty))
        self.must(";")
        return fields

    def type(self):
        if self.next() in ("long", "bool"):
            return self.take()
        name = self.name()
        self.must("*")
        return name

    def field(self, ty):
        name, length = self.name(), None
        if self.has("["):
            length = int(self.take())
            self.must("]")
        return Field(ty, name, length)

    def method(self, result):
        name, params = self.name(), []
        self.must("(")
        while not self.has(")"):
            if params:
                self.must(",")
            ty = self.type()
            params.append((ty, self.name()))
        self.must("{")
        return Method(result, name, params, self.items(("}",)))

    # Statements

    def items(self, *ends):
        found = []
        while not any(self.has(*end) for end in ends):
            found.append(self.item())
        return found

    def is_local(self):
        return self.next() in ("long", "bool") or self.next(1) == "*" and self.next() not in KEYS

    def item(self):
        if not self.is_local():
            return self.statement()
        local = self.local()
        self.must(";")
        return local

    def local(self):
        line, ty = self.line(), self.type()
        name = self.name()
        return ("local", line, ty, name, self.right() if self.has("=") else None)

    def right(self):
        if not self.has("new"):
            return self.expression()
        name = self.name()
        self.has("(", ")")
        return ("new", name)

    def statement(self):
        line, word = self.line(), self.next()
        if self.has(";"):
            return ("empty", line)
        if self.has("{"):
            return ("block", line, self.items(("}",)))
        if word in ("if", "while", "for", "return", "print"):
            return getattr(self, f"{self.take()}_statement")(line)
        found = self.assignment()
        self.must(";")
        return found

    def assignment(self):
        """An assignment or a call, without its end."""
        line, chain = self.line(), self.primary()
        if chain[0] in ("call", "method"):
            return ("call", line, chain)
        op = self.take()
        if op in ("++", "--"):
            return ("assign", line, chain, f"{op[0]}=", ("number", 1))
        if op != "=" and op not in ASSIGNED:
            raise SyntaxError(f"line {line}: {op!r} assigns nothing")
        return ("assign", line, chain, op, self.right() if op == "=" else self.expression())

    def condition(self):
        self.must("(")
        found = self.expression()
        self.must(")")
        return found

    def if_statement(self, line):
        condition, yes = self.condition(), self.statement()
        return ("if", line, condition, yes, self.statement() if self.has("else") else None)

    def while_statement(self, line):
        return ("while", line, self.condition(), self.statement())

    def for_statement(self, line):
        self.must("(")
        first = self.local() if self.is_local() else self.assignment()
        self.must(";")
        condition = self.expression()
        self.must(";")
        step = self.assignment()
        self.must(")")
        return ("for", line, first, condition, step, self.statement())

    def return_statement(self, line):
        found = self.expression()
        self.must(";")
        return ("return", line, found)

    def print_statement(self, line):
        found = self.condition()
        self.must(";")
        return ("print", line, found)

    # Expressions

    def expression(self, strength=0):
        if strength == len(OPERATORS):
            return self.unary()
        left = self.expression(strength + 1)
        while self.next() in OPERATORS[strength]:
            op = self.take()
            left = ("binary", op, left, self.expression(strength + 1))
        return left

    def unary(self):
        if self.next() in ("-", "!"):
            op = self.take()
            return ("unary", op, self.unary())
        return self.primary()

    def primary(self):
        word = self.next()
        if word in LITERALS:
            self.take()
            found = LITERALS[word]
        elif word in WORDS:
            return self.of_word(self.take())
        elif word.isdigit():
            found = ("number", int(self.take()))
        elif self.has("("):
            found = self.expression()
            self.must(")")
        else:
            name = self.name()
            found = ("call", name, self.arguments()) if self.has("(") else ("name", name)
        return self.tails(found)

    def of_word(self, op):
        self.must("(")
        left = self.expression()
        self.must(",")
        right = self.expression()
        self.must(")")
        return ("binary", op, left, right)

    def tails(self, found):
        while self.next() in ("->", "["):
            if self.has("["):
                found = ("index", found, self.expression())
                self.must("]")
                continue
            self.take()
            name = self.name()
            found = ("method", found, name, self.arguments()) if self.has("(") else ("field", found, name)
        return found

    def arguments(self):
        found = []
        while not self.has(")"):
            if found:
                self.must(",")
            found.append(self.expression())
        return found


def tree_of(text):
    return Reader(text).tree()
