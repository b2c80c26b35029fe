"""Not proved: reads the text of `commute emit`. It is canonical and was accepted, so its tokens stand between blanks
and nothing is refused."""

from __future__ import annotations

from .tree import Asked, Binary, Block, Call, Class, Declare, Expression, Field, For, Foreign, If, Item
from .tree import Local, Method, New, Number, Own, Pick, Print, Program, Put, Return, Statement, This, Type
from .tree import Unary, While, Word

LEVELS = ["||", "&&", "|", "^", "&", "== !=", "< > <= >=", "+ -", "* / %"]
STRENGTH = {operator: level for level, operators in enumerate(LEVELS, 1) for operator in operators.split()}
MARKS = {f"/*@{word}*/": word for word in ("lock", "unlock", "spawn", "parallel")}


class Reader:
    def __init__(self, emitted: str):
        lines = [(token, number) for number, line in enumerate(emitted.split("\n"), 1) for token in line.split()]
        self.tokens, self.lines, self.at = [token for token, _ in lines], [number for _, number in lines], 0
        self.scopes: list[dict[str, Local]] = []
        self.count = 0

    def token(self, ahead: int = 0) -> str:
        return self.tokens[self.at + ahead] if self.at + ahead < len(self.tokens) else ""

    def take(self, count: int = 1) -> str:
        """Moves past so many tokens, and gives the last."""
        self.at += count
        return self.tokens[self.at - 1]

    def takes(self, token: str) -> bool:
        found = self.token() == token
        self.at += found
        return found

    def type(self) -> Type:
        name = self.take()
        if name not in ("long", "bool", "void"):
            self.take()
        return name

    def declared(self, type_: Type, name: str) -> Local:
        """A new local, whose number tells it from others of its name."""
        self.count += 1
        self.scopes[-1][name] = Local(f"{name}_{self.count}", type_)
        return self.scopes[-1][name]

    # Expressions

    def expression(self, least: int = 1) -> Expression:
        left = self.unary()
        while STRENGTH.get(self.token(), 0) >= least:
            operator = self.take()
            left = Binary(operator, left, self.expression(STRENGTH[operator] + 1))
        return left

    def unary(self) -> Expression:
        if self.token() in ("-", "!"):
            return Unary(self.take(), self.unary())
        return self.chain()

    def arguments(self) -> tuple[Expression, ...]:
        self.take()
        found = []
        while not self.takes(")"):
            found.append(self.expression())
            self.takes(",")
        return tuple(found)

    def chain(self) -> Expression:
        """A literal, a name or brackets, with what follows by `->` or an index."""
        found = self.head()
        while self.token() in ("->", "["):
            if self.takes("["):
                assert isinstance(found, (Own, Foreign))
                found = Item(found, self.expression())
                self.take()
                continue
            name = self.take(2)
            if self.token() == "(":
                found = Asked(found, name, self.arguments())
            else:
                found = Own(name) if isinstance(found, This) else Foreign(found, name)
        return found

    def head(self) -> Expression:
        word = self.take()
        if word == "(":
            found = self.expression()
            self.take()
            return found
        if word.isdigit():
            return Number(word)
        if word in ("true", "false", "nullptr"):
            return Word(word)
        if word == "this":
            return This()
        if word in ("max", "min"):
            left, right = self.arguments()
            return Pick(word, left, right)
        if self.token() == "(":
            return Asked(This(), word, self.arguments())
        return next((scope[word] for scope in reversed(self.scopes) if word in scope), Own(word))

    # Statements

    def items(self) -> tuple[Statement, ...]:
        """The statements before a `}`, which is taken."""
        found: list[Statement] = []
        while not self.takes("}"):
            marks = self.marks()
            if self.takes("}"):
                break
            found.append(self.statement(marks))
        return tuple(found)

    def marks(self) -> set[str]:
        found = set()
        while self.token() in MARKS:
            found.add(MARKS[self.take()])
        return found

    def block(self) -> Block:
        self.take()
        self.scopes.append({})
        found = Block(self.items())
        self.scopes.pop()
        return found

    def statement(self, marks: set[str] | None = None) -> Statement:
        marks = self.marks() if marks is None else marks
        word = self.token()
        if word == "{":
            return self.block()
        if word in ("if", "while"):
            return self.conditional()
        if word == "for":
            return self.loop("parallel" in marks)
        if word in ("return", "print"):
            self.take()
            value = self.expression()
            self.take()
            return Return(value) if word == "return" else Print(value)
        found = Block(()) if word == ";" else self.simple(marks)
        self.take()
        return found

    def conditional(self) -> Statement:
        word = self.take()
        self.take()
        test = self.expression()
        self.take()
        body = self.statement()
        if word == "while":
            return While(test, body)
        return If(test, body, self.statement() if self.takes("else") else None)

    def loop(self, is_parallel: bool) -> For:
        line = self.lines[self.at]
        self.take(2)
        self.scopes.append({})
        first = self.simple(set())
        self.take()
        test = self.expression()
        self.take()
        after = self.simple(set())
        self.take()
        assert isinstance(first, (Declare, Put)) and isinstance(after, Put)
        found = For(first, test, after, self.statement(), is_parallel, line)
        self.scopes.pop()
        return found

    def simple(self, marks: set[str]) -> Declare | Put | Call:
        """A local, an assignment or a call, without its end."""
        if self.token() in ("long", "bool") or self.token(1) == "*":
            type_, name = self.type(), self.take()
            if not self.takes("="):
                return Declare(self.declared(type_, name), None)
            value = self.right()  # which doesn't see the new local
            return Declare(self.declared(type_, name), value)
        target = self.chain()
        if isinstance(target, Asked):
            return Call(target.receiver, target.method, target.arguments, "spawn" in marks, "parallel" in marks)
        assert isinstance(target, (Local, Own, Item))
        operator = self.take()
        return Put(target, operator, self.right())

    def right(self) -> Expression:
        if not self.takes("new"):
            return self.expression()
        found = New(self.take())
        self.take(2)
        return found

    # Classes

    def class_(self) -> Class:
        found = Class(self.take(2))
        self.take(3)
        while not self.takes("}"):
            type_, name = self.type(), self.take()
            if self.token() == "(":
                found.methods[name] = self.method(found.name, type_, name)
                continue
            length = int(self.token(1)) if self.token() == "[" else None
            self.take(1 if length is None else 4)
            found.fields[name] = Field(type_, length)
        self.take()
        return found

    def method(self, owner: str, result: Type, name: str) -> Method:
        self.take()
        self.scopes = [{}]
        parameters = []
        while not self.takes(")"):
            type_ = self.type()
            parameters.append(self.declared(type_, self.take()))
            self.takes(",")
        self.take()
        return Method(owner, name, result, parameters, Block(self.items()))

    def program(self) -> Program:
        classes = {}
        while self.token() == "class":
            found = self.class_()
            classes[found.name] = found
        self.take(5)
        self.scopes = [{}]
        return Program(classes, Method("", "main", "void", [], Block(self.items())))


def read(emitted: str) -> Program:
    return Reader(emitted).program()
