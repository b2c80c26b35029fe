"""Not proved: the plain C++ of a program: as the text without its marks, but for where a region may begin. Each name
has an ending, `_` a field or a method, `_class` a class, `_7` the seventh local: so none is a word of C++, no local
hides a method, and `long sum = sum;` reads the field."""

from __future__ import annotations

from typing import Protocol, Sequence

from .tree import Asked, Binary, Block, Call, Declare, Expression, Fill, For, Foreign, If, Item, Local
from .tree import Method, New, Number, Own, Pick, Print, Program, Put, Return, Statement, This, Type, Unary
from .tree import While, Word, listed

# What C++ would trap at for the least number and -1 is a call.
DIVISIONS = {"/": "quotient", "%": "remainder"}
Lines = list[str]


def indented(lines: Sequence[str]) -> Lines:
    return [f"  {line}" for line in lines]


def braced(head: str, lines: Sequence[str], end: str = "}") -> Lines:
    return [f"{head} {{".lstrip(), *indented(lines), end]


def of_type(name: Type) -> str:
    return name + " " if name in ("long", "bool", "void", "long&") else f"{name}_class *"


def parameters(method: Method, first: Sequence[str] = ()) -> str:
    return ", ".join([*first, *(f"{of_type(each.type)}{each.name}" for each in method.parameters)])


class Regions(Protocol):
    """What makes regions of marked calls and loops, and of calls of value methods. None: it is no region."""

    def of_call(self, it: Call, owner: str) -> Lines | None:
        ...

    def of_loop(self, it: For, owner: str) -> Lines | None:
        ...

    def of_value(self, it: Asked, owner: str) -> str | None:
        ...


class Plain:
    """Writes a body of one class. Where `regions` is there regions begin in it."""

    def __init__(self, program: Program, owner: str, regions: Regions | None = None):
        self.program, self.owner, self.regions = program, owner, regions

    def expression(self, it: Expression) -> str:
        if isinstance(it, Number):
            return it.digits + "L"
        if isinstance(it, (Word, Local, Own, This)):
            return self.name(it)
        if isinstance(it, Foreign):
            return f"{self.expression(it.of)}->{it.name}_"
        if isinstance(it, Item):
            return f"{self.expression(it.of)}[{self.expression(it.at)}]"
        if isinstance(it, Asked):
            return self.asked(it)
        if isinstance(it, Unary):
            return f"{it.operator}({self.expression(it.of)})"
        if isinstance(it, New):
            return f"made<{it.name}_class>()"
        left, right = self.expression(it.left), self.expression(it.right)
        if isinstance(it, Pick):
            return f"{it.word}({left}, {right})"
        return (
            f"{DIVISIONS[it.operator]}({left}, {right})"
            if it.operator in DIVISIONS
            else f"({left} {it.operator} {right})"
        )

    @staticmethod
    def name(it: Word | Local | Own | This) -> str:
        if isinstance(it, Word):
            return it.text
        if isinstance(it, Local):
            return it.name
        return it.name + "_" if isinstance(it, Own) else "this"

    def asked(self, it: Asked) -> str:
        region = self.regions.of_value(it, self.owner) if self.regions else None
        return region or f"{self.expression(it.receiver)}->{it.method}_({self.list(it.arguments)})"

    def list(self, arguments: Sequence[Expression], first: Sequence[str] = ()) -> str:
        return ", ".join([*first, *map(self.expression, arguments)])

    def condition(self, it: Expression) -> str:
        """In brackets once."""
        return self.expression(it) if isinstance(it, Binary) else f"({self.expression(it)})"

    # Statements

    def statement(self, it: Statement) -> Lines:
        if isinstance(it, Block):
            return braced("", self.statements(it.items))
        if isinstance(it, (Declare, Put)):
            return [self.simple(it) + ";"]
        if isinstance(it, If):
            lines = braced(f"if {self.condition(it.test)}", self.statements(listed(it.yes)))
            return lines + (braced("else", self.statements(listed(it.no))) if it.no is not None else [])
        if isinstance(it, While):
            return braced(f"while {self.condition(it.test)}", self.statements(listed(it.body)))
        if isinstance(it, Return):
            return [f"return {self.expression(it.value)};"]
        if isinstance(it, Print):
            return [f"print({self.expression(it.value)});"]
        if isinstance(it, Call):
            region = self.regions.of_call(it, self.owner) if self.regions else None
            return region or [f"{self.expression(it.receiver)}->{it.method}_({self.list(it.arguments)});"]
        if isinstance(it, Fill):
            handed = ", ".join([*map(self.expression, it.arguments), *(each.name for each in it.sums)])
            return [f"{self.expression(it.receiver)}->{it.method}_({handed});"]
        region = self.regions.of_loop(it, self.owner) if self.regions else None
        return region or self.loop(it)

    def statements(self, items: Sequence[Statement]) -> Lines:
        return [line for item in items for line in self.statement(item)]

    def simple(self, it: Declare | Put) -> str:
        if isinstance(it, Put):
            return f"{self.expression(it.target)} {it.operator} {self.expression(it.value)}"
        value = "{}" if it.value is None else self.expression(it.value)
        return f"{of_type(it.local.type)}{it.local.name} = {value}"

    def head(self, it: For) -> str:
        return f"for ({self.simple(it.first)}; {self.expression(it.test)}; {self.simple(it.after)})"

    def loop(self, it: For) -> Lines:
        return braced(self.head(it), self.statements(listed(it.body)))
