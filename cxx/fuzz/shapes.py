# Not proved: a part of the fuzzer of cxx/, which compares the front with g++ by tests alone.
"""What a random program is made of: the classes, methods and variables that its text may name."""

from __future__ import annotations

from dataclasses import dataclass, field

INTEGERS = ("int", "long", "unsigned", "short", "bool")
FORMATS = {"int": "%d", "long": "%ld", "unsigned": "%u", "short": "%d", "bool": "%d"}


@dataclass(frozen=True)
class Variable:
    """A place for a number: how the text names it, its type, and whether the text may write it."""

    text: str
    type: str
    writable: bool = True


@dataclass(frozen=True)
class Items:
    """An array or a vector of numbers with `size` items, which is never empty."""

    text: str
    type: str
    size: int


@dataclass(frozen=True)
class Pointer:
    """A pointer that may be null, to an object of the class `to`."""

    text: str
    to: str


@dataclass(frozen=True)
class Method:
    """A method or a function: `level` orders them, and each calls only those of a lower level."""

    name: str
    result: str
    parameters: tuple[tuple[str, str], ...]
    constant: bool
    level: int
    virtual: bool = False
    object: str = ""  # the class of a free function's first parameter, a pointer


@dataclass
class Class:
    """A class with its members in the order of their declaration."""

    name: str
    base: Class | None = None
    numbers: list[tuple[str, str]] = field(default_factory=list)
    arrays: list[tuple[str, str, int]] = field(default_factory=list)
    vectors: list[tuple[str, str]] = field(default_factory=list)
    pointers: list[tuple[str, str]] = field(default_factory=list)
    methods: list[Method] = field(default_factory=list)

    def all_methods(self) -> list[Method]:
        """Its own methods, and those of its base that it has in common."""
        own = {method.name for method in self.methods}
        inherited = self.base.all_methods() if self.base else []
        return self.methods + [method for method in inherited if method.name not in own]


@dataclass
class Scope:
    """What can be named at one place of the text."""

    numbers: list[Variable] = field(default_factory=list)
    items: list[Items] = field(default_factory=list)
    pointers: list[Pointer] = field(default_factory=list)
    calls: list[tuple[str, Method]] = field(default_factory=list)
    level: int = 0
    in_loop: int = 0
    in_switch: int = 0
    result: str = "void"
    constant: bool = False

    def inner(self) -> Scope:
        """The scope of a block inside this one."""
        return Scope(
            list(self.numbers),
            list(self.items),
            list(self.pointers),
            list(self.calls),
            self.level,
            self.in_loop,
            self.in_switch,
            self.result,
            self.constant,
        )
