"""Not proved (README.md). The typed tree: a C++ program as it is read, with all that C++ leaves implicit written out.

Conversions, calls of constructors and operators, instances of templates, default arguments and first values are nodes
or calls here; constants that clang knows are numbers. Expressions have effects, as in C++. An expression of a type
that isn't a reference may still name a place: `Name`, `Member`, `Item`, `Deref`, `Conditional`, and calls whose result
is a reference.
"""

import re
from dataclasses import dataclass, field, fields
from typing import Callable, Iterator, Optional, Union, cast

from .places import Place
from .types import Type

# Declarations ---------------------------------------------------------------------------------------------------------


@dataclass(eq=False)
class Variable:
    """A local, a parameter, a global or a static; `shared` where it lives as long as the program."""

    name: str
    type: Type
    place: Place
    shared: bool = False
    initial: Optional["Expr"] = None
    constant: Optional["Expr"] = None
    static_local: bool = False
    # Whether the array or vector is used as a whole, so that it has to be an object that pointers of its type point to.
    whole: bool = False
    # Whether a parameter that is a reference to a number (or to a pointer) may be bound to it.
    lent: bool = False


@dataclass(eq=False)
class Member:
    """A field of a class."""

    name: str
    type: Type
    place: Place
    owner: "Record"
    initial: Optional["Expr"] = None
    # Whether the array or vector is used as a whole, so that it has to be an object of its own.
    whole: bool = False
    lent: bool = False


@dataclass(eq=False)
class Function:
    """A function, method or constructor. Its body is read where it is called."""

    name: str
    place: Place
    owner: Optional["Record"]
    static: bool
    result: Type
    parameters: list[Variable]
    constructor: bool = False
    virtual: bool = False
    pure_virtual: bool = False
    library: bool = False
    signature: str = ""
    body: Optional["Block"] = None
    initializers: list["Initializer"] = field(default_factory=list)
    # Whether the result is a pointer that walks over items (`cursors`).
    walks: bool = False

    def virtual_signature(self) -> str:
        """What a function that overrides this one has too: the types of its parameters, and `const`."""
        return re.sub(
            r"\s*(override|final|noexcept(\(\w+\))?)", "", self.signature[self.signature.index("(") :]
        ).strip()


@dataclass(eq=False)
class Record:
    """A class or struct, or an instance of a class template."""

    name: str
    place: Place
    base: Optional["Record"] = None
    members: list[Member] = field(default_factory=list)
    functions: list[Function] = field(default_factory=list)
    derived: list["Record"] = field(default_factory=list)
    library: bool = False

    def root(self) -> "Record":
        return self.base.root() if self.base else self

    def ancestors(self) -> list["Record"]:
        """Itself, its base, the base's base and so on."""
        return [self] + (self.base.ancestors() if self.base else [])

    def family(self) -> list["Record"]:
        """Itself and all that is derived from it."""
        return [self] + [one for child in self.derived for one in child.family()]

    def is_polymorphic(self) -> bool:
        return any(function.virtual for one in self.root().family() for function in one.functions)


@dataclass(eq=False)
class Initializer:
    """What a constructor does before its body: to a member, to its base, or all by another constructor."""

    place: Place
    value: "Expr"
    member: Optional[Member] = None


# Expressions ----------------------------------------------------------------------------------------------------------


@dataclass(eq=False)
class Node:
    type: Type
    place: Place


@dataclass(eq=False)
class Number(Node):
    value: int


@dataclass(eq=False)
class Truth(Node):
    value: bool


@dataclass(eq=False)
class Null(Node):
    pass


@dataclass(eq=False)
class Text(Node):
    """A literal string."""

    value: str


@dataclass(eq=False)
class This(Node):
    """The receiver's pointer."""


@dataclass(eq=False)
class Name(Node):
    variable: Variable


@dataclass(eq=False)
class Dot(Node):
    """A member of an object; `object` names the object (its type is the class, not a pointer)."""

    object: "Expr"
    member: Member


@dataclass(eq=False)
class Item(Node):
    """An item of an array, of a vector, or of what a pointer points to."""

    items: "Expr"
    index: "Expr"


@dataclass(eq=False)
class Deref(Node):
    pointer: "Expr"


@dataclass(eq=False)
class AddressOf(Node):
    operand: "Expr"


@dataclass(eq=False)
class Unary(Node):
    """`-`, `~` or `!`."""

    operator: str
    operand: "Expr"


@dataclass(eq=False)
class Binary(Node):
    """Arithmetic, comparisons, `&&`, `||` and the comma."""

    operator: str
    left: "Expr"
    right: "Expr"


@dataclass(eq=False)
class Conditional(Node):
    condition: "Expr"
    yes: "Expr"
    no: "Expr"


@dataclass(eq=False)
class Assign(Node):
    """`target = value`, or `target op= value`, which is computed in the type `within`; `after` gives the old value."""

    target: "Expr"
    operator: str
    value: "Expr"
    within: Type
    after: bool = False


@dataclass(eq=False)
class Convert(Node):
    """A number, truth value or pointer as one of another type."""

    operand: "Expr"


@dataclass(eq=False)
class Narrow(Node):
    """A pointer to an object as one of a derived class, null where it isn't one: `dynamic_cast`."""

    operand: "Expr"


@dataclass(eq=False)
class Call(Node):
    """A call; `virtual` where the receiver's class chooses the function; `listed` where the arguments stand in braces,
    so that they are evaluated from left to right."""

    function: Function
    receiver: Optional["Expr"]
    arguments: list["Expr"]
    virtual: bool = False
    listed: bool = False


@dataclass(eq=False)
class VectorCall(Node):
    """A method of a vector."""

    method: str
    vector: "Expr"
    arguments: list["Expr"]


@dataclass(eq=False)
class New(Node):
    """A new object, or where `length` is there a new array; `initial` is None where nothing is said. `each` is the type
    of the pointers to the new objects of which the array is one (`objectarrays`)."""

    initial: Optional["Expr"]
    length: Optional["Expr"] = None
    each: Optional[Type] = None


@dataclass(eq=False)
class Construct(Node):
    """An object made by a constructor; where there is no function, all is left at its start. `listed` as of a call."""

    function: Optional[Function]
    arguments: list["Expr"]
    listed: bool = False


@dataclass(eq=False)
class Aggregate(Node):
    """An object, an array or a vector from its parts, in order; those that lack are at their start."""

    parts: list[Optional["Expr"]]


@dataclass(eq=False)
class Filled(Node):
    """A vector of so many items, each with this value or at its start."""

    length: "Expr"
    value: Optional["Expr"]


@dataclass(eq=False)
class Copy(Node):
    """A copy of an object, an array or a vector."""

    operand: "Expr"


@dataclass(eq=False)
class Print(Node):
    """Parts are literal strings and values, each with how it is written (`output`); `standard` unless to cerr."""

    parts: list[Union[str, tuple[str, "Expr"]]]
    standard: bool = True


@dataclass(eq=False)
class Swap(Node):
    left: "Expr"
    right: "Expr"


@dataclass(eq=False)
class Built(Node):
    """`max`, `min` or `abs` of numbers."""

    name: str
    arguments: list["Expr"]


@dataclass(eq=False)
class Ignored(Node):
    """Done for its effects, of which there are those of its parts alone: `delete p`, a cast to void."""

    parts: list["Expr"]


@dataclass(eq=False)
class Stop(Node):
    """The end of the program: `exit(code)`, or where there is no code a failed assertion with its text."""

    code: Optional["Expr"]
    text: str


Expr = Union[
    Number, Truth, Null, Text, This, Name, Dot, Item, Deref, AddressOf, Unary, Binary, Conditional, Assign, Convert,
    Narrow, Call, VectorCall, New, Construct, Aggregate, Filled, Copy, Print, Swap, Built, Ignored, Stop,
]  # fmt: skip

# Statements -----------------------------------------------------------------------------------------------------------


@dataclass(eq=False)
class Step:
    place: Place


@dataclass(eq=False)
class Block(Step):
    steps: list["Statement"]


@dataclass(eq=False)
class Declare(Step):
    variable: Variable


@dataclass(eq=False)
class Evaluate(Step):
    value: Expr


@dataclass(eq=False)
class If(Step):
    condition: Expr
    yes: Block
    no: Block


@dataclass(eq=False)
class While(Step):
    condition: Expr
    body: Block


@dataclass(eq=False)
class DoWhile(Step):
    body: Block
    condition: Expr


@dataclass(eq=False)
class For(Step):
    first: Block
    condition: Optional[Expr]
    step: Optional[Expr]
    body: Block


@dataclass(eq=False)
class Each(Step):
    """`for (variable : items) body` over an array or a vector."""

    variable: Variable
    items: Expr
    body: Block


@dataclass(eq=False)
class Case:
    """Values that lead here, None for `default`, and the statements up to the next label."""

    values: list[Optional[int]]
    body: Block


@dataclass(eq=False)
class Switch(Step):
    value: Expr
    cases: list[Case]


@dataclass(eq=False)
class Break(Step):
    pass


@dataclass(eq=False)
class Continue(Step):
    pass


@dataclass(eq=False)
class Return(Step):
    value: Optional[Expr]


Statement = Union[Block, Declare, Evaluate, If, While, DoWhile, For, Each, Switch, Break, Continue, Return]

NO_STEPS: list[Statement] = []


@dataclass
class Program:
    """A whole program: what is reached from main."""

    main: Function
    records: list[Record]
    functions: list[Function]
    globals: list[Variable]
    # Whether main's arguments are read as those of a run without any.
    without_arguments: bool = False


# What walks over all of it --------------------------------------------------------------------------------------------

Tree = Union[Node, Step, Case]


_NAMES: dict[type, tuple[str, ...]] = {}


def _names(node: Tree) -> tuple[str, ...]:
    """The fields of the node in which others may be."""
    kind = type(node)
    if kind not in _NAMES:
        _NAMES[kind] = tuple(one.name for one in fields(node) if one.name not in ("type", "place", "each"))
    return _NAMES[kind]


def parts(node: Tree) -> Iterator[Tree]:
    """The expressions and statements directly within, in the order of the text; a declared variable's first value is
    one."""
    for name in _names(node):
        value = getattr(node, name)
        if isinstance(value, (Node, Step)):
            yield value
        elif isinstance(value, list):
            for one in value:
                if isinstance(one, (Node, Step, Case)):
                    yield one
                elif isinstance(one, tuple):
                    yield one[1]
        elif isinstance(node, Declare) and node.variable.initial is not None:
            yield node.variable.initial


def walk(node: Tree) -> Iterator[Tree]:
    """The node and all within it."""
    yield node
    for part in parts(node):
        yield from walk(part)


def rewrite(program: Program, change: Callable[[Tree], Tree]) -> None:
    """Puts in the place of each node what the change makes of it, from within to without."""
    for function in program.functions:
        for initializer in function.initializers:
            initializer.value = cast(Expr, _rewritten(initializer.value, change))
        if function.body is not None:
            _rewritten(function.body, change)
    owners: list[Variable | Member] = [*program.globals, *(one for record in program.records for one in record.members)]
    for one in owners:
        if one.initial is not None:
            one.initial = cast(Expr, _rewritten(one.initial, change))


def _rewritten(node: Tree, change: Callable[[Tree], Tree]) -> Tree:
    for name in _names(node):
        value = getattr(node, name)
        if isinstance(value, (Node, Step)):
            setattr(node, name, _rewritten(value, change))
        elif isinstance(value, list):
            for at, one in enumerate(value):
                if isinstance(one, (Node, Step, Case)):
                    value[at] = _rewritten(one, change)
                elif isinstance(one, tuple):
                    value[at] = (one[0], _rewritten(one[1], change))
        elif isinstance(node, Declare) and node.variable.initial is not None:
            node.variable.initial = cast(Expr, _rewritten(node.variable.initial, change))
    return change(node)


def bodies(function: Function) -> Iterator[Tree]:
    """All of a function: its initialisers and its body."""
    for initializer in function.initializers:
        yield from walk(initializer.value)
    if function.body is not None:
        yield from walk(function.body)


def everything(program: Program) -> Iterator[Tree]:
    """All expressions and statements of a program."""
    for function in program.functions:
        yield from bodies(function)
    firsts = [one.initial for one in program.globals] + [
        one.initial for record in program.records for one in record.members
    ]
    for first in firsts:
        if first is not None:
            yield from walk(first)
