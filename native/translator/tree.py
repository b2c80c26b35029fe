"""Not proved: a program as a tree in which names are resolved and each local has a name of its own."""

from __future__ import annotations

from dataclasses import dataclass, field
from typing import Iterator, Union

# "long", "bool", "void", or the name of a class for a pointer to its objects.
Type = str


@dataclass(frozen=True)
class Number:
    digits: str


@dataclass(frozen=True)
class Word:
    """`true`, `false` or `nullptr`."""

    text: str


@dataclass(frozen=True)
class This:
    pass


@dataclass(frozen=True)
class Local:
    name: str
    type: Type


@dataclass(frozen=True)
class Own:
    """A field of `this`."""

    name: str


@dataclass(frozen=True)
class Foreign:
    """A field of another object."""

    of: Expression
    name: str


@dataclass(frozen=True)
class Item:
    """An item of an array, which is a field."""

    of: Union[Own, Foreign]
    at: Expression


@dataclass(frozen=True)
class Asked:
    """A call of a value method."""

    receiver: Expression
    method: str
    arguments: tuple[Expression, ...]


@dataclass(frozen=True)
class Unary:
    operator: str
    of: Expression


@dataclass(frozen=True)
class Binary:
    operator: str
    left: Expression
    right: Expression


@dataclass(frozen=True)
class Pick:
    """`max` or `min`."""

    word: str
    left: Expression
    right: Expression


@dataclass(frozen=True)
class New:
    """The creation of an object: a whole right side."""

    name: str


Expression = Union[Number, Word, This, Local, Own, Foreign, Item, Asked, Unary, Binary, Pick, New]
Target = Union[Local, Own, Item]


@dataclass(frozen=True)
class Declare:
    local: Local
    value: Expression | None


@dataclass(frozen=True)
class Put:
    """`target = value`, or with another operator of assignment."""

    target: Target
    operator: str
    value: Expression


@dataclass(frozen=True)
class Call:
    """A call of an operation."""

    receiver: Expression
    method: str
    arguments: tuple[Expression, ...]
    is_spawned: bool = False
    is_parallel: bool = False


@dataclass(frozen=True)
class Fill:
    """A call of value methods that are one function (fusing.py): what each of them gives is added to a local."""

    receiver: Expression
    method: str
    arguments: tuple[Expression, ...]
    sums: tuple[Local, ...]


@dataclass(frozen=True)
class If:
    test: Expression
    yes: Statement
    no: Statement | None


@dataclass(frozen=True)
class While:
    test: Expression
    body: Statement


@dataclass(frozen=True)
class For:
    first: Declare | Put
    test: Expression
    after: Put
    body: Statement
    is_parallel: bool = False
    line: int = 0  # of the text that was read


@dataclass(frozen=True)
class Return:
    value: Expression


@dataclass(frozen=True)
class Print:
    value: Expression


@dataclass(frozen=True)
class Block:
    items: tuple[Statement, ...]


Statement = Union[Declare, Put, Call, Fill, If, While, For, Return, Print, Block]


@dataclass(eq=False)
class Method:
    """An operation, where its result is `void`, or else a value method; or several of these as one function."""

    owner: str
    name: str
    result: Type
    parameters: list[Local]
    body: Block
    is_fused: bool = False

    def __repr__(self) -> str:
        return f"{self.owner}::{self.name}"


@dataclass
class Field:
    type: Type
    length: int | None


@dataclass
class Class:
    name: str
    fields: dict[str, Field] = field(default_factory=dict)
    methods: dict[str, Method] = field(default_factory=dict)

    def words(self) -> int:
        """How many values of 8 bytes its objects have at most, without their head."""
        return sum(it.length or 1 for it in self.fields.values())


@dataclass
class Program:
    classes: dict[str, Class]
    main: Method

    def methods(self) -> Iterator[Method]:
        for each in self.classes.values():
            yield from each.methods.values()

    def class_of(self, it: Expression, owner: str) -> str:
        """The class that an expression in a method of `owner` points to."""
        if isinstance(it, This):
            return owner
        if isinstance(it, Local):
            return it.type
        if isinstance(it, Own):
            return self.classes[owner].fields[it.name].type
        if isinstance(it, Foreign):
            return self.classes[self.class_of(it.of, owner)].fields[it.name].type
        if isinstance(it, Item):
            return self.class_of(it.of, owner)
        assert isinstance(it, Asked)
        return self.called(it, owner).result

    def called(self, it: Call | Asked | Fill, owner: str) -> Method:
        return self.classes[self.class_of(it.receiver, owner)].methods[it.method]


# Parts


def parts(it: Expression) -> tuple[Expression, ...]:
    """The expressions that stand directly in one."""
    if isinstance(it, (Foreign, Unary)):
        return (it.of,)
    if isinstance(it, Item):
        return (it.of, it.at)
    if isinstance(it, Asked):
        return (it.receiver, *it.arguments)
    if isinstance(it, (Binary, Pick)):
        return (it.left, it.right)
    return ()


def inside(it: Expression) -> Iterator[Expression]:
    """An expression and all that stand in it."""
    yield it
    for part in parts(it):
        yield from inside(part)


def expressions(it: Statement) -> tuple[Expression, ...]:
    """The expressions that stand directly in a statement, but for what is put to."""
    if isinstance(it, Declare):
        return () if it.value is None else (it.value,)
    if isinstance(it, Put):
        return (it.target.at, it.value) if isinstance(it.target, Item) else (it.value,)
    if isinstance(it, (Call, Fill)):
        return (it.receiver, *it.arguments)
    if isinstance(it, (If, While, For)):
        return (it.test,)
    return (it.value,) if isinstance(it, (Return, Print)) else ()


def statements(it: Statement) -> tuple[Statement, ...]:
    """The statements that stand directly in one."""
    if isinstance(it, Block):
        return it.items
    if isinstance(it, If):
        return (it.yes,) if it.no is None else (it.yes, it.no)
    if isinstance(it, While):
        return (it.body,)
    return (it.first, it.after, it.body) if isinstance(it, For) else ()


def within(it: Statement) -> Iterator[Statement]:
    """A statement and all that stand in it."""
    yield it
    for part in statements(it):
        yield from within(part)


def all_inside(it: Statement) -> list[Expression]:
    """All expressions that stand in a statement."""
    return [part for each in within(it) for whole in expressions(each) for part in inside(whole)]


def asked(it: Statement, owner: str, program: Program) -> list[Method]:
    """The value methods that a statement in a method of `owner` calls."""
    return [program.called(part, owner) for part in all_inside(it) if isinstance(part, Asked)]


def calls(it: Statement) -> list[Call]:
    return [each for each in within(it) if isinstance(each, Call)]


def puts(it: Statement) -> list[Put]:
    return [each for each in within(it) if isinstance(each, Put)]


def array(target: Target) -> Local | Own | Foreign:
    """What a target is, without its index."""
    return target.of if isinstance(target, Item) else target


def listed(it: Statement | None) -> tuple[Statement, ...]:
    """A branch or a body as a list."""
    if it is None:
        return ()
    return it.items if isinstance(it, Block) else (it,)


def counted(it: For) -> tuple[Local, Expression, Expression] | None:
    """Of a loop that counts up by one: its counter, where it begins, and the bound, where that doesn't name the
    counter."""
    if not isinstance(it.first, Declare) or not isinstance(it.test, Binary) or it.test.operator != "<":
        return None
    counter, bound = it.first.local, it.test.right
    one = Number("1")
    is_next = (it.after.operator, it.after.value) in (("+=", one), ("=", Binary("+", counter, one)))
    if it.test.left != counter or it.after.target != counter or not is_next or counter in inside(bound):
        return None
    return counter, it.first.value or Number("0"), bound
