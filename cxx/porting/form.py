"""Not proved (README.md). The middle form: a program of classes whose statements do one thing each.

It stands between C++ and the language of `commute`, and is what rewrites work on. What it can hold:

- A program is classes, one of which is `Program`: its one object has the globals as fields and the free functions as
  methods.
- A class has fields (`Slot`: of type `long`, `bool` or a pointer to a class; with a length it is an array) and
  methods. A class hierarchy of C++ is one class here, a struct within a struct a field that points to it, a vector an
  array and a count.
- A method has parameters, locals and a body; its `result` is None for a void method. A method is `pure` where it
  changes nothing but its own locals: then it is called in expressions (`Apply`), else by a statement (`Do`), also
  where it has a result.
- Expressions have no effect. Equal ones are equal (`==`) and can be keys; none is changed in place. They may trap: at
  null, out of range, by a divisor 0, as in C++, where that is undefined.
- A local stands for one value; its name is declared once in its method (`Let`, `Make`, the result of `Do`, the counter
  of a `Count`), and no field or method of the class has it.
- Statements: `Let` declares, `Put` assigns (`target = value`, or with one of the operators `+ - * & | ^`), `Make`
  creates an object, `Do` calls, `Tell` prints, `If`, `Loop` and `Count` are loops, `Break`, `Continue` and `Return`
  jump, `Fail` ends the run.
- `Put` may write a field of any object, a jump may stand anywhere in a loop or method, and `Do` may have a result: the
  language has none of the three, and `finishing` takes them away. Everything else is in the language as it is.

Each statement has the place in the user's text that it comes from, `Loop.user` and `Count.user` say whether the loop
stands there or is the port's own; `Method.origin`, `Class.origin` and `Slot.origin` have the user's names.
"""

from dataclasses import dataclass, field
from typing import Any, Callable, Iterator, Optional, Union

from .places import NOWHERE, Place

# Types ----------------------------------------------------------------------------------------------------------------


@dataclass(frozen=True, slots=True)
class Scalar:
    """`long` or `bool`."""

    name: str


@dataclass(frozen=True, slots=True)
class Pointer:
    """A pointer to an object of a class, by the name of the class."""

    cls: str


LONG, BOOL = Scalar("long"), Scalar("bool")
Type = Union[Scalar, Pointer]

# Classes --------------------------------------------------------------------------------------------------------------


@dataclass(eq=False)
class Slot:
    """A field; with a length an array. `grows` where the length is what was enough and not what C++ says."""

    name: str
    type: Type
    length: Optional[int] = None
    origin: str = ""
    grows: bool = False
    place: Place = NOWHERE
    # Whether its owner has the object that it points to by value, so that nobody else has it as a member.
    owned: bool = False


@dataclass(eq=False)
class Method:
    name: str
    cls: "Class"
    result: Optional[Type] = None
    parameters: list["Local"] = field(default_factory=list)
    body: list["Statement"] = field(default_factory=list)
    pure: bool = False
    place: Place = NOWHERE
    origin: str = ""
    # Whether it is a function of the user's, and none that the port adds.
    user: bool = False

    def __repr__(self) -> str:
        return f"{self.cls.name}::{self.name}"


@dataclass(eq=False)
class Class:
    name: str
    slots: list[Slot] = field(default_factory=list)
    methods: list[Method] = field(default_factory=list)
    place: Place = NOWHERE
    origin: str = ""

    def slot(self, name: str) -> Slot:
        return next(one for one in self.slots if one.name == name)

    def names(self) -> set[str]:
        return {one.name for one in self.slots} | {one.name for one in self.methods}


@dataclass
class Program:
    """The classes by name, in order; `main` is the method of `Program` that is run."""

    classes: dict[str, Class]
    main: Method

    def methods(self) -> list[Method]:
        return [method for cls in self.classes.values() for method in cls.methods]


# Expressions ----------------------------------------------------------------------------------------------------------


@dataclass(frozen=True, slots=True)
class Number:
    value: int
    type: Type = LONG


@dataclass(frozen=True, slots=True)
class Truth:
    value: bool
    type: Type = BOOL


@dataclass(frozen=True, slots=True)
class Null:
    type: Pointer


@dataclass(frozen=True, slots=True)
class This:
    """The receiver."""

    type: Pointer


@dataclass(frozen=True, slots=True)
class Root:
    """The one object of `Program`, from wherever it is asked for."""

    type: Type = Pointer("Program")


@dataclass(frozen=True, slots=True)
class Local:
    """A local or a parameter."""

    name: str
    type: Type


@dataclass(frozen=True, slots=True)
class Field:
    """`object->name`."""

    object: "Expr"
    name: str
    type: Type


@dataclass(frozen=True, slots=True)
class Item:
    """`object->name[index]`."""

    object: "Expr"
    name: str
    index: "Expr"
    type: Type


@dataclass(frozen=True, slots=True)
class Binary:
    """`+ - * / % & | ^`, comparisons, `&&`, `||`, `max` and `min`."""

    operator: str
    left: "Expr"
    right: "Expr"
    type: Type


@dataclass(frozen=True, slots=True)
class Not:
    operand: "Expr"
    type: Type = BOOL


@dataclass(frozen=True, slots=True)
class Minus:
    operand: "Expr"
    type: Type = LONG


@dataclass(frozen=True, slots=True)
class Choose:
    """One of two values, both of which can be computed without a trap."""

    condition: "Expr"
    yes: "Expr"
    no: "Expr"
    type: Type


@dataclass(frozen=True, slots=True)
class Help:
    """A helper of the language that C++ has as an operator (`helpers`), by its name."""

    name: str
    arguments: tuple["Expr", ...]
    type: Type = LONG


@dataclass(frozen=True, slots=True)
class Apply:
    """The value of a call of a pure method."""

    method: Method
    receiver: "Expr"
    arguments: tuple["Expr", ...]
    type: Type


Expr = Union[Number, Truth, Null, This, Root, Local, Field, Item, Binary, Not, Minus, Choose, Help, Apply]
Target = Union[Local, Field, Item]

# Statements -----------------------------------------------------------------------------------------------------------


@dataclass(eq=False)
class Let:
    """Declares a local; without a value it starts at 0, false or null."""

    local: Local
    value: Optional[Expr]
    place: Place


@dataclass(eq=False)
class Put:
    target: Target
    operator: str
    value: Expr
    place: Place


@dataclass(eq=False)
class Make:
    """Declares a local that points to a new object, all of whose fields are at their start."""

    local: Local
    place: Place


@dataclass(eq=False)
class Do:
    """Calls a method that isn't pure; its result, if wanted, is a local that is declared here."""

    method: Method
    receiver: Expr
    arguments: list[Expr]
    result: Optional[Local]
    place: Place


@dataclass(eq=False)
class Tell:
    """Prints values; the site says how (`sites`)."""

    site: int
    values: list[Expr]
    place: Place


@dataclass(eq=False)
class If:
    condition: Expr
    yes: list["Statement"]
    no: list["Statement"]
    place: Place


@dataclass(eq=False)
class Loop:
    """`test` is done before each look at the condition, `step` behind each turn, also where that ends with
    `Continue`."""

    test: list["Statement"]
    condition: Expr
    body: list["Statement"]
    step: list["Statement"]
    place: Place
    user: bool = False


@dataclass(eq=False)
class Count:
    """`for (counter = first; condition; step)`: the step is an update of the counter, which the loop declares."""

    counter: Local
    first: Expr
    condition: Expr
    step: Put
    body: list["Statement"]
    place: Place
    user: bool = False


@dataclass(eq=False)
class Break:
    place: Place


@dataclass(eq=False)
class Continue:
    place: Place


@dataclass(eq=False)
class Return:
    value: Optional[Expr]
    place: Place


@dataclass(eq=False)
class Fail:
    """The end of the run, by a trap: `stop` is its number (`sites.Stop`)."""

    stop: int
    place: Place


Statement = Union[Let, Put, Make, Do, Tell, If, Loop, Count, Break, Continue, Return, Fail]

# What walks and maps over all of it -----------------------------------------------------------------------------------


_PARTS: dict[type, Callable[[Any], tuple[Expr, ...]]] = {
    Field: lambda one: (one.object,),
    Item: lambda one: (one.object, one.index),
    Binary: lambda one: (one.left, one.right),
    Not: lambda one: (one.operand,),
    Minus: lambda one: (one.operand,),
    Choose: lambda one: (one.condition, one.yes, one.no),
    Help: lambda one: tuple(one.arguments),
    Apply: lambda one: (one.receiver, *one.arguments),
}


def parts(expr: Expr) -> tuple[Expr, ...]:
    """The expressions directly within."""
    found = _PARTS.get(type(expr))
    inner: tuple[Expr, ...] = found(expr) if found is not None else ()
    return inner


def with_parts(expr: Expr, new: tuple[Expr, ...]) -> Expr:
    """The expression with other parts, in the order of `parts`."""
    match expr:
        case Field(_, name, type_):
            return Field(new[0], name, type_)
        case Item(_, name, _, type_):
            return Item(new[0], name, new[1], type_)
        case Binary(operator, _, _, type_):
            return Binary(operator, new[0], new[1], type_)
        case Not(_, _):
            return Not(new[0])
        case Minus(_, _):
            return Minus(new[0])
        case Choose(_, _, _, type_):
            return Choose(new[0], new[1], new[2], type_)
        case Help(name, _, type_):
            return Help(name, new, type_)
        case Apply(method, _, _, type_):
            return Apply(method, new[0], new[1:], type_)
    return expr


def within(expr: Expr) -> Iterator[Expr]:
    """The expression and all within it, from outside to inside and from left to right."""
    waiting = [expr]
    while waiting:
        one = waiting.pop()
        yield one
        inner = parts(one)
        if inner:
            waiting.extend(reversed(inner))


def mapped(expr: Expr, change: Callable[[Expr], Optional[Expr]]) -> Expr:
    """The expression with each part, from outside to inside, for which `change` gives another one replaced by it."""
    new = change(expr)
    if new is not None:
        return new
    old = parts(expr)
    if not old:
        return expr
    made = tuple([mapped(part, change) for part in old])
    same = all(one is other for one, other in zip(made, old))
    return expr if same else with_parts(expr, made)


_OWN: dict[type, Callable[[Any], list[Expr]]] = {
    Let: lambda one: [one.local, one.value] if one.value is not None else [one.local],
    Put: lambda one: [one.target, one.value],
    Make: lambda one: [one.local],
    Do: lambda one: [one.receiver, *one.arguments] + ([one.result] if one.result is not None else []),
    Tell: lambda one: list(one.values),
    If: lambda one: [one.condition],
    Loop: lambda one: [one.condition],
    Count: lambda one: [one.counter, one.first, one.condition],
    Return: lambda one: [one.value] if one.value is not None else [],
}
_BLOCKS: dict[type, Callable[[Any], list[list[Statement]]]] = {
    If: lambda one: [one.yes, one.no],
    Loop: lambda one: [one.test, one.body, one.step],
    Count: lambda one: [one.body, [one.step]],
}


def own_expressions(statement: Statement) -> list[Expr]:
    """The expressions of a statement itself, targets and what is declared included, without those of statements
    within."""
    found = _OWN.get(type(statement))
    return found(statement) if found is not None else []


def blocks(statement: Statement) -> list[list[Statement]]:
    """The lists of statements directly within."""
    found = _BLOCKS.get(type(statement))
    return found(statement) if found is not None else []


def statements(body: list[Statement]) -> Iterator[Statement]:
    """All statements of a body, also those within others."""
    for statement in body:
        yield statement
        for block in blocks(statement):
            yield from statements(block)


def expressions(body: list[Statement]) -> Iterator[Expr]:
    """All expressions of a body, also those within others."""
    for statement in statements(body):
        for expr in own_expressions(statement):
            yield from within(expr)


def negated(condition: Expr) -> Expr:
    """The other truth value."""
    opposite = {"==": "!=", "!=": "==", "<": ">=", ">=": "<", ">": "<=", "<=": ">"}
    match condition:
        case Not(operand, _):
            return operand
        case Truth(value, _):
            return Truth(not value)
        case Binary(operator, left, right, _) if operator in opposite:
            return Binary(opposite[operator], left, right, BOOL)
    return Not(condition)


def zero(type_: Type) -> Expr:
    """What a field or local of the type starts at."""
    if isinstance(type_, Pointer):
        return Null(type_)
    return Number(0) if type_ == LONG else Truth(False)
