"""Not proved (README.md). What a body that is being lowered knows: its method, its names, and the whole program's
tables."""

from dataclasses import dataclass, field
from typing import Callable, Union

from .. import form
from .. import tree as t
from ..effects import Effects, assigned_in
from ..places import Place
from ..refusals import Refusals
from ..sites import Sites
from ..types import Type
from ..words import unique
from .shapes import Shapes

Out = list[form.Statement]


@dataclass
class Container:
    """An array or vector: the object that has it, its fields, the type of its items, and in a row where the row
    begins."""

    object: form.Expr
    items: str
    count: str | None
    of: Type
    offset: form.Expr | None = None
    length: int | None = None


@dataclass(frozen=True)
class Kind:
    """Where a pointer that walks finds its items: the class of the object that has them, its fields, the type of the
    items."""

    cls: str
    items: str
    count: str | None
    of: Type


Kinds = tuple[Kind, ...]


@dataclass
class Cursor:
    """A pointer that walks over items."""

    object: form.Local
    index: form.Local
    kind: Kind


@dataclass(frozen=True)
class Given:
    """The place that a method gives: a field of the object that is its result; of an array with the index in a field
    of the receiver."""

    name: str
    type: form.Type
    index: str | None
    kind: Kind | None = None


# What a variable's name means in a body: a local, a place that it is another name of, or a container.
Binding = Union[form.Local, form.Field, form.Item, Container, Cursor]


@dataclass
class Tables:
    """What all bodies of a program share."""

    shapes: Shapes
    effects: Effects
    sites: Sites
    refusals: Refusals
    methods: dict[tuple[t.Function, "Kinds"], form.Method] = field(default_factory=dict)
    dispatchers: dict[t.Function, form.Method] = field(default_factory=dict)
    made: dict[tuple[object, ...], form.Method] = field(default_factory=dict)
    bits: dict[t.Variable | t.Member | t.Function, int] = field(default_factory=dict)
    walking: set[t.Variable] = field(default_factory=set)
    # Whether the program looks at the letters of literal strings.
    letters: bool = False
    # Whether arguments whose order C++ leaves open are evaluated from right to left, as g++ does it.
    backwards: bool = False
    # Of methods whose result is a place: which field of the object that they give it is.
    given: dict[form.Method, "Given"] = field(default_factory=dict)
    # Makes the method of a function for the kinds of its walking parameters, where a call meets it first.
    method_of: Callable[[t.Function, "Kinds"], form.Method] = lambda function, kinds: _missing(function)

    def helper(
        self, key: tuple[object, ...], cls: form.Class, name: str, origin: str, write: Callable[["Body"], None]
    ) -> form.Method:
        """A method that the port adds, made once for a key; `write` gives it its parameters and body."""
        if key not in self.made:
            method = form.Method(unique(name, self.shapes.names[cls]), cls, origin=origin)
            self.made[key] = method
            cls.methods.append(method)
            write(Body(self, method))
        return self.made[key]


def _missing(function: t.Function) -> form.Method:
    raise KeyError(function.name)


class Body:
    """One method whose body is being lowered."""

    def __init__(self, tables: Tables, method: form.Method, function: t.Function | None = None) -> None:
        self.tables = tables
        self.method = method
        self.function = function
        self.bindings: dict[t.Variable, Binding] = {}
        self.used: set[str] = {one.name for one in method.cls.slots}
        self.this: form.Expr = form.This(form.Pointer(method.cls.name))
        # Locals that nothing assigns to once they are declared.
        self.still: set[str] = set()
        self._assigned = assigned_in(function) if function is not None else set()
        # Where a body stands for a call of another function, these statements are its caller's.
        self.place = method.place

    @property
    def shapes(self) -> Shapes:
        return self.tables.shapes

    def inlined(self, receiver: form.Expr | None) -> "Body":
        """The same method, in which another function's body is lowered with this receiver."""
        inner = Body(self.tables, self.method, self.function)
        inner.used, inner.still, inner._assigned = self.used, self.still, self._assigned
        if receiver is not None:
            inner.this = receiver
        return inner

    def own(self, name: str, type_: form.Type) -> form.Field:
        """A field of the receiver."""
        return form.Field(self.this, name, type_)

    def parameter(self, name: str, type_: form.Type) -> form.Local:
        local = self.local(name, type_)
        self.method.parameters.append(local)
        return local

    def local(self, name: str, type_: form.Type) -> form.Local:
        """A local of a name that the method doesn't have yet."""
        return form.Local(unique(name, self.used), type_)

    def declared(self, variable: t.Variable, type_: form.Type) -> form.Local:
        """The local of a variable, which is bound to it."""
        local = self.local(variable.name, type_)
        if variable not in self._assigned:
            self.still.add(local.name)
        self.bindings[variable] = local
        return local

    def temporary(self, type_: form.Type, name: str = "t") -> form.Local:
        """A local of the port's own, which nothing assigns to once it is declared."""
        local = self.local(name + "_", type_)
        self.still.add(local.name)
        return local

    def kept(self, value: form.Expr, out: Out, place: Place) -> form.Expr:
        """The value as it is now, whatever is done later."""
        if isinstance(value, (form.Number, form.Truth, form.Null, form.This, form.Root)):
            return value
        if isinstance(value, form.Local) and value.name in self.still:
            return value
        local = self.temporary(value.type)
        out.append(form.Let(local, value, place))
        return local
