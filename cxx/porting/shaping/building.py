"""Not proved (README.md). Copies of statements, names, and new methods and fields of a program that is rewritten."""

from dataclasses import dataclass, field
from typing import Callable, Optional

from .. import form
from ..finishing.walking import map_body
from ..places import Place
from ..words import unique
from . import facts

Change = Callable[[form.Expr], Optional[form.Expr]]


@dataclass
class Shape:
    """A program that is rewritten, and what was done to it, in the user's lines."""

    program: form.Program
    told: list[tuple[Place, str]] = field(default_factory=list)
    # The methods that are a loop of the user, by its place.
    loops: dict[form.Method, Place] = field(default_factory=dict)
    # How often each rewrite was done, by its name.
    done: dict[str, int] = field(default_factory=dict)

    def count(self, name: str, times: int = 1) -> None:
        if times:
            self.done[name] = self.done.get(name, 0) + times

    def tell(self, place: Place, words: str) -> None:
        if (place, words) not in self.told:
            self.told.append((place, words))

    def names(self, cls: form.Class) -> set[str]:
        """What is used in a class: by fields, methods and the locals of its methods."""
        used = cls.names()
        for method in cls.methods:
            used |= {one.name for one in method.parameters}
            for one in form.statements(method.body):
                for expr in form.own_expressions(one):
                    _named(expr, used)
        return used

    def method(self, cls: form.Class, name: str, like: form.Method, place: Place) -> form.Method:
        """A new method of the class, which the user knows as another."""
        made = form.Method(unique(name, self.names(cls)), cls, place=place, origin=like.origin)
        cls.methods.append(made)
        return made

    def slot(self, cls: form.Class, name: str, type_: form.Type, origin: str) -> form.Slot:
        made = form.Slot(unique(name, self.names(cls)), type_, origin=origin)
        cls.slots.append(made)
        return made


def _named(expr: form.Expr, used: set[str]) -> None:
    if isinstance(expr, form.Local):
        used.add(expr.name)
    else:
        for part in form.parts(expr):
            _named(part, used)


def copied(body: list[form.Statement]) -> list[form.Statement]:
    """The same statements, which can be changed without those."""
    return [_copied(one) for one in body]


def _copied(one: form.Statement) -> form.Statement:
    match one:
        case form.Let(local, value, place):
            return form.Let(local, value, place)
        case form.Put(target, operator, value, place):
            return form.Put(target, operator, value, place)
        case form.Make(local, place):
            return form.Make(local, place)
        case form.Do(method, receiver, arguments, result, place):
            return form.Do(method, receiver, list(arguments), result, place)
        case form.Tell(site, values, place):
            return form.Tell(site, list(values), place)
        case form.If(condition, yes, no, place):
            return form.If(condition, copied(yes), copied(no), place)
        case form.Loop(test, condition, body, step, place, user):
            return form.Loop(copied(test), condition, copied(body), copied(step), place, user)
        case form.Count(counter, first, condition, step, body, place, user):
            again = form.Put(step.target, step.operator, step.value, step.place)
            return form.Count(counter, first, condition, again, copied(body), place, user)
        case form.Return(value, place):
            return form.Return(value, place)
        case form.Fail(stop, place):
            return form.Fail(stop, place)
        case form.Break(place):
            return form.Break(place)
    return form.Continue(one.place)


def replace(body: list[form.Statement], change: Change) -> None:
    """Changes the expressions of the statements, the steps of loops among them."""
    map_body(body, lambda expr: form.mapped(expr, change))


def renamed(body: list[form.Statement], names: dict[form.Local, form.Local]) -> None:
    """Gives locals other names, where they are declared too."""
    replace(body, lambda expr: names.get(expr) if isinstance(expr, form.Local) else None)
    for one in form.statements(body):
        if isinstance(one, (form.Let, form.Make)):
            one.local = names.get(one.local, one.local)
        elif isinstance(one, form.Count):
            one.counter = names.get(one.counter, one.counter)
        elif isinstance(one, form.Do) and one.result is not None:
            one.result = names.get(one.result, one.result)


def fitted(body: list[form.Statement], parameters: list[form.Local], used: set[str]) -> list[form.Local]:
    """Renames the locals of a body that is to be a method so that they have none of the names; its parameters."""
    names: dict[form.Local, form.Local] = {}
    taken = set(used)
    for local in dict.fromkeys([*parameters, *facts.used(body)]):
        names[local] = form.Local(unique(local.name, taken), local.type)
    renamed(body, names)
    return [names[one] for one in parameters]


def own_copies(made: form.Method) -> None:
    """Parameters that are put become locals, which start at what is given."""
    changed = facts.assigned(made.body)
    for at, one in enumerate(made.parameters):
        if one in changed:
            given = form.Local(one.name + "_given", one.type)
            made.parameters[at] = given
            made.body.insert(0, form.Let(one, given, made.place))


def this(cls: form.Class) -> form.This:
    return form.This(form.Pointer(cls.name))


ROOT = form.Root()
