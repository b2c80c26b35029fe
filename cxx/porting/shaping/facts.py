"""Not proved (README.md). What statements of the middle form declare, read, write and call."""

from dataclasses import dataclass, field
from typing import Iterable

from .. import form

# A field of a class, of whatever object.
Place = tuple[str, str]


@dataclass
class Effects:
    """What statements may do: the fields that they read and write, and whether they print, make objects or end the run."""

    reads: set[Place] = field(default_factory=set)
    writes: set[Place] = field(default_factory=set)
    seen: bool = False
    makes: bool = False

    def touches(self, other: "Effects") -> bool:
        """Whether one writes what the other reads or writes, or their order can be seen otherwise."""
        order = (self.seen or self.makes) and (other.seen or other.makes)
        return order or bool(self.writes & (other.reads | other.writes) or self.reads & other.writes)


def declared(body: Iterable[form.Statement]) -> set[form.Local]:
    """The locals that the statements declare."""
    found: set[form.Local] = set()
    for one in form.statements(list(body)):
        match one:
            case form.Let(local, _, _) | form.Make(local, _):
                found.add(local)
            case form.Count(counter):
                found.add(counter)
            case form.Do(_, _, _, result, _) if result is not None:
                found.add(result)
    return found


def assigned(body: Iterable[form.Statement]) -> set[form.Local]:
    """The locals that the statements put, behind their declaration."""
    return {
        one.target
        for one in form.statements(list(body))
        if isinstance(one, form.Put) and isinstance(one.target, form.Local)
    }


def used(body: Iterable[form.Statement]) -> list[form.Local]:
    """The locals that stand in the statements, in their order."""
    found: dict[form.Local, None] = {}
    for one in form.statements(list(body)):
        for expr in form.own_expressions(one):
            _locals(expr, found)
    return list(found)


def _locals(expr: form.Expr, found: dict[form.Local, None]) -> None:
    if isinstance(expr, form.Local):
        found[expr] = None
    else:
        for part in form.parts(expr):
            _locals(part, found)


def free(body: list[form.Statement]) -> list[form.Local]:
    """The locals that the statements use and don't declare."""
    own = declared(body)
    return [one for one in used(body) if one not in own]


def called(body: Iterable[form.Statement]) -> list[form.Method]:
    """The methods that the statements call, in their order."""
    found: dict[form.Method, None] = {}
    for one in form.statements(list(body)):
        if isinstance(one, form.Do):
            found[one.method] = None
        for expr in form.own_expressions(one):
            _applied(expr, found)
    return list(found)


def _applied(expr: form.Expr, found: dict[form.Method, None]) -> None:
    if isinstance(expr, form.Apply):
        found[expr.method] = None
    for part in form.parts(expr):
        _applied(part, found)


# What each method calls, where no body changes meanwhile.
Calls = dict[form.Method, list[form.Method]]


def reached(body: list[form.Statement], known: Calls | None = None) -> list[form.Method]:
    """The methods that a run of the statements may enter; what each calls is taken from `known`, and kept there."""
    calls = known if known is not None else {}
    found: dict[form.Method, None] = {}
    waiting = called(body)
    while waiting:
        method = waiting.pop(0)
        if method not in found:
            found[method] = None
            if method not in calls:
                calls[method] = called(method.body)
            waiting += calls[method]
    return list(found)


def recursive(method: form.Method) -> bool:
    return method in reached(method.body)


def recursions(program: form.Program, known: Calls | None = None) -> set[form.Method]:
    """The methods that call themselves, also by others."""
    calls = known if known is not None else {}
    return {one for one in program.methods() if one in reached(one.body, calls)}


def place_of(expr: form.Field | form.Item) -> Place:
    assert isinstance(expr.object.type, form.Pointer)
    return expr.object.type.cls, expr.name


def effects(body: list[form.Statement], updates: bool = True, known: Calls | None = None) -> Effects:
    """What a run of the statements may do, its calls included; whether `f += e` is a read of f too."""
    found = Effects()
    for block in [body] + [method.body for method in reached(body, known)]:
        _direct(block, found, updates)
    return found


def _direct(body: list[form.Statement], found: Effects, updates: bool) -> None:
    for one in form.statements(body):
        exprs = form.own_expressions(one)
        if isinstance(one, form.Put) and not isinstance(one.target, form.Local):
            found.writes.add(place_of(one.target))
            exprs = list(form.parts(one.target)) + [one.value] + ([one.target] if one.operator and updates else [])
        elif isinstance(one, (form.Tell, form.Fail)):
            found.seen = True
        elif isinstance(one, form.Make):
            found.makes = True
        for expr in exprs:
            for part in form.within(expr):
                if isinstance(part, (form.Field, form.Item)):
                    found.reads.add(place_of(part))


def is_quiet(expr: form.Expr) -> bool:
    """Whether the expression can be computed where it wasn't: it traps nowhere and is no call."""
    match expr:
        case form.Field(owner, _, _):
            return isinstance(owner, (form.This, form.Root))
        case form.Item() | form.Apply() | form.Help():
            return False
        case form.Binary("/" | "%", _, divisor, _) if not (isinstance(divisor, form.Number) and divisor.value):
            return False
    return all(is_quiet(part) for part in form.parts(expr))


def mentions(expr: form.Expr, wanted: form.Expr) -> bool:
    return any(part == wanted for part in form.within(expr))


def follows(one: form.Statement, pointer: form.Expr) -> bool:
    """Whether the statement certainly looks through the pointer, so that a null pointer ends the run there."""
    exprs = form.own_expressions(one)
    if isinstance(one, form.Count):
        exprs = [one.first]
    return any(_follows(expr, pointer) for expr in exprs)


def _follows(expr: form.Expr, pointer: form.Expr) -> bool:
    match expr:
        case form.Field(owner, _, _) | form.Item(owner, _, _, _) if owner == pointer:
            return True
        case form.Apply(_, receiver, _, _) if receiver == pointer:
            return True
        case form.Binary("&&" | "||", left, _, _):
            return _follows(left, pointer)
    return any(_follows(part, pointer) for part in form.parts(expr))
