"""Not proved (README.md). Guarded updates of an operation's own fields as one guarded call.

Asked before: what stands under a condition on another object writes fields of this object alone, and uses locals, these fields and fields of
other objects that it doesn't write. It becomes an operation that is called under the condition, with what it uses of others as
arguments, where that can be computed before. Steps: a call more.
"""

from typing import Iterator

from .. import form
from ..words import unique
from . import facts
from .building import Shape, copied, fitted, replace, this


NAME = "guarded updates to one guarded call"


def all_of(shape: Shape, method: form.Method) -> None:
    if not method.pure:
        for one in form.statements(method.body):
            if isinstance(one, form.If) and not one.no and _foreign(one.condition) and _own_updates(one.yes):
                call = _called(shape, method, one)
                if call is not None:
                    one.yes = [call]
                    shape.count(NAME)


def _foreign(condition: form.Expr) -> bool:
    return any(
        isinstance(one, (form.Field, form.Item)) and not isinstance(one.object, (form.This, form.Root))
        for one in form.within(condition)
    )


def _own_updates(body: list[form.Statement]) -> bool:
    puts = 0
    for one in form.statements(body):
        if isinstance(one, form.Put):
            if isinstance(one.target, form.Local):
                if one.target not in facts.declared(body):
                    return False
            elif not (isinstance(one.target.object, form.This) and isinstance(one.target, form.Field)):
                return False
            puts += 1
        elif not isinstance(one, (form.If, form.Let)):
            return False
    return puts > 1 or puts == 1 and any(isinstance(one, form.Put) and one.operator == "" for one in body)


def _called(shape: Shape, method: form.Method, one: form.If) -> form.Do | None:
    body = copied(one.yes)
    outer = _handed_over(method, body)
    # What is under a second condition is computed only there; a plain field of what the first condition looks through is safe.
    first = {part.object for part in _seen(one.condition, True) if isinstance(part, (form.Field, form.Item))}
    if any(not (isinstance(expr, form.Field) and expr.object in first) for expr in outer):
        return None
    if any(isinstance(expr, form.Apply) for expr in form.expressions(body)) or _written_of(body, outer):
        return None
    made = shape.method(method.cls, f"{method.name}_part", method, one.place)
    made.origin = f"a part of {method.origin.removeprefix('a part of ')}"
    made.body = body
    back = {local: expr for expr, local in outer.items()}
    parameters = facts.free(body)
    given = [back.get(local, local) for local in parameters]
    made.parameters = fitted(made.body, parameters, method.cls.names())
    return form.Do(made, this(method.cls), given, None, one.place)


def _handed_over(method: form.Method, body: list[form.Statement]) -> dict[form.Expr, form.Local]:
    """Puts locals into the body in place of what it reads of other objects; what each stands for."""
    outer: dict[form.Expr, form.Local] = {}
    used = {x.name for x in facts.used(method.body)} | {x.name for x in method.parameters} | method.cls.names()

    def change(expr: form.Expr) -> form.Expr | None:
        if not isinstance(expr, (form.Field, form.Item)) or isinstance(expr.object, form.This):
            return None
        if _reads_declared(expr, body):
            return None
        if expr not in outer:
            outer[expr] = form.Local(unique("given_", used), expr.type)
        return outer[expr]

    replace(body, change)
    return outer


def _seen(condition: form.Expr, holds: bool) -> Iterator[form.Expr]:
    """What was certainly computed where the condition is known to hold, or not to."""
    match condition:
        case form.Not(operand, _):
            yield from _seen(operand, not holds)
        case form.Binary("&&" | "||" as operator, left, right, _):
            both = holds == (operator == "&&")
            # (where only one side is known to have decided, the left one was computed, whatever it gave)
            yield from _seen(left, holds) if both else _certain(left)
            if both:
                yield from _seen(right, holds)
        case _:
            yield from _certain(condition)


def _certain(expr: form.Expr) -> Iterator[form.Expr]:
    """What is computed whenever the expression is."""
    yield expr
    parts = form.parts(expr)
    if isinstance(expr, form.Binary) and expr.operator in ("&&", "||"):
        parts = parts[:1]
    for part in parts:
        yield from _certain(part)


def _written_of(body: list[form.Statement], outer: dict[form.Expr, form.Local]) -> bool:
    """Whether the body writes what was read of other objects."""
    written = {
        facts.place_of(x.target)
        for x in form.statements(body)
        if isinstance(x, form.Put) and isinstance(x.target, form.Field)
    }
    return any(
        isinstance(x, (form.Field, form.Item)) and facts.place_of(x) in written
        for expr in outer
        for x in form.within(expr)
    )


def _reads_declared(expr: form.Expr, body: list[form.Statement]) -> bool:
    own = facts.declared(body)
    return any(part in own for part in form.within(expr))
