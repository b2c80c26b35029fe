"""Not proved (README.md). A function or foreign method as an operation of the object that it works on.

Asked before: a parameter points to an object, isn't put, and where it is null the function does nothing or looks through it at once. Then
callers ask whether it is null, where the function did so, and else call the operation, with the object before as an argument where it
is used. The same statements run. Steps: the question moves to the caller; a function that asked at its head costs a call less for null.
"""

from .. import form
from . import facts
from .building import ROOT, Shape, fitted, replace, this


NAME = "function to an operation of its object"


def parameter(method: form.Method) -> tuple[form.Local, bool] | None:
    """The parameter that can be the receiver, and whether callers have to ask whether it is null."""
    if method.pure or method.result is not None:
        return None
    changed = facts.assigned(method.body)
    for one in method.parameters:
        if (
            isinstance(one.type, form.Pointer)
            and one.type.cls != method.cls.name
            and one not in changed
            or _free_function(method, one, changed)
        ):
            if not any(
                isinstance(x, (form.Field, form.Item)) and x.object == one for x in form.expressions(method.body)
            ):
                continue
            if not _when_null(method.body, one):
                return one, True
            if _looks(method.body, one):
                return one, False
    return None


def _free_function(method: form.Method, one: form.Local, changed: set[form.Local]) -> bool:
    return (
        method.cls.name == "Program"
        and isinstance(one.type, form.Pointer)
        and one.type.cls != "Program"
        and one not in changed
    )


def _looks(body: list[form.Statement], local: form.Local) -> bool:
    for one in body:
        if facts.follows(one, local) or isinstance(one, form.Do) and one.receiver == local:
            return True
        if not isinstance(one, form.Let):
            return False
    return False


def _when_null(body: list[form.Statement], local: form.Local) -> list[form.Statement]:
    """What is left of the statements where the local is null; conditions that are known then are decided."""
    out: list[form.Statement] = []
    for one in body:
        if isinstance(one, form.If):
            known = decided(one.condition, local, True)
            if known == form.Truth(True):
                out += _when_null(one.yes, local)
                continue
            if known == form.Truth(False):
                out += _when_null(one.no, local)
                continue
        out.append(one)
    return out


def decided(expr: form.Expr, local: form.Local, null: bool) -> form.Expr:
    """The condition where it is known whether the local is null."""
    match expr:
        case form.Binary("==" | "!=" as operator, left, right, _):
            if left == local and isinstance(right, form.Null) or right == local and isinstance(left, form.Null):
                return form.Truth(null == (operator == "=="))
        case form.Not(operand, _):
            inner = decided(operand, local, null)
            return (
                form.Truth(not inner.value)
                if isinstance(inner, form.Truth)
                else form.negated(inner)
                if inner != operand
                else expr
            )
        case form.Binary("&&" | "||" as operator, left, right, type_):
            first = decided(left, local, null)
            stops = form.Truth(operator == "||")
            if first == stops:
                return stops
            second = decided(right, local, null)
            if isinstance(first, form.Truth):
                return second
            if isinstance(second, form.Truth) and second != stops:
                return first
            return form.Binary(operator, first, second, type_)
    return expr


def _simplified(body: list[form.Statement], local: form.Local) -> list[form.Statement]:
    """The statements where the local isn't null."""
    out: list[form.Statement] = []
    for one in body:
        if isinstance(one, form.If):
            one.condition = decided(one.condition, local, False)
            one.yes, one.no = _simplified(one.yes, local), _simplified(one.no, local)
            if isinstance(one.condition, form.Truth):
                out += one.yes if one.condition.value else one.no
                continue
        elif isinstance(one, (form.Loop, form.Count)):
            one.body = _simplified(one.body, local)
        out.append(one)
    return out


def moved(shape: Shape, method: form.Method) -> form.Method | None:
    """Makes the method one of the object that it works on, and changes all calls; None where it can't be."""
    found = parameter(method)
    if found is None or method is shape.program.main:
        return None
    local, asks = found
    assert isinstance(local.type, form.Pointer)
    cls = shape.program.classes[local.type.cls]
    made = shape.method(cls, method.name, method, method.place)
    body = _simplified(method.body, local)
    old_this: form.Local | None = None
    if any(isinstance(one, form.This) for one in form.expressions(body)):
        if method.cls.name == "Program":
            replace(body, lambda expr: ROOT if isinstance(expr, form.This) else None)
        else:
            old_this = form.Local("owner_", form.Pointer(method.cls.name))
            replace(body, lambda expr: old_this if isinstance(expr, form.This) else None)
    replace(body, lambda expr: this(cls) if expr == local else None)
    at = method.parameters.index(local)
    made.body = body
    parameters = [one for one in method.parameters if one != local]
    made.parameters = fitted(made.body, ([old_this] if old_this is not None else []) + parameters, cls.names())
    method.cls.methods.remove(method)
    calls = _Calls(method, made, at, asks, old_this is not None)
    for caller in shape.program.methods():
        caller.body = calls.changed(caller.body)
    shape.count(NAME)
    shape.tell(method.place, f"{method.origin} made an operation of {cls.origin or cls.name}")
    return made


class _Calls:
    """Calls of the method that is moved."""

    def __init__(self, method: form.Method, made: form.Method, at: int, asks: bool, owner: bool) -> None:
        self.method, self.made, self.at, self.asks, self.owner = method, made, at, asks, owner
        self.count = 0

    def changed(self, body: list[form.Statement]) -> list[form.Statement]:
        out: list[form.Statement] = []
        for one in body:
            if isinstance(one, form.If):
                one.yes, one.no = self.changed(one.yes), self.changed(one.no)
            elif isinstance(one, (form.Loop, form.Count)):
                one.body = self.changed(one.body)
            if isinstance(one, form.Do) and one.method is self.method:
                out += self._call(one)
            else:
                out.append(one)
        return out

    def _call(self, one: form.Do) -> list[form.Statement]:
        receiver = one.arguments[self.at]
        rest = one.arguments[: self.at] + one.arguments[self.at + 1 :]
        given = [one.receiver] * self.owner + rest
        call = form.Do(self.made, receiver, given, None, one.place)
        if not self.asks or isinstance(receiver, form.This):
            return [call]
        assert isinstance(receiver.type, form.Pointer)
        condition = form.Binary("!=", receiver, form.Null(receiver.type), form.BOOL)
        return [form.If(condition, [call], [], one.place)]
