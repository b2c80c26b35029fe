"""Not proved (README.md). What a section computes, where it is too large to be compared, as value methods.

Asked before: the expression reads no field that the operation itself writes, so that it has the same value wherever it stands, and it
stands where it did. The method computes the same expression from the locals in it. Steps: a call for each.
"""

from .. import form
from . import facts
from .building import ROOT, Shape, fitted, replace, this

NAME = "large expression to a value method"
SMALLEST = 2


def all_of(shape: Shape, method: form.Method) -> bool:
    """Makes value methods of the large expressions of an operation; whether there was one."""
    if method.pure:
        return False
    written = facts.effects(method.body).writes
    return _block(shape, method, method.body, written)


def _block(shape: Shape, method: form.Method, body: list[form.Statement], written: set[facts.Place]) -> bool:
    done = False
    for one in body:
        match one:
            case form.Let(local, value, _) if value is not None:
                one.value = _value(shape, method, value, local.name, written)
                done = done or one.value is not value
            case form.Put(target, _, value, _):
                name = target.name
                one.value = _value(shape, method, value, name, written)
                done = done or one.value is not value
            case form.Do():
                new = [
                    _value(shape, method, value, at.name, written)
                    for value, at in zip(one.arguments, one.method.parameters)
                ]
                done = done or any(a is not b for a, b in zip(new, one.arguments))
                one.arguments = new
            case form.If():
                done = _block(shape, method, one.yes, written) or done
                done = _block(shape, method, one.no, written) or done
    return done


def _value(shape: Shape, method: form.Method, value: form.Expr, name: str, written: set[facts.Place]) -> form.Expr:
    size = sum(1 for one in form.within(value) if isinstance(one, (form.Binary, form.Apply)) and not _compares(one))
    if (
        value.type != form.LONG
        or size < SMALLEST
        or isinstance(value, form.Apply)
        and all(_plain(one) for one in form.parts(value))
    ):
        return value
    read = {facts.place_of(one) for one in form.within(value) if isinstance(one, (form.Field, form.Item))}
    for one in form.within(value):
        if isinstance(one, form.Apply):
            read |= facts.effects(one.method.body).reads
    if read & written:
        return value
    shape.count(NAME)
    made = shape.method(method.cls, f"{method.name}_{name}", method, method.place)
    made.pure, made.result = True, form.LONG
    if method.cls.name == "Program":
        value = form.mapped(value, lambda part: this(method.cls) if part == ROOT else None)
    made.body = [form.Return(value, method.place)]
    given = facts.free(made.body)
    made.parameters = fitted(made.body, given, method.cls.names())
    return form.Apply(made, this(method.cls), tuple(given), form.LONG)


def _compares(one: form.Expr) -> bool:
    return isinstance(one, form.Binary) and one.type == form.BOOL


def _plain(one: form.Expr) -> bool:
    return isinstance(one, (form.Local, form.This, form.Root, form.Number, form.Field))


__all__ = ["all_of", "replace"]
