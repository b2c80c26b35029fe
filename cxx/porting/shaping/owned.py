"""Not proved (README.md). A local of outside that each turn puts first, as a local of the turn.

Asked before: nothing outside the loop asks for the local, nor do the loop's condition and step; and the first statement of the body that has it
puts it, from other values. So no turn sees what another has left there. Steps: the same.
"""

from .. import form
from ..words import unique
from . import facts
from .building import Shape, renamed

NAME = "local of outside to one of each turn"


def all_of(shape: Shape, method: form.Method) -> None:
    for one in list(form.statements(method.body)):
        if isinstance(one, (form.Loop, form.Count)):
            for local in sorted(facts.assigned(one.body) - facts.declared([one]), key=lambda local: local.name):
                if _may_be(method, one, local):
                    _made(shape, method, one, local)


def _may_be(method: form.Method, loop: form.Loop | form.Count, local: form.Local) -> bool:
    if local in method.parameters:
        return False
    inside = {id(one) for one in form.statements(loop.body)}
    for one in form.statements(method.body):
        declares = isinstance(one, form.Let) and one.local == local
        if id(one) not in inside and not declares and local in facts.used([_alone(one)]):
            return False
    first = next((one for one in loop.body if local in facts.used([one])), None)
    return (
        isinstance(first, form.Put)
        and first.target == local
        and not first.operator
        and local not in facts.used([_value(first)])
    )


def _alone(one: form.Statement) -> form.Statement:
    """The statement without those within."""
    match one:
        case form.If(condition, _, _, place):
            return form.If(condition, [], [], place)
        case form.Loop(_, condition, _, _, place, user):
            return form.Loop([], condition, [], [], place, user)
        case form.Count(counter, first, condition, step, _, place, user):
            return form.Count(counter, first, condition, step, [], place, user)
    return one


def _value(put: form.Put) -> form.Statement:
    return form.Return(put.value, put.place)


def _made(shape: Shape, method: form.Method, loop: form.Loop | form.Count, local: form.Local) -> None:
    used = shape.names(method.cls) | {one.name for one in facts.used(method.body)}
    own = form.Local(unique(local.name, used), local.type)
    at = next(k for k, one in enumerate(loop.body) if local in facts.used([one]))
    put = loop.body[at]
    assert isinstance(put, form.Put)
    loop.body[at] = form.Let(local, put.value, put.place)
    renamed(loop.body, {local: own})
    shape.count(NAME)
