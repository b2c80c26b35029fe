"""Not proved (README.md). A function that only computes by a loop, as an operation whose result a field keeps.

Asked before: the method changes nothing, calls itself nowhere, and its callers ask for it where their statement does so whatever happens,
and once. They call it before the statement and read the field at once. So its loop is one that can be marked. Steps: a write and a read.
"""

from .. import form
from ..finishing import jumps
from . import facts
from .building import Shape, copied, replace, this
from .sums import _first, _replaced


NAME = "value method to an operation"


def user_loops(method: form.Method) -> list[form.Loop | form.Count]:
    """The user's loops of a method that can be an operation; none where it can't."""
    if not method.pure or method.result is None or facts.assigned(method.body) & set(method.parameters):
        return []
    loops = [one for one in form.statements(method.body) if isinstance(one, (form.Loop, form.Count)) and one.user]
    return loops if loops and not facts.recursive(method) else []


def made_operation(shape: Shape, method: form.Method) -> form.Method | None:
    """The operation, which callers ask in place of the method; None where it can't be."""
    if not user_loops(method) or method.result is None:
        return None
    callers = [one for one in shape.program.methods() if not one.pure and method in facts.called(one.body)]
    if not callers:
        return None
    made = shape.method(method.cls, f"{method.name}_kept", method, method.place)
    slot = shape.slot(method.cls, f"{method.name}_found", method.result, f"the result of {method.origin}")
    target = form.Field(this(method.cls), slot.name, method.result)
    made.parameters = list(method.parameters)
    made.body = _putting(copied(method.body), target)
    jumps.one(made)
    done = False
    for caller in callers:
        done = _in_block(caller.body, method, made, slot.name) or done
    if not done:
        method.cls.methods.remove(made)
        method.cls.slots.remove(slot)
        return None
    shape.count(NAME)
    return made


def _putting(body: list[form.Statement], target: form.Field) -> list[form.Statement]:
    out: list[form.Statement] = []
    for one in body:
        if isinstance(one, form.If):
            one.yes, one.no = _putting(one.yes, target), _putting(one.no, target)
        elif isinstance(one, (form.Loop, form.Count)):
            one.body = _putting(one.body, target)
        if isinstance(one, form.Return) and one.value is not None:
            out += [form.Put(target, "", one.value, one.place), form.Return(None, one.place)]
        else:
            out.append(one)
    return out


def _in_block(body: list[form.Statement], method: form.Method, made: form.Method, name: str) -> bool:
    done = False
    at = 0
    while at < len(body):
        one = body[at]
        call = _first(one, method)
        if call is not None and isinstance(call.receiver, (form.This, form.Root, form.Local)):
            body.insert(at, form.Do(made, call.receiver, list(call.arguments), None, one.place))
            _replaced(one, call, form.Field(call.receiver, name, call.type))
            done = True
            at += 2
            continue
        for block in form.blocks(one):
            if not (isinstance(one, form.Count) and block and block[0] is one.step):
                done = _in_block(block, method, made, name) or done
        at += 1
    return done


__all__ = ["made_operation", "replace"]
