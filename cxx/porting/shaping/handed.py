"""Not proved (README.md). Arguments that a recursion hands on unchanged, as fields of the program.

Asked before: each call of the method within what it reaches is its own, and hands on the same parameter, which the method doesn't put; so
all calls of one extent have the value that the outermost was given. Callers put the field and then call. Steps: a write before each
outermost call, no argument in all others.
"""

from .. import form
from . import facts
from .building import ROOT, Shape, replace


NAME = "argument that a recursion hands on to a field"


def lifted(shape: Shape, method: form.Method) -> bool:
    """Lifts what can be lifted; whether anything was."""
    inner = [one for one in form.statements(method.body) if isinstance(one, form.Do) and one.method is method]
    if method.pure or not inner:
        return False
    others = [one for one in facts.reached(method.body) if one is not method]
    if any(method in facts.called(one.body) for one in others):
        return False
    changed = facts.assigned(method.body)
    same = [
        at
        for at, one in enumerate(method.parameters)
        if one not in changed and all(call.arguments[at] == one for call in inner)
    ]
    if not same:
        return False
    program = shape.program.classes["Program"]
    fields: dict[int, form.Field] = {}
    for at in same:
        local = method.parameters[at]
        slot = shape.slot(program, f"{method.name}_{local.name}", local.type, local.name)
        fields[at] = form.Field(ROOT, slot.name, local.type)
    for caller in shape.program.methods():
        if caller is not method:
            caller.body = _put_before(caller.body, method, fields)
    for at in same:
        local = method.parameters[at]
        replace(method.body, lambda expr, local=local, at=at: fields[at] if expr == local else None)  # type: ignore[misc]
    for one in (x for caller in shape.program.methods() for x in form.statements(caller.body)):
        if isinstance(one, form.Do) and one.method is method:
            one.arguments = [value for at, value in enumerate(one.arguments) if at not in fields]
    method.parameters = [one for at, one in enumerate(method.parameters) if at not in fields]
    shape.count(NAME, len(fields))
    shape.tell(method.place, f"what {method.origin} hands on unchanged put into fields")
    return True


def _put_before(body: list[form.Statement], method: form.Method, fields: dict[int, form.Field]) -> list[form.Statement]:
    out: list[form.Statement] = []
    for one in body:
        if isinstance(one, form.If):
            one.yes, one.no = _put_before(one.yes, method, fields), _put_before(one.no, method, fields)
        elif isinstance(one, (form.Loop, form.Count)):
            one.body = _put_before(one.body, method, fields)
        elif isinstance(one, form.Do) and one.method is method:
            out += [form.Put(fields[at], "", one.arguments[at], one.place) for at in sorted(fields)]
        out.append(one)
    return out
