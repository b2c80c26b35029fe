"""Not proved (README.md). Calls of an operation on its own object, put in.

Asked before: the operation that is called doesn't call itself, and makes and prints nothing. Its parameters become locals that have the
arguments, its locals get names of their own; so the same statements run in the same order. Steps: a call less.
"""

from .. import form
from . import facts
from .building import Shape, copied, renamed

NAME = "call on the own object put in"
LARGEST = 40


def on_this(shape: Shape, method: form.Method, depth: int = 0) -> None:
    """Puts in what the method calls on its own object."""
    used = {one.name for one in method.parameters} | {one.name for one in facts.used(method.body)}
    if depth < 4 and _block(method, method.body, used):
        shape.count(NAME)
        on_this(shape, method, depth + 1)


def _block(method: form.Method, body: list[form.Statement], used: set[str]) -> bool:
    changed = False
    at = 0
    while at < len(body):
        one = body[at]
        if isinstance(one, form.Do) and isinstance(one.receiver, form.This) and _small(method, one.method):
            new = _spliced(one, used)
            body[at : at + 1] = new
            at += len(new)
            changed = True
            continue
        if isinstance(one, form.If):
            for block in form.blocks(one):
                changed = _block(method, block, used) or changed
        at += 1
    return changed


def _small(method: form.Method, called: form.Method) -> bool:
    if called is method or called.pure or called.cls is not method.cls or facts.recursive(called):
        return False
    inside = list(form.statements(called.body))
    seen = any(isinstance(one, (form.Tell, form.Make, form.Fail)) for one in inside)
    calls = any(isinstance(one, form.Do) and not isinstance(one.receiver, form.This) for one in inside)
    loops = any(
        isinstance(one, (form.Loop, form.Count)) and any(isinstance(x, form.Do) for x in form.statements([one]))
        for one in inside
    )
    return not seen and not loops and len(inside) <= LARGEST and not (calls and len(inside) > LARGEST)


def _spliced(call: form.Do, used: set[str]) -> list[form.Statement]:
    body = copied(call.method.body)
    names: dict[form.Local, form.Local] = {}
    for local in dict.fromkeys([*call.method.parameters, *facts.used(body)]):
        name, count = local.name, 2
        while name in used:
            name, count = f"{local.name}_{count}", count + 1
        used.add(name)
        names[local] = form.Local(name, local.type)
    renamed(body, names)
    out: list[form.Statement] = []
    for parameter, argument in zip(call.method.parameters, call.arguments):
        out.append(form.Let(names[parameter], argument, call.place))
    return out + body
