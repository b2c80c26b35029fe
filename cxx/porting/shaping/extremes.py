"""Not proved (README.md). A guarded update to a greater or smaller value as `max` or `min`.

`if (e > f) f = e;` becomes `f = max(f, e);`. Asked before: both are numbers, and the guard does nothing else. Both ways f ends as the
greater of the two. Steps: about the same; the update is always done.
"""

from .. import form
from .building import Shape

NAME = "guarded update to max or min"
GREATER, SMALLER = (">", ">="), ("<", "<=")


def all_of(shape: Shape, method: form.Method) -> None:
    _block(shape, method.body)


def _block(shape: Shape, body: list[form.Statement]) -> None:
    for at, one in enumerate(body):
        for block in form.blocks(one):
            _block(shape, block)
        if isinstance(one, form.If):
            new = _extreme(one)
            if new is not None:
                body[at] = new
                shape.count(NAME)


def _extreme(one: form.If) -> form.Put | None:
    if (
        one.no
        or len(one.yes) != 1
        or not isinstance(one.yes[0], form.Put)
        or not isinstance(one.condition, form.Binary)
    ):
        return None
    put, condition = one.yes[0], one.condition
    if put.operator or put.value.type != form.LONG or put.target.type != form.LONG:
        return None
    if condition.left == put.value and condition.right == put.target:
        greater = condition.operator in GREATER
    elif condition.left == put.target and condition.right == put.value:
        greater = condition.operator in SMALLER
    else:
        return None
    if condition.operator not in GREATER + SMALLER:
        return None
    value = form.Binary("max" if greater else "min", put.target, put.value, form.LONG)
    return form.Put(put.target, "", value, put.place)
