"""Not proved (README.md). A second name of an object or number, left out.

Asked before: a local is declared with the value of another local, of a parameter or of `this`, and neither is put behind that. Then it has that
value wherever it stands. Steps: the same.
"""

from .. import form
from . import facts
from .building import Shape, replace

NAME = "second name left out"


def all_of(shape: Shape, method: form.Method) -> None:
    changed = facts.assigned(method.body)
    others: dict[form.Expr, form.Expr] = {}
    _block(method.body, changed, others)
    if others:
        replace(method.body, lambda expr: others.get(expr))
        shape.count(NAME, len(others))


def _block(body: list[form.Statement], changed: set[form.Local], others: dict[form.Expr, form.Expr]) -> None:
    for one in list(body):
        if isinstance(one, form.Let) and one.value is not None and one.local not in changed:
            first = others.get(one.value, one.value)
            if isinstance(first, (form.This, form.Root)) or isinstance(first, form.Local) and first not in changed:
                others[one.local] = first
                body.remove(one)
        for block in form.blocks(one):
            _block(block, changed, others)
