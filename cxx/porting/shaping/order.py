"""Not proved (README.md). What an operation does to its own object before what it calls.

Asked before, for each statement that is moved before another: neither writes a field or local that the other reads or writes, of
whatever object, and not both print, make objects or end the run. So each reads the same and writes the same. Steps: the same.
"""

from .. import form
from . import facts
from .building import Shape


NAME = "own update before a call"


def own_first(shape: Shape, method: form.Method) -> None:
    """Moves statements of the section before calls and writes to other objects, where they may be."""
    if not method.pure:
        _block(shape, method.body)


def _block(shape: Shape, body: list[form.Statement]) -> None:
    for one in body:
        if isinstance(one, form.If):
            for block in form.blocks(one):
                _block(shape, block)
    for at in range(1, len(body)):
        if goes_out([body[at]]):
            continue
        place = at
        while place > 0 and not _bound(body[place - 1], body[at]):
            place -= 1
        # Only as far as is needed: before the first that goes out.
        first = next((k for k in range(place, at) if goes_out([body[k]])), at)
        if first < at and all(not _bound(body[k], body[at]) for k in range(first, at)):
            body.insert(first, body.pop(at))
            shape.count(NAME)


def goes_out(body: list[form.Statement]) -> bool:
    """Whether the statements call, or write another object."""
    for one in form.statements(body):
        if isinstance(one, form.Do):
            return True
        if (
            isinstance(one, form.Put)
            and isinstance(one.target, (form.Field, form.Item))
            and not isinstance(one.target.object, form.This)
        ):
            return True
    return False


def _bound(first: form.Statement, second: form.Statement) -> bool:
    """Whether the two have an order."""
    if facts.effects([first]).touches(facts.effects([second])):
        return True
    own, other = facts.declared([first]) | facts.assigned([first]), facts.declared([second]) | facts.assigned([second])
    return bool(own & (set(facts.used([second])) | other) or other & set(facts.used([first])))
