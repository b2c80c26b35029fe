"""Not proved: which operations walk along a list: they do something with an object and end by calling themselves at the
next one."""

from __future__ import annotations

from dataclasses import dataclass

from .kinds import Extent, closure
from .tree import Binary, Block, Call, If, Method, Own, Program, Statement, Word, calls, puts


@dataclass(frozen=True)
class Walk:
    """`turn` is what is done with one object, `next` the field that leads to the next one."""

    turn: Block
    next: str


def walk_of(method: Method, extent: Extent) -> Walk | None:
    """The walk that an operation is, if its list stays as it is in this extent. A tree, where the turn itself leads
    back to the operation, is none."""
    items = method.body.items
    last = only(items[-1]) if items else None
    if not isinstance(last, If) or last.no is not None:
        return None
    call = only(last.yes)
    if not isinstance(call, Call) or not isinstance(call.receiver, Own) or call.method != method.name:
        return None
    field = call.receiver
    is_next = (
        last.test == Binary("!=", field, Word("nullptr"))
        and extent.program.classes[method.owner].fields[field.name].type == method.owner
    )
    turn = Block(items[:-1])
    is_kept = call.arguments == tuple(method.parameters) and not any(
        put.target in method.parameters for put in puts(turn)
    )
    if (
        not is_next
        or not is_kept
        or (method.owner, field.name) in extent.written
        or leads_back(turn, method, extent.program)
    ):
        return None
    return Walk(turn, field.name)


def only(it: Statement) -> Statement:
    """A statement without the braces round it alone."""
    while isinstance(it, Block) and len(it.items) == 1:
        it = it.items[0]
    return it


def leads_back(turn: Block, method: Method, program: Program) -> bool:
    first = [program.called(call, method.owner) for call in calls(turn)]
    return method in closure(first, lambda each: [program.called(call, each.owner) for call in calls(each.body)])
