"""Not proved (README.md). What the search tries on a loop, on a recursion, and on a function that only computes: rewrites in a row."""

from dataclasses import dataclass
from typing import Callable

from .. import form

from . import (
    aliases, extremes, gather, given, group, guard, handed, opaque, order, owner, receiver, seek, sums, turn, values, walk, zeros,
)  # fmt: skip
from .building import Shape
from .facts import effects, reached

Block = list[form.Statement]
LoopAction = Callable[[Shape, form.Method, Block, form.Statement], bool]
MethodAction = Callable[[Shape, form.Method], form.Method | None]


@dataclass(frozen=True)
class OfLoop:
    """An action on a loop, and whether it may do anything there, which takes no copy of the program to tell."""

    may: Callable[[form.Statement], bool]
    do: LoopAction


def sites(shape: Shape) -> list[tuple[form.Method, Block, form.Statement]]:
    """The user's loops, outer ones first, each with its operation and the block in which it stands."""
    found: list[tuple[form.Method, Block, form.Statement]] = []

    def look(method: form.Method, body: Block) -> None:
        for one in body:
            if isinstance(one, (form.Loop, form.Count)) and one.user:
                found.append((method, body, one))
            for block in form.blocks(one):
                look(method, block)

    for method in shape.program.methods():
        if not method.pure:
            look(method, method.body)
    return found


def tidy(shape: Shape, method: form.Method) -> None:
    """What gives an operation the form that is compared: a section, then calls."""
    written = effects(method.body).writes
    for one in [method, *reached(method.body)]:
        given.all_of(shape, one, written)
        aliases.all_of(shape, one)
        extremes.all_of(shape, one)
        values.loops(shape, one)
        values.divisions(shape, one)
        group.all_of(shape, one)
        guard.all_of(shape, one)
        order.own_first(shape, one)


# Loops ----------------------------------------------------------------------------------------------------------------


def _inner(shape: Shape, method: form.Method, lifts: bool) -> None:
    """Loops within an operation that aren't loops of calls, nor become value methods."""
    _inner_of(shape, method, method.body, lifts)


def _inner_of(shape: Shape, method: form.Method, body: Block, lifts: bool) -> None:
    for one in list(body):
        if isinstance(one, (form.Loop, form.Count)) and not values.may_be(one):
            made: form.Method | None = None
            if not turn.counted(one):
                made = walk.walked(shape, method, body, one, lifts)
            elif isinstance(one, form.Count) and len(one.body) == 1 and isinstance(one.body[0], form.Do):
                turn.normal(one)
            elif isinstance(one, form.Count):
                made = turn.turn(shape, method, body, one, True, lifts) or turn.turn(
                    shape, method, body, one, False, lifts
                )
            if made is not None:
                _inner(shape, made, lifts)
        elif isinstance(one, form.If):
            for block in form.blocks(one):
                _inner_of(shape, method, block, lifts)


def _tidied(shape: Shape, method: form.Method, block: Block, loop: form.Statement) -> bool:
    if not isinstance(loop, form.Count):
        return False
    if turn.counted(loop):
        turn.normal(loop)
    for one in form.statements(loop.body):
        if isinstance(one, form.Do):
            tidy(shape, one.method)
    return True


def _turned(on_object: bool, lifts: bool) -> LoopAction:
    def action(shape: Shape, method: form.Method, block: Block, loop: form.Statement) -> bool:
        if not isinstance(loop, form.Count):
            return False
        made = turn.turn(shape, method, block, loop, on_object, lifts)
        if made is None:
            return False
        _inner(shape, made, lifts)
        tidy(shape, made)
        return True

    return action


def _walked(lifts: bool) -> LoopAction:
    def action(shape: Shape, method: form.Method, block: Block, loop: form.Statement) -> bool:
        if turn.counted(loop):
            return False
        made = walk.walked(shape, method, block, loop, lifts)
        if made is None:
            return False
        _inner(shape, made, lifts)
        tidy(shape, made)
        return True

    return action


def _gathered(shape: Shape, method: form.Method, block: Block, loop: form.Statement) -> bool:
    if not isinstance(loop, form.Count):
        return False
    made = turn.turn(shape, method, block, loop, True, True)
    if made is None or not gather.all_of(shape, made):
        return False
    tidy(shape, made)
    return True


def _sought(lifts: bool) -> LoopAction:
    """The number of a walk first, and then its owner; each walk that gathers becomes a recursion."""

    def action(shape: Shape, method: form.Method, block: Block, loop: form.Statement) -> bool:
        walks = seek.sought(shape, method, block, loop)
        return bool(walks) and all([_walked(lifts)(shape, method, block, one) for one in walks])

    return action


def _behind(change: LoopAction, then: LoopAction) -> LoopAction:
    """A change of the loop itself, and then an action."""

    def action(shape: Shape, method: form.Method, block: Block, loop: form.Statement) -> bool:
        return change(shape, method, block, loop) and then(shape, method, block, loop)

    return action


def _then(before: LoopAction, change: Callable[[Shape, form.Method], bool]) -> LoopAction:
    """An action, and then a change of all that the loop reaches; whether that did anything."""

    def action(shape: Shape, method: form.Method, block: Block, loop: form.Statement) -> bool:
        if not before(shape, method, block, loop):
            return False
        inside = reached([loop] if isinstance(loop, (form.Loop, form.Count)) else [])
        return any([change(shape, one) for one in inside])

    return action


def _is_count(loop: form.Statement) -> bool:
    return isinstance(loop, form.Count)


def _of_object(loop: form.Statement) -> bool:
    """Whether the turns work on an object each."""
    if not isinstance(loop, form.Count) or not turn.counted(loop):
        return False
    return turn.element(loop) is not None or turn.receiver_of_call(loop) is not None


def _is_walk(loop: form.Statement) -> bool:
    return isinstance(loop, (form.Loop, form.Count)) and not turn.counted(loop)


LOOPS = [
    OfLoop(_is_count, _tidied),
    OfLoop(_of_object, _turned(True, False)), OfLoop(_of_object, _turned(True, True)),
    OfLoop(turn.counted, _turned(False, False)), OfLoop(turn.counted, _turned(False, True)),
    OfLoop(_is_walk, _walked(False)), OfLoop(_is_walk, _walked(True)),
    OfLoop(_is_count, _then(_tidied, opaque.all_of)), OfLoop(_of_object, _then(_turned(True, True), opaque.all_of)),
    OfLoop(_is_count, _then(_tidied, values.shared)), OfLoop(_of_object, _then(_turned(True, True), values.shared)),
    OfLoop(_is_count, _then(_tidied, values.flattened)), OfLoop(_of_object, _then(_turned(True, True), values.flattened)),
    OfLoop(_of_object, _gathered),
    OfLoop(owner.may_be, _behind(owner.kept, _turned(True, True))),
    OfLoop(owner.may_be, _behind(owner.kept, _turned(False, True))),
    OfLoop(seek.may_be, _sought(False)), OfLoop(seek.may_be, _sought(True)),
    OfLoop(zeros.may_be, _behind(zeros.summed, _turned(True, True))),
    OfLoop(zeros.may_be, _behind(zeros.summed, _turned(False, True))),
]  # fmt: skip

# Recursions -----------------------------------------------------------------------------------------------------------


def _in_place(shape: Shape, method: form.Method) -> form.Method | None:
    tidy(shape, method)
    return method


def _tidied_after(*changes: MethodAction) -> MethodAction:
    """Changes in a row, each of what the one before it made, and then what gives the form that is compared."""

    def action(shape: Shape, method: form.Method) -> form.Method | None:
        made: form.Method | None = method
        for change in changes:
            made = change(shape, made) if made is not None else None
        return _in_place(shape, made) if made is not None else None

    return action


def _handed(shape: Shape, method: form.Method) -> form.Method | None:
    return method if handed.lifted(shape, method) else None


def _rests(shape: Shape, method: form.Method) -> form.Method | None:
    _inner(shape, method, False)
    return method


RECURSIONS: list[MethodAction] = [
    _in_place,
    _tidied_after(sums.summed),
    _tidied_after(sums.summed, receiver.moved),
    _tidied_after(receiver.moved),
    _tidied_after(_handed),
    _tidied_after(receiver.moved, _handed),
    _tidied_after(sums.summed, _rests),
]
