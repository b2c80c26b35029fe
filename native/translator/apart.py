"""Not proved: call loops that may be shared where their receivers are all different, though their operations don't
commute with themselves.

What `pairs` says of a loop tells that its operations are separable: they read no field of another object that the loop
writes, make no object and print nothing. That they call nothing, and that the loop's own expressions read nothing that
is written, is found here; and where they ask value methods for what they write, that this is of their own object."""

from __future__ import annotations

from .kinds import Extent, closure
from .tree import Asked, Binary, Expression, For, Foreign, Method, New, Number, Own, Print, Program, This, all_inside
from .tree import asked, calls, counted, expressions, inside, within

# Why calls on one object may not commute, though each of them is separable.
ALLOWED = ("FieldDiffers", "DemandsDiffer", "Large", "LoopForm")
# An operation isn't separable since it asks a value method for what is written; what else it does isn't told then.
ASKED = "FunctionRead"


def candidates(program: Program) -> list[tuple[For, str]]:
    """Unmarked call loops whose operations call nothing and whose turns have one receiver, with the class in which they
    stand."""
    found = []
    for method in [*program.methods(), program.main]:
        for it in within(method.body):
            if isinstance(it, For) and not it.is_parallel and may_be_apart(it, method.owner, program):
                found.append((it, method.owner))
    return found


def may_be_apart(it: For, owner: str, program: Program) -> bool:
    called, found = calls(it.body), counted(it)
    others = [each for each in within(it.body) if expressions(each) and each not in called]
    if found is None or not called or others or any(call.receiver != called[0].receiver for call in called):
        return False
    if found[0] not in inside(called[0].receiver):
        # All turns have the same object.
        return False
    methods = [program.called(call, owner) for call in called]
    return not any(calls(method.body) for method in methods) and reads_constants(it, owner, Extent(program, methods))


def reads_constants(it: For, owner: str, extent: Extent) -> bool:
    """Whether the loop's own expressions, and value methods that they call, read nothing that its operations write."""
    led = closure(asked(it, owner, extent.program), lambda each: asked(each.body, each.owner, extent.program))
    read = [(part, owner) for part in all_inside(it)] + [
        (part, method.owner) for method in led for part in all_inside(method.body)
    ]
    return not any(reads_written(part, where, extent) for part, where in read)


def reads_written(it: Expression, owner: str, extent: Extent) -> bool:
    if isinstance(it, Own):
        return (owner, it.name) in extent.written
    return isinstance(it, Foreign) and (extent.program.class_of(it.of, owner), it.name) in extent.written


def reads_itself(it: For, owner: str, program: Program) -> bool:
    """Whether all that the operations read and is written is of their own objects, also where they ask value methods;
    and they make nothing, print nothing and divide by nothing that may be 0."""
    extent = Extent(program, [program.called(call, owner) for call in calls(it.body)])
    return all(does_nothing_else(method) and asks_itself(method, extent, set()) for method in extent.members)


def does_nothing_else(method: Method) -> bool:
    prints = any(isinstance(one, Print) for one in within(method.body))
    return not prints and not any(isinstance(part, New) or divides(part) for part in all_inside(method.body))


def divides(it: Expression) -> bool:
    """By something other than a number that is written there, and isn't 0."""
    if not isinstance(it, Binary) or it.operator not in ("/", "%"):
        return False
    return not isinstance(it.right, Number) or int(it.right.digits) == 0


def asks_itself(method: Method, extent: Extent, seen: set[str]) -> bool:
    """Whether a method, and what it asks its own object for, reads no field of others that is written; `seen` are those
    that are looked at."""
    if repr(method) in seen:
        return True
    seen.add(repr(method))
    for part in all_inside(method.body):
        if isinstance(part, Foreign) and reads_written(part, method.owner, extent):
            return False
        if isinstance(part, Asked):
            value = extent.program.called(part, method.owner)
            is_right = (
                asks_itself(value, extent, seen) if isinstance(part.receiver, This) else reads_none(value, extent)
            )
            if not is_right:
                return False
    return True


def reads_none(value: Method, extent: Extent) -> bool:
    """Whether a value method of any object, and all that it asks, reads nothing that is written."""
    led = closure([value], lambda each: asked(each.body, each.owner, extent.program))
    return not any(reads_written(part, each.owner, extent) for each in led for part in all_inside(each.body))


def apart(program: Program, pairs: str) -> list[For]:
    """Those of the candidates of which `pairs`, asked of the text that was read, refuses no operation as not
    separable, or only since it asks for what is its own."""
    found, reasons = [], loops(pairs)
    for it, owner in candidates(program):
        mine = reasons.get(it.line, [])
        is_separable = bool(mine) and all(reason in (*ALLOWED, ASKED) for reason in mine)
        if is_separable and (ASKED not in mine or reads_itself(it, owner, program)):
            found.append(it)
    return found


def loops(pairs: str) -> dict[int, list[str]]:
    """Of each call loop, by its line, why its pairs aren't shown to commute."""
    found: dict[int, list[str]] = {}
    now: list[str] = []
    for line in pairs.splitlines():
        words = line.split()
        if words[0] in ("extent", "loop"):
            now = []
            if words[0] == "loop":
                found[int(words[1])] = now
        elif words[2] == "unproved":
            now.append(words[-1] if words[3] == "NotSeparable" else words[3])
    return found
