"""Not proved (README.md). What a loop puts at its own index, as a sum over zeros: `a[i] = e` as `a[i] += e`, with `a[i] = 0` for all i before.

Asked before: the loop counts up by one and each turn puts the item at its counter, whatever happens, once; the array is of this object, of
the program or of an object that the loop doesn't change the name of; nothing else in the loop reads or writes an array of that name,
and its items are numbers. Then each item is put once, and has the same value; in which order they are put can't be seen.

Steps: one for each item that is put to zero.
"""

from .. import form
from ..words import unique
from . import facts
from .building import Shape
from .turn import counted, normal

NAME = "item put at the loop's own index to a sum"


def may_be(loop: form.Statement) -> bool:
    """Whether a turn of the loop puts such an item."""
    return isinstance(loop, form.Count) and counted(loop) and any(_own_index(loop, one) for one in loop.body)


def summed(shape: Shape, method: form.Method, block: list[form.Statement], loop: form.Statement) -> bool:
    """Does it in the loop, which stands in the block; whether there was such an item."""
    if not isinstance(loop, form.Count) or not counted(loop):
        return False
    found = [one for one in loop.body if _own_index(loop, one)]
    done = False
    for one in found:
        assert isinstance(one, form.Put) and isinstance(one.target, form.Item)
        if _alone(loop, one, one.target):
            normal(loop)
            at = next(k for k, other in enumerate(block) if other is loop)
            block.insert(at, _zeros(shape, method, loop, one.target))
            one.operator = "+"
            shape.count(NAME)
            shape.tell(one.place, "what each turn puts at its own index is added to 0")
            done = True
    return done


def _own_index(loop: form.Count, one: form.Statement) -> bool:
    return (
        isinstance(one, form.Put)
        and not one.operator
        and isinstance(one.target, form.Item)
        and one.target.index == loop.counter
        and one.target.type == form.LONG
    )


def _alone(loop: form.Count, put: form.Put, target: form.Item) -> bool:
    """Whether nothing else of the loop has to do with the array, or with which one it is."""
    place = facts.place_of(target)
    others = [one for one in form.statements(loop.body) if one is not put]
    reads = facts.effects([form.Put(loop.counter, "", put.value, put.place)]).reads
    header = form.Count(loop.counter, loop.first, loop.condition, loop.step, [], loop.place)
    around = facts.effects([*_flat(others), header])
    if place in reads | around.reads | around.writes:
        return False
    changed, inside = facts.assigned(loop.body), facts.declared(loop.body)
    name = [part for part in form.within(target.object)]
    if any(part in changed | inside or isinstance(part, form.Apply) or part == loop.counter for part in name):
        return False
    named = {facts.place_of(part) for part in name if isinstance(part, (form.Field, form.Item))}
    header_reads = facts.effects([header]).reads
    bound = {part for part in form.within(loop.condition) if isinstance(part, form.Local)} - {loop.counter}
    return not (named | header_reads) & facts.effects(loop.body).writes and not bound & (changed | inside)


def _flat(statements: list[form.Statement]) -> list[form.Statement]:
    """The statements, those that hold others without them."""
    out: list[form.Statement] = []
    for one in statements:
        match one:
            case form.If(condition, _, _, place):
                out.append(form.If(condition, [], [], place))
            case form.Loop(_, condition, _, _, place, user):
                out.append(form.Loop([], condition, [], [], place, user))
            case form.Count(counter, first, condition, step, _, place, user):
                out.append(form.Count(counter, first, condition, step, [], place, user))
            case _:
                out.append(one)
    return out


def _zeros(shape: Shape, method: form.Method, loop: form.Count, target: form.Item) -> form.Count:
    used = shape.names(method.cls) | {one.name for one in facts.used(method.body)}
    counter = form.Local(unique("at_", used), form.LONG)
    condition = form.mapped(loop.condition, lambda part: counter if part == loop.counter else None)
    step = form.Put(counter, "+", form.Number(1), loop.place)
    item = form.Item(target.object, target.name, counter, target.type)
    return form.Count(
        counter, loop.first, condition, step, [form.Put(item, "", form.Number(0), loop.place)], loop.place
    )
