"""Not proved (README.md). The least or greatest with its owner: `if (p->d < best->d) best = p;`.

In a loop that counts, each turn keeps one number, which has the value and, below it, the turn's index; so the least of these numbers tells
the value and who had it first (or last, as the comparison says). Behind the loop the statement is done once, for this turn.

Asked before: what the statement compares and puts is computed from locals and fields that the loop doesn't change otherwise, so that it is the
same behind the loop; the locals that it puts are asked for nowhere else in the loop. The numbers have to be small: each turn looks, and
where one isn't, or the indices aren't, a loop behind does the statement for each turn, as it was written.

Why prints and final values stay: a row of such statements leaves what the one of the winner alone leaves, since it is better than all before
it, and none behind it is better.

Steps: an update in each turn as before; one turn's computation again.
"""

from .. import form
from . import facts
from .building import Shape, fitted, this
from .choice import Choice, again, choices, places_of, sliced, uses
from .turn import counted, normal

NAME = "least or greatest with its owner to one number"
# Indices are below the first, values not above the second: their numbers are below 2^62.
INDICES, VALUES = 1 << 20, (1 << 41) - 1
NOTHING = {"min": 1 << 62, "max": -1}
# Where a value is too large: better than all others, so that it stays.
LARGE = {"min": -1, "max": 1 << 62}


def may_be(loop: form.Statement) -> bool:
    """Whether the loop has such a statement, as far as it alone tells."""
    return isinstance(loop, form.Count) and counted(loop) and any(choices(loop.body, loop.counter))


def kept(shape: Shape, method: form.Method, block: list[form.Statement], loop: form.Statement) -> bool:
    """Keeps one number in place of a least or greatest with its owner in the loop, which stands in the block; whether that was done."""
    if not isinstance(loop, form.Count) or not counted(loop) or not _starts(loop):
        return False
    for body, choice in choices(loop.body, loop.counter):
        if _fits(loop, choice):
            normal(loop)
            _made(shape, method, block, loop, body, choice)
            return True
    return False


def _starts(loop: form.Count) -> bool:
    """Whether no index is below zero."""
    return isinstance(loop.first, form.Number) and loop.first.value >= 0


def _fits(loop: form.Count, choice: Choice) -> bool:
    slice_ = sliced(loop.body, choice.statement)
    changed, inside = facts.assigned(loop.body), facts.declared(loop.body)
    if choice.targets & (inside | {loop.counter}):
        return False
    header = [form.Count(loop.counter, loop.first, loop.condition, loop.step, [], loop.place)]
    # (the statement isn't the only one that asks for what it puts, or the loop's bound does)
    alone = all(uses(loop.body, one) == uses([choice.statement], one) for one in choice.targets)
    if not alone or choice.targets & set(facts.used(header)):
        return False
    own = facts.declared(slice_) | choice.targets
    for local in facts.used([*slice_, *header]):
        if local not in own and local != loop.counter and local in inside | changed:
            return False
        if local in changed and local not in choice.targets:
            return False
    return not places_of([*slice_, *header]) & facts.effects(loop.body).writes


def _made(
    shape: Shape,
    method: form.Method,
    block: list[form.Statement],
    loop: form.Count,
    body: list[form.Statement],
    choice: Choice,
) -> None:
    used = shape.names(method.cls) | {one.name for one in facts.used(method.body)}
    place, statement = choice.statement.place, choice.statement
    key = choice.local("kept", form.LONG, used)
    assert isinstance(loop.condition, form.Binary)
    slice_ = sliced(loop.body, statement)
    # What is done behind: the statement for the turn that is kept, or for all.
    at = choice.local("at", form.LONG, used)
    index: form.Expr = form.Binary("%", key, form.Number(INDICES), form.LONG)
    if not _forward(choice):
        index = form.Binary("-", form.Number(INDICES - 1), index, form.LONG)
    winner = [form.Let(at, index, place), *again(slice_, used, {loop.counter: at})]
    counter = choice.local(loop.counter.name, form.LONG, used)
    step = form.Put(counter, loop.step.operator, loop.step.value, place)
    condition = form.mapped(loop.condition, lambda part: counter if part == loop.counter else None)
    every = form.Count(counter, loop.first, condition, step, again(slice_, used, {loop.counter: counter}), loop.place)
    here = next(k for k, one in enumerate(body) if one is statement)
    before: list[form.Statement] = [form.Let(key, form.Number(NOTHING[choice.word]), loop.place)]
    if choice.guards or choice.there is not None:
        number = _number(shape, method, choice, loop)
        given: list[form.Expr] = list(number.parameters)
        value: form.Expr = form.Apply(number, this(method.cls), tuple(given), form.LONG)
        body[here] = form.Put(key, "", form.Binary(choice.word, key, value, form.LONG), place)
        number.parameters = fitted(number.body, number.parameters, method.cls.names())
        wide: form.Expr = form.Binary("==", key, form.Number(LARGE[choice.word]), form.BOOL)
    else:
        flag = choice.local("wide", form.BOOL, used)
        kept_ = choice.local("value", form.LONG, used)
        body[here : here + 1] = [form.Let(kept_, choice.value, place), *_update(choice, key, flag, kept_, loop)]
        before.append(form.Let(flag, form.Truth(False), loop.place))
        wide = flag
    many = form.Binary(">", loop.condition.right, form.Number(INDICES), form.BOOL)
    there = form.Binary("!=", key, form.Number(NOTHING[choice.word]), form.BOOL)
    behind = form.If(form.Binary("||", wide, many, form.BOOL), [every], [form.If(there, winner, [], place)], place)
    outer = next(k for k, one in enumerate(block) if one is loop)
    block[outer : outer + 1] = [*before, loop, behind]
    shape.count(NAME)
    shape.tell(place, f"the {'greatest' if choice.word == 'max' else 'least'} and its owner kept as one number")


def _forward(choice: Choice) -> bool:
    """Whether the index is below the value as it is, and not counted from the end."""
    return (choice.word == "min") != choice.last


def _number(shape: Shape, method: form.Method, choice: Choice, loop: form.Count) -> form.Method:
    """What a turn gives, as a function that only computes: a turn that doesn't come to the comparison gives what no other is worse than."""
    place, word = choice.statement.place, choice.word
    made = shape.method(method.cls, f"{method.name}_number", method, place)
    made.origin = f"a number of the loop at {loop.place.line}"
    made.pure, made.result = True, form.LONG
    value = form.Local("value_", form.LONG)
    large = form.If(_is_large(value), [form.Return(form.Number(LARGE[word]), place)], [], place)
    inner: list[form.Statement] = [form.Let(value, choice.value, place), large]
    inner.append(form.Return(_with_index(choice, value, loop), place))
    made.body = [*choice.guarded(inner), form.Return(form.Number(NOTHING[word]), place)]
    made.parameters = facts.free(made.body)
    return made


def _with_index(choice: Choice, value: form.Local, loop: form.Count) -> form.Expr:
    index: form.Expr = loop.counter
    if not _forward(choice):
        index = form.Binary("-", form.Number(INDICES - 1), index, form.LONG)
    raised = form.Binary("+", value, form.Number(VALUES), form.LONG)
    return form.Binary("+", form.Binary("*", raised, form.Number(INDICES), form.LONG), index, form.LONG)


def _is_large(value: form.Local) -> form.Expr:
    above = form.Binary(">", value, form.Number(VALUES), form.BOOL)
    below = form.Binary("<", value, form.Number(-VALUES), form.BOOL)
    return form.Binary("||", above, below, form.BOOL)


def _update(
    choice: Choice, key: form.Local, wide: form.Local, value: form.Local, loop: form.Count
) -> list[form.Statement]:
    place = choice.statement.place
    return [
        form.Put(key, "", form.Binary(choice.word, key, _with_index(choice, value, loop), form.LONG), place),
        form.If(_is_large(value), [form.Put(wide, "", form.Truth(True), place)], [], place),
    ]
