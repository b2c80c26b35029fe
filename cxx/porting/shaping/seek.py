"""Not proved (README.md). The least or greatest of a list, and then its owner: `if (p->d < best->d) best = p;` in a walk along links.

The walk only gathers the number; behind it a second walk does the statement, where the number is the one that was found.

Asked before: what the statement compares and puts is computed from locals and fields that the loop doesn't change otherwise, so that it is the
same behind the loop; the locals that it puts, and those that a turn leaves to the next for it (the item before), are asked for nowhere else
in the loop. A field that turns change may be compared where each changes it of its own item alone, before it is compared, nothing was kept
before the loop, and the link that is walked along isn't changed: then the walk comes to each item once, and the field stays. The number
is gathered by a walk of its own then.

Why prints and final values stay: a row of such statements leaves what those of the least alone leave, since it is better than all before it, and
none behind it is better.

Steps: the second walk, and a third where a field is changed.
"""

from dataclasses import dataclass, field

from .. import form
from ..words import unique
from . import facts
from .building import Shape, copied, renamed
from .choice import Block, Choice, again, choices, places_of, sliced, uses
from .walk import link

NAME = "least or greatest of a list, and then its owner"
MOST = (1 << 63) - 1


def may_be(loop: form.Statement) -> bool:
    """Whether the loop may be a walk with such a statement."""
    if isinstance(loop, form.Count):
        return link(loop) is not None and any(choices(loop.body, loop.counter))
    if not isinstance(loop, form.Loop) or not loop.body or not isinstance(loop.body[-1], form.Put):
        return False
    counter = loop.body[-1].target
    return isinstance(counter, form.Local) and any(choices(loop.body, counter))


def sought(shape: Shape, method: form.Method, block: Block, loop: form.Statement) -> list[form.Count]:
    """Does it in the loop, which stands in the block; the walks that gather, none where it can't be."""
    if isinstance(loop, form.Loop):
        walk = _as_count(method, block, loop)
    else:
        walk = loop if isinstance(loop, form.Count) else None
    if walk is None or link(walk) is None:
        return []
    for body, choice in choices(walk.body, walk.counter):
        plan = _planned(walk, choice, _before(block, loop))
        if plan is not None:
            return _made(shape, method, block, loop, walk, body, plan)
    return []


@dataclass
class Plan:
    """How the walk is done in parts."""

    choice: Choice
    # What a turn needs for the statement; the puts by which it leaves something for the next; whether the number has a walk of its own.
    needed: Block
    left: list[form.Put] = field(default_factory=list)
    apart: bool = False


def _as_count(method: form.Method, block: Block, loop: form.Loop) -> form.Count | None:
    """`while (p) { ..; p = p->next; }`, whose p nothing asks for behind it, as a walk that counts; the block still has the loop."""
    if loop.test or loop.step or not loop.body:
        return None
    last = loop.body[-1]
    if not isinstance(last, form.Put):
        return None
    match loop.condition:
        case form.Binary("!=", form.Local() as pointer, form.Null(), _):
            counter = pointer
        case _:
            return None
    inside = {id(one) for one in form.statements([loop])}
    outside = [one for one in form.statements(method.body) if id(one) not in inside]
    shallow = [expr for one in outside for own in form.own_expressions(one) for expr in form.within(own)]
    declared = [one for one in block if isinstance(one, form.Let) and one.local == counter]
    if len(declared) != 1 or shallow.count(counter) != 1 or counter in facts.assigned(loop.body[:-1]):
        return None
    step = form.Put(last.target, last.operator, last.value, last.place)
    return form.Count(counter, counter, loop.condition, step, loop.body[:-1], loop.place, loop.user)


def _before(block: Block, loop: form.Statement) -> Block:
    return block[: next(at for at, one in enumerate(block) if one is loop)]


def _planned(walk: form.Count, choice: Choice, before: Block) -> Plan | None:
    body, inside = walk.body, facts.declared(walk.body)
    plan = Plan(choice, sliced(body, choice.statement))
    plan.left = _left(walk, choice)
    put = choice.targets | {one.target for one in plan.left if isinstance(one.target, form.Local)}
    header = form.Count(walk.counter, walk.first, walk.condition, walk.step, [], walk.place)
    if put & (inside | set(facts.used([header]))) or any(uses(body, one) != _uses(plan, one) for one in put):
        return None
    again_ = [*plan.needed, *plan.left]
    changed = facts.assigned(body)
    own = facts.declared(plan.needed)
    for local in facts.used([*again_, header]):
        if local in changed and local not in put or local in inside and local not in own:
            return None
    written = places_of([*again_, header]) & facts.effects(body).writes
    plan.apart = bool(written)
    return plan if all(_of_own_item(walk, choice, before, one, plan, header) for one in written) else None


def _left(walk: form.Count, choice: Choice) -> list[form.Put]:
    """What a turn leaves for the statement of the next."""
    puts = [
        one
        for one in walk.body
        if isinstance(one, form.Put) and isinstance(one.target, form.Local) and not one.operator
    ]
    asked = set(facts.used([choice.statement])) - choice.targets
    inside = facts.declared(walk.body)
    return [
        one
        for one in puts
        if one.target in asked and not any(part in inside or part == one.target for part in form.within(one.value))
    ]


def _uses(plan: Plan, local: form.Local) -> int:
    """How often the statement and what is left for it have the local."""
    return uses([plan.choice.statement], local) + uses(list(plan.left), local)


def _of_own_item(
    walk: form.Count, choice: Choice, before: Block, place: facts.Place, plan: Plan, header: form.Count
) -> bool:
    """Whether a field that turns change is the same behind the loop as where it is compared."""
    statement = choice.statement
    if choice.there != walk.counter or not any(one is statement for one in walk.body) or place in places_of([header]):
        return False
    at = next(k for k, one in enumerate(walk.body) if one is statement)
    calls = [one for one in form.statements(walk.body) if isinstance(one, form.Do)]
    if place in facts.effects(list(calls)).writes or place in facts.effects(walk.body[at:]).writes:
        return False
    puts = [one for one in form.statements(walk.body) if isinstance(one, form.Put)]
    if any(
        isinstance(one.target, (form.Field, form.Item))
        and facts.place_of(one.target) == place
        and one.target.object != walk.counter
        for one in puts
    ):
        return False
    # Only the comparison reads it, of the item and of what is kept, which was none before the loop.
    owners = [one.target for one in statement.yes if isinstance(one, form.Put) and one.value == walk.counter]
    rest = [one for one in [*plan.needed, *plan.left] if not isinstance(one, form.If)]
    if (
        len(owners) != 1
        or len(plan.needed) != 1 + len(rest) - len(plan.left)
        or place in places_of([*rest, *statement.yes])
    ):
        return False
    parts = [part for part in form.within(statement.condition) if isinstance(part, (form.Field, form.Item, form.Apply))]
    if any(isinstance(part, form.Apply) for part in parts):
        return False
    read = [part for part in parts if isinstance(part, (form.Field, form.Item)) and facts.place_of(part) == place]
    return all(part.object in (walk.counter, owners[0]) for part in read) and _starts_as_none(before, owners[0])


def _starts_as_none(before: Block, owner: form.Expr) -> bool:
    at = next((k for k, one in enumerate(before) if isinstance(one, form.Let) and one.local == owner), None)
    if at is None:
        return False
    let = before[at]
    assert isinstance(let, form.Let)
    return (let.value is None or isinstance(let.value, form.Null)) and owner not in facts.assigned(before[at:])


def _made(
    shape: Shape, method: form.Method, block: Block, loop: form.Statement, walk: form.Count, body: Block, plan: Plan
) -> list[form.Count]:
    choice, statement = plan.choice, plan.choice.statement
    used = shape.names(method.cls) | {one.name for one in facts.used(method.body)}
    number = choice.local("found", form.LONG, used)
    gathered: form.Statement = form.Put(
        number, "", form.Binary(choice.word, number, choice.value, form.LONG), statement.place
    )
    if choice.there == walk.counter:
        choice.there = None
    first: form.Expr = form.Number(MOST)
    if choice.word == "max":
        first = form.Binary("-", form.Number(-MOST), form.Number(1), form.LONG)
    seeking = _seeking(walk, plan, number)
    turn_needs = sliced(walk.body, statement)
    kept = walk.body
    kept[:] = [one for one in kept if not any(one is other for other in plan.left)]
    at = next(k for k, one in enumerate(body) if one is statement)
    body[at : at + 1] = [] if plan.apart else choice.guarded([gathered])
    walks = [walk]
    if plan.apart:
        own = [one for one in turn_needs if not isinstance(one, form.If)]
        walks.append(_again(walk, [*own, *choice.guarded([gathered])], used, walk.user))
    found = _again(walk, seeking, used, False)
    if isinstance(loop, form.Loop):
        _own_counter(walk, used)
    here = next(k for k, one in enumerate(block) if one is loop)
    block[here : here + 1] = [form.Let(number, first, walk.place), *walks, found]
    shape.count(NAME)
    shape.tell(
        statement.place,
        f"the {'greatest' if choice.word == 'max' else 'least'} is looked for first, and then its owner",
    )
    return walks


def _seeking(walk: form.Count, plan: Plan, number: form.Local) -> Block:
    """The body of the walk that does the statement, where the number is the one that was found."""
    statement, out = plan.choice.statement, []
    same = form.Binary("==", plan.choice.value, number, form.BOOL)
    for one in _with_left(walk, plan):
        out.append(one)
    made = copied(out)
    _wrapped(made, statement, same)
    return made


def _with_left(walk: form.Count, plan: Plan) -> Block:
    """What the statement needs, and behind it what is left for the next."""
    before = [one for one in plan.left if _stands_before(walk.body, one, plan.choice.statement)]
    behind = [one for one in plan.left if not any(one is other for other in before)]
    return [*before, *plan.needed, *behind]


def _stands_before(body: Block, put: form.Put, statement: form.Statement) -> bool:
    for one in body:
        if one is put:
            return True
        if any(other is statement for other in form.statements([one])):
            return False
    return False


def _wrapped(body: Block, statement: form.If, same: form.Expr) -> None:
    """Puts the condition before the copy of the statement."""
    for at, one in enumerate(body):
        if isinstance(one, form.If) and one.condition == statement.condition and len(one.yes) == len(statement.yes):
            body[at] = form.If(same, [one], [], one.place)
            return
        for block in form.blocks(one):
            _wrapped(block, statement, same)


def _again(walk: form.Count, body: Block, used: set[str], user: bool) -> form.Count:
    """The same walk with another body, and locals of its own."""
    counter = form.Local(unique(walk.counter.name, used), walk.counter.type)
    made = again(body, used, {walk.counter: counter})

    def change(expr: form.Expr) -> form.Expr:
        return form.mapped(expr, lambda part: counter if part == walk.counter else None)

    first = walk.first
    step = form.Put(counter, "", change(walk.step.value), walk.place)
    return form.Count(counter, first, change(walk.condition), step, made, walk.place, user)


def _own_counter(walk: form.Count, used: set[str]) -> None:
    """A walk that was a `while` declares a local of its own, which starts at the one of before."""
    counter = form.Local(unique(walk.counter.name, used), walk.counter.type)
    first = walk.first
    renamed([walk], {walk.counter: counter})
    walk.first = first
