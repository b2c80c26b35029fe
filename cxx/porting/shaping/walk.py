"""Not proved (README.md). A walk along a list, and any other loop whose turns can't be counted, as a recursion.

Asked before: nothing that the loop changes of the function's locals is used behind it. A turn becomes an operation that does the loop's
body where the condition holds, and then calls itself with what the locals are by then: for a walk along links an operation of the object
that is walked to, else one of the object that has the loop. The same statements run in the same order.

Steps: a call for each turn, all of them waiting at once.
"""

from .. import form
from ..words import unique
from . import facts, inline
from .building import Shape, copied, fitted, own_copies, replace, this
from .turn import Body, hand_over_this, promoted, to_field


NAME = "walk along a list to a recursion"
REST = "loop to a recursion"


def walked(
    shape: Shape, method: form.Method, block: list[form.Statement], loop: form.Statement, lifts: bool
) -> form.Method | None:
    """Makes a recursion of the loop, which stands in the block; None where it can't be."""
    if not isinstance(loop, (form.Loop, form.Count)):
        return None
    if isinstance(loop, form.Loop) and (loop.test or loop.step):
        return None
    if any(isinstance(one, (form.Break, form.Continue, form.Return)) for one in form.statements(loop.body)):
        return None
    next_ = link(loop)
    if next_ is not None:
        return _along(shape, method, block, loop, next_, lifts)  # type: ignore[arg-type]
    return _tail(shape, method, block, loop)


def link(loop: form.Statement) -> form.Expr | None:
    """The link by which a loop goes on, where it is `for (p = ..; p != nullptr; p = p->link)`."""
    if (
        not isinstance(loop, form.Count)
        or not isinstance(loop.counter.type, form.Pointer)
        or loop.counter in facts.assigned(loop.body)
    ):
        return None
    match loop.condition:
        case form.Binary("!=", left, right, _) if left == loop.counter and isinstance(right, form.Null):
            step = loop.step.value
            if isinstance(step, form.Field) and step.object == loop.counter and not loop.step.operator:
                return step
    return None


def _along(
    shape: Shape, method: form.Method, block: list[form.Statement], loop: form.Count, along: form.Expr, lifts: bool
) -> form.Method | None:
    if not promoted(shape, method, loop):
        return None
    assert isinstance(loop.counter.type, form.Pointer)
    cls = shape.program.classes[loop.counter.type.cls]
    it = Body(copied(loop.body), cls, loop.first)
    hand_over_this(it, method)
    replace(it.body, lambda expr: this(cls) if expr == loop.counter else None)
    next_ = form.mapped(along, lambda expr: this(cls) if expr == loop.counter else None)
    made = shape.method(cls, f"{method.name}_walk", method, loop.place)
    made.origin = f"a turn of the loop at {loop.place.line}"
    made.body = it.body
    inline.on_this(shape, made)
    it.add(facts.free(made.body))
    it.keep(facts.free(made.body))
    before: list[form.Statement] = []
    # (a field is one for the program: another entry of the function would put its own argument there)
    if lifts and not facts.recursive(method):
        before = [
            form.Put(to_field(shape, made, local), "", value, loop.place)
            for local, value in zip(it.parameters, it.given)
        ]
        it.keep([])
    call = form.Do(made, next_, list(it.parameters), None, loop.place)
    made.body.append(form.If(_there(next_), [call], [], loop.place))
    made.parameters = fitted(made.body, it.parameters, cls.names())
    at = block.index(loop)
    block[at : at + 1] = _started(method, loop, made, before, it.given)
    shape.loops[made] = loop.place
    shape.count(NAME)
    shape.tell(loop.place, f"walk along a list made a recursion of {cls.origin or cls.name}")
    return made


def _started(
    method: form.Method, loop: form.Count, made: form.Method, before: list[form.Statement], given: list[form.Expr]
) -> list[form.Statement]:
    """What stands in place of the loop."""
    used = {one.name for one in facts.used(method.body)} | method.cls.names()
    first = form.Local(unique(f"{loop.counter.name}_first", used), loop.counter.type)
    call = form.Do(made, first, given, None, loop.place)
    return [form.Let(first, loop.first, loop.place), *before, form.If(_there(first), [call], [], loop.place)]


def _there(pointer: form.Expr) -> form.Binary:
    assert isinstance(pointer.type, form.Pointer)
    return form.Binary("!=", pointer, form.Null(pointer.type), form.BOOL)


def _tail(
    shape: Shape, method: form.Method, block: list[form.Statement], loop: form.Loop | form.Count
) -> form.Method | None:
    at = block.index(loop)
    changed = facts.assigned([loop])
    if isinstance(loop, form.Count):
        changed.add(loop.counter)
    inside = list(form.statements([loop]))
    outside = [one for one in form.statements(method.body) if all(one is not other for other in inside)]
    later = {part for one in outside for expr in form.own_expressions(one) for part in form.within(expr)}
    own = facts.declared(loop.body)
    carried = [one for one in facts.used([loop]) if one in changed and one not in own]
    lets = {one.local for one in block[:at] if isinstance(one, form.Let)}
    for one in carried:
        if isinstance(loop, form.Count) and one == loop.counter:
            continue
        behind = any(one in facts.used([x]) for x in block[at + 1 :])
        if behind or one not in lets or one in later and not _dies(block, one):
            return None
    body = copied(loop.body)
    if isinstance(loop, form.Count):
        body.append(form.Put(loop.step.target, loop.step.operator, loop.step.value, loop.step.place))
    parameters = [one for one in facts.used([form.If(loop.condition, body, [], loop.place)]) if one not in own]
    made = shape.method(method.cls, f"{method.name}_rest", method, loop.place)
    made.origin = f"a turn of the loop at {loop.place.line}"
    body.append(form.Do(made, this(method.cls), list(parameters), None, loop.place))
    made.body = [form.If(loop.condition, body, [], loop.place)]
    given: list[form.Expr] = [
        loop.first if isinstance(loop, form.Count) and one == loop.counter else one for one in parameters
    ]
    made.parameters = fitted(made.body, parameters, method.cls.names())
    own_copies(made)
    block[at : at + 1] = [form.Do(made, this(method.cls), given, None, loop.place)]
    shape.loops[made] = loop.place
    shape.count(REST)
    shape.tell(loop.place, "loop made a recursion")
    return made


def _dies(block: list[form.Statement], local: form.Local) -> bool:
    """Whether the local is declared in the block, so that nothing outside can use it."""
    return any(isinstance(one, form.Let) and one.local == local for one in block)
