"""Not proved (README.md). The body of a loop as an operation of the object that it works on.

Asked before: the loop counts a local up by one to a bound; its body leaves the counter alone. A local that the body changes and that is
declared outside becomes a field of the receiver's object, which asks that the function isn't entered again within, and that the body only
gathers in it (`accumulators`): else the turns have an order.

Why prints and final values stay: each turn still does its own statements, in their order, by a call. What the statements use of the
function is handed over, and what they change of it lives in a field in place of the local, of which there is one at a time. The object
that the body works on is computed first in both, and is looked through at once, so that a null pointer ends both runs.

Steps: a call more in each turn.
"""

from dataclasses import dataclass, field

from .. import form
from . import accumulators, facts, inline
from .building import ROOT, Shape, copied, fitted, replace, this


NAME = "body of a loop to an operation"
OUTSIDE = "local that a loop changes to a field"
SHARED = "argument of all turns to a field"


def counted(loop: form.Statement) -> bool:
    """Whether the loop counts up by one to a bound, and its body leaves the counter alone."""
    if not isinstance(loop, form.Count) or loop.counter.type != form.LONG or loop.counter in facts.assigned(loop.body):
        return False
    if not (loop.step.operator == "+" and loop.step.value == form.Number(1) and loop.step.target == loop.counter):
        return False
    match loop.condition:
        case form.Binary("<" | "<=", left, right, _):
            return left == loop.counter and not facts.mentions(right, loop.counter)
    return False


def normal(loop: form.Count) -> None:
    """`i <= n` as `i < n + 1`."""
    match loop.condition:
        case form.Binary("<=", left, form.Number(value), type_):
            loop.condition = form.Binary("<", left, form.Number(value + 1), type_)
        case form.Binary("<=", left, right, type_):
            loop.condition = form.Binary("<", left, form.Binary("+", right, form.Number(1), form.LONG), type_)


def carried(loop: form.Count) -> list[form.Local]:
    """The locals of outside that the body changes."""
    own = facts.declared(loop.body)
    changed = facts.assigned(loop.body)
    return [one for one in facts.used(loop.body) if one in changed and one not in own]


def promoted(shape: Shape, method: form.Method, loop: form.Count) -> bool:
    """Makes fields of the locals of outside that the body changes; whether that may be."""
    locals_ = carried(loop)
    if not locals_:
        return True
    if facts.recursive(method) or any(one in method.parameters for one in locals_):
        return False
    if not all(accumulators.gathers(loop.body, one) for one in locals_):
        return False
    counters = {one.counter for one in form.statements(method.body) if isinstance(one, form.Count)}
    if counters & set(locals_):
        return False
    for local in locals_:
        shape.count(OUTSIDE)
        slot = shape.slot(method.cls, f"{method.name}_{local.name}", local.type, local.name)
        target = form.Field(this(method.cls), slot.name, local.type)
        _declared_as(method.body, local, target)
        replace(method.body, lambda expr, local=local, target=target: target if expr == local else None)  # type: ignore[misc]
    return True


def _declared_as(body: list[form.Statement], local: form.Local, target: form.Field) -> None:
    for at, one in enumerate(body):
        if isinstance(one, form.Let) and one.local == local:
            body[at] = form.Put(target, "", one.value if one.value is not None else form.zero(local.type), one.place)
        elif isinstance(one, form.Make) and one.local == local:
            made = form.Local(local.name + "_made", local.type)
            one.local = made
            body.insert(at + 1, form.Put(target, "", made, one.place))
        for block in form.blocks(one):
            _declared_as(block, local, target)


def element(loop: form.Count) -> form.Let | None:
    """The declaration of the object that the body works on: its first statement, and the next looks through it."""
    body = loop.body
    if len(body) < 2 or not isinstance(body[0], form.Let) or body[0].value is None:
        return None
    first = body[0]
    if not isinstance(first.local.type, form.Pointer) or first.local in facts.assigned(body):
        return None
    return first if _followed(body[1:], first.local) else None


def _followed(body: list[form.Statement], local: form.Local) -> bool:
    """Whether the object is looked through in every turn, so that a null pointer is an error of the program."""
    for one in body:
        if facts.follows(one, local):
            return True
        if isinstance(one, form.Do) and one.receiver == local:
            return True
        if any(isinstance(inner, (form.Fail, form.Tell)) for inner in form.statements([one])):
            return False
    return False


def receiver_of_call(loop: form.Count) -> form.Do | None:
    """The one call that the body is, where it is one."""
    if (
        len(loop.body) == 1
        and isinstance(loop.body[0], form.Do)
        and not isinstance(loop.body[0].receiver, (form.This, form.Root))
    ):
        return loop.body[0]
    return None


@dataclass
class Body:
    """The body of a loop on its way to an operation: of which object, and what it is given."""

    body: list[form.Statement]
    cls: form.Class
    receiver: form.Expr
    parameters: list[form.Local] = field(default_factory=list)
    given: list[form.Expr] = field(default_factory=list)

    def keep(self, wanted: list[form.Local]) -> None:
        """Leaves out the parameters that aren't wanted."""
        both = [(local, value) for local, value in zip(self.parameters, self.given) if local in wanted]
        self.parameters, self.given = [one for one, _ in both], [one for _, one in both]

    def add(self, locals_: list[form.Local]) -> None:
        """Hands over locals as they are."""
        for local in locals_:
            if local not in self.parameters:
                self.parameters.append(local)
                self.given.append(local)


def turn(
    shape: Shape, method: form.Method, block: list[form.Statement], loop: form.Count, on_object: bool, lifts: bool
) -> form.Method | None:
    """Makes the body of the loop, which stands in the block, an operation; that operation, or None where it can't be."""
    if on_object and element(loop) is None and receiver_of_call(loop) is None:
        return None
    if not counted(loop) or not promoted(shape, method, loop):
        return None
    it = _on_object(shape, method, loop) if on_object else Body(copied(loop.body), method.cls, this(method.cls))
    made = shape.method(it.cls, f"{method.name}_turn", method, loop.place)
    made.origin = f"a turn of the loop at {loop.place.line}"
    it.add(facts.free(it.body))
    made.body = it.body
    inline.on_this(shape, made)
    it.keep(facts.free(made.body))
    if lifts and not facts.recursive(method):
        _lifted(shape, method, block, loop, made, it)
    made.parameters = fitted(made.body, it.parameters, it.cls.names())
    normal(loop)
    loop.body = [form.Do(made, it.receiver, it.given, None, loop.place)]
    shape.count(NAME)
    shape.tell(loop.place, f"body of the loop made an operation of {it.cls.origin or it.cls.name}")
    return made


def _on_object(shape: Shape, method: form.Method, loop: form.Count) -> Body:
    """The body as one of the object that it works on."""
    body, first, call = copied(loop.body), element(loop), receiver_of_call(loop)
    if first is not None and first.value is not None:
        receiver, known = first.value, first.local
        body = body[1:]
    else:
        assert call is not None and isinstance(body[0], form.Do)
        receiver, known = call.receiver, form.Local("it_", call.receiver.type)
        body[0].receiver = known
    assert isinstance(known.type, form.Pointer)
    it = Body(body, shape.program.classes[known.type.cls], receiver)
    hand_over_this(it, method)
    replace(body, lambda expr: this(it.cls) if expr == known else None)
    return it


def hand_over_this(it: Body, method: form.Method) -> None:
    """What the body says of its old object: of the program, or of an object that is handed over."""
    if not any(isinstance(one, form.This) for one in form.expressions(it.body)):
        return
    if method.cls.name == "Program":
        replace(it.body, lambda expr: ROOT if isinstance(expr, form.This) else None)
        return
    owner = form.Local("owner_", form.Pointer(method.cls.name))
    replace(it.body, lambda expr: owner if isinstance(expr, form.This) else None)
    it.parameters.append(owner)
    it.given.append(this(method.cls))


def _lifted(
    shape: Shape, method: form.Method, block: list[form.Statement], loop: form.Count, made: form.Method, it: Body
) -> None:
    """Puts what is the same in all turns into fields of the program before the loop."""
    changed = facts.assigned(method.body)
    left: list[form.Local] = []
    for local, value in zip(it.parameters, it.given):
        if value == loop.counter or local in facts.assigned(made.body) or _within(loop, value):
            left.append(local)
            continue
        put = form.Put(to_field(shape, made, local), "", value, loop.place)
        if not isinstance(value, form.Local) or value in changed or not _behind(method, value, put):
            block.insert(block.index(loop), put)
        shape.count(SHARED)
        shape.tell(loop.place, f"{local.name}, the same in all turns, put into a field before the loop")
    it.keep(left)


def to_field(shape: Shape, made: form.Method, local: form.Local) -> form.Field:
    """A field of the program that the body of the operation has in place of the local."""
    slot = shape.slot(shape.program.classes["Program"], f"{made.name}_{local.name}", local.type, local.name)
    target = form.Field(ROOT, slot.name, local.type)
    replace(made.body, lambda expr: target if expr == local else None)
    return target


def _within(loop: form.Count, value: form.Expr) -> bool:
    return isinstance(value, form.Local) and value in facts.declared(loop.body)


def _behind(method: form.Method, local: form.Local, put: form.Put) -> bool:
    """Puts the statement behind the declaration of the local, which keeps its value: as far out as it may stand."""
    if local in method.parameters:
        method.body.insert(0, put)
        return True
    return _behind_in(method.body, local, put)


def _behind_in(body: list[form.Statement], local: form.Local, put: form.Put) -> bool:
    for at, one in enumerate(body):
        if isinstance(one, (form.Let, form.Make)) and one.local == local:
            body.insert(at + 1, put)
            return True
        if isinstance(one, form.Count) and one.counter == local:
            one.body.insert(0, put)
            return True
        if any(_behind_in(block, local, put) for block in form.blocks(one)):
            return True
    return False
