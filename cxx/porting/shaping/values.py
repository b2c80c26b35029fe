"""Not proved (README.md). What a section computes by a loop or a division, as calls of value methods.

Asked before: the loop calls no operation, prints and makes nothing, and writes locals and single fields of its own object alone, which it
reads of no other object. Each of what it leaves behind comes from a value method that does the loop over locals, from what the locals and fields had before it; all are
computed before any is put. So each has the same value. Where it is only added to, the method gives the sum, which is added.

Steps: the loop is repeated for each that it leaves behind, and calls are added. What a section declares first is computed once for all fields,
where the operation can be compared so.
"""

from .. import form
from . import facts, opaque
from .building import Shape, copied, own_copies, renamed, replace, this


LOOP = "loop that only computes to value methods"
DIVISION = "division to a value method"
SECTION = "section to value methods"
SHARED = "what a section computes first, once for all its fields"


def divisions(shape: Shape, method: form.Method) -> None:
    """Divisions by what may be zero as calls of a value method."""
    if method.pure:
        return
    made: dict[str, form.Method] = {}

    def change(expr: form.Expr) -> form.Expr | None:
        if isinstance(expr, form.Binary) and expr.operator in ("/", "%"):
            if not (isinstance(expr.right, form.Number) and expr.right.value not in (0, -1)):
                shape.count(DIVISION)
                parts = tuple(form.mapped(one, change) for one in (expr.left, expr.right))
                return form.Apply(
                    _quotient(shape, method.cls, expr.operator, made, method), this(method.cls), parts, form.LONG
                )
        return None

    replace(method.body, change)


def _quotient(
    shape: Shape, cls: form.Class, operator: str, made: dict[str, form.Method], like: form.Method
) -> form.Method:
    name = "quotient_of" if operator == "/" else "remainder_of"
    if operator not in made:
        known = next((one for one in cls.methods if one.name == name), None)
        if known is None:
            known = shape.method(cls, name, like, cls.place)
            known.origin = "a division"
            known.pure, known.result = True, form.LONG
            known.parameters = [form.Local("dividend_", form.LONG), form.Local("divisor_", form.LONG)]
            value = form.Binary(operator, known.parameters[0], known.parameters[1], form.LONG)
            known.body = [form.Return(value, cls.place)]
        made[operator] = known
    return made[operator]


def loops(shape: Shape, method: form.Method) -> None:
    """Loops of the section as value methods."""
    if not method.pure:
        _block(shape, method, method.body, set())


def _block(shape: Shape, method: form.Method, body: list[form.Statement], later: set[form.Local]) -> None:
    at = 0
    while at < len(body):
        one = body[at]
        behind = later | set(facts.used(body[at + 1 :]))
        if isinstance(one, (form.Loop, form.Count)) and may_be(one):
            new = _values(shape, method, one, behind)
            if new is not None:
                shape.count(LOOP)
                if one.user:
                    shape.tell(one.place, "loop made a function that only computes")
                body[at : at + 1] = new
                at += len(new)
                continue
        around = set(facts.used([one])) if isinstance(one, (form.Loop, form.Count)) else set()
        for block in form.blocks(one):
            if block and isinstance(block[0], form.Put) and isinstance(one, form.Count) and block[0] is one.step:
                continue
            _block(shape, method, block, behind | around)
        at += 1


def may_be(loop: form.Loop | form.Count | form.If) -> bool:
    """Whether the loop works on locals and single fields of its object alone."""
    for one in form.statements([loop]):
        if isinstance(one, (form.Do, form.Make, form.Tell, form.Fail)):
            return False
        if isinstance(one, form.Put) and not isinstance(one.target, form.Local):
            if not (isinstance(one.target, form.Field) and isinstance(one.target.object, form.This)):
                return False
    return not any(isinstance(one, form.Return) for one in form.statements([loop]))


def _values(
    shape: Shape, method: form.Method, loop: form.Loop | form.Count | form.If, later: set[form.Local]
) -> list[form.Statement] | None:
    """What stands in place of the loop."""
    body = copied([loop])
    fields = {
        one.target for one in form.statements(body) if isinstance(one, form.Put) and isinstance(one.target, form.Field)
    }
    written = sorted(fields, key=lambda one: one.name)
    called = [one.method for one in form.expressions(body) if isinstance(one, form.Apply)]
    inner = {other for one in called for other in [one, *facts.reached(one.body)]}
    if any(_places(one.body) & set(map(facts.place_of, written)) for one in inner):
        return None
    stand = {one: form.Local(f"{one.name}_now", one.type) for one in written}
    replace(body, lambda expr: stand.get(expr) if isinstance(expr, form.Field) else None)
    # (another object's field of the same name may be this one's)
    if _places(body) & {facts.place_of(one) for one in written}:
        return None
    outside = facts.free(body)
    changed = facts.assigned(body)
    results: list[tuple[form.Target, form.Local]] = [(one, stand[one]) for one in written]
    results += [(one, one) for one in outside if one in changed and one in later and one not in stand.values()]
    if len(outside) > 30:
        return None
    lets: list[form.Statement] = []
    puts: list[form.Statement] = []
    back = {local: target for target, local in stand.items()}
    for target, local in results:
        added = _only_added(body, local)
        made = _method(shape, method, body, local, added, loop)
        given = tuple(back.get(one, one) for one in made.parameters)
        own_copies(made)
        value = form.Apply(made, this(method.cls), given, local.type)
        if len(results) == 1:
            puts.append(form.Put(target, "+" if added else "", value, loop.place))
        else:
            kept = form.Local(f"{local.name}_of_{made.name}", local.type)
            lets.append(form.Let(kept, value, loop.place))
            puts.append(form.Put(target, "+" if added else "", kept, loop.place))
    return lets + puts


def flattened(shape: Shape, method: form.Method) -> bool:
    """A whole section as value methods, one for each field that it changes; whether that was done."""
    return _flattened(shape, method, [])


def shared(shape: Shape, method: form.Method) -> bool:
    """The same, but what the section declares first is computed once, and handed to each of them."""
    changed = facts.assigned(method.body)
    first: list[form.Statement] = []
    for one in method.body:
        if not isinstance(one, form.Let) or one.value is None or one.local in changed:
            break
        first.append(one)
    if not any(_is_work(one) for one in first):
        return flattened(shape, method)
    if not _flattened(shape, method, first):
        return False
    shape.count(SHARED)
    opaque.all_of(shape, method)
    return True


def _is_work(one: form.Statement) -> bool:
    """Whether the declaration computes more than it reads."""
    return any(isinstance(part, (form.Binary, form.Apply, form.Help)) for part in form.expressions([one]))


def _flattened(shape: Shape, method: form.Method, first: list[form.Statement]) -> bool:
    head: list[form.Statement] = []
    for one in method.body[len(first) :]:
        if any(isinstance(x, (form.Do, form.Make, form.Tell, form.Fail, form.Return)) for x in form.statements([one])):
            break
        head.append(one)
    rest = method.body[len(first) + len(head) :]
    whole = form.If(form.Truth(True), head, [], method.place)
    if method.pure or not any(isinstance(one, (form.If, form.Loop, form.Count)) for one in head):
        return False
    if not may_be(whole) or set(facts.used(rest)) & facts.declared(head):
        return False
    new = _values(shape, method, whole, set(facts.used(rest)))
    if new is None:
        return False
    method.body = first + new + rest
    shape.count(SECTION)
    return True


def _places(body: list[form.Statement]) -> set[facts.Place]:
    """The fields that stand in the statements."""
    return {facts.place_of(one) for one in form.expressions(body) if isinstance(one, (form.Field, form.Item))}


def _only_added(body: list[form.Statement], local: form.Local) -> bool:
    """Whether the local is only added to, or subtracted from."""
    if local.type != form.LONG:
        return False
    count = 0
    for one in form.statements(body):
        if isinstance(one, form.Put) and one.target == local:
            if one.operator not in ("+", "-") or facts.mentions(one.value, local):
                return False
            count += 1
    return sum(1 for one in form.expressions(body) if one == local) == count


def _method(
    shape: Shape, like: form.Method, body: list[form.Statement], local: form.Local, added: bool, loop: form.Statement
) -> form.Method:
    made = shape.method(like.cls, f"{like.name}_{local.name}", like, loop.place)
    made.pure, made.result = True, local.type
    made.body = needed(copied(body), local)
    outside = [one for one in facts.free(made.body) if not (added and one == local)]
    if local not in outside and not added:
        outside.append(local)
    made.parameters = outside
    if added:
        made.body.insert(0, form.Let(local, form.Number(0), loop.place))
    made.body.append(form.Return(local, loop.place))
    return made


def needed(body: list[form.Statement], local: form.Local) -> list[form.Statement]:
    """The statements without what the local's value doesn't need."""
    wanted = {local}
    growing = True
    while growing:
        before = len(wanted)
        for one in form.statements(body):
            match one:
                case form.Let(target, value, _) if target in wanted and value is not None:
                    exprs = [value]
                case form.Put(target, _, value, _) if target in wanted:
                    exprs = [value]
                case form.If(condition) if _puts(one, wanted):
                    exprs = [condition]
                case form.Loop(_, condition):
                    exprs = [condition]
                case form.Count(counter, first, condition, step, _, _, _):
                    exprs = [counter, first, condition, step.value]
                case _:
                    exprs = []
            wanted |= {part for expr in exprs for part in form.within(expr) if isinstance(part, form.Local)}
        growing = len(wanted) > before
    return _kept(body, wanted)


def _puts(one: form.If, wanted: set[form.Local]) -> bool:
    return any(isinstance(part, (form.Put, form.Let)) and _target(part) in wanted for part in form.statements([one]))


def _target(part: form.Put | form.Let) -> form.Expr:
    return part.target if isinstance(part, form.Put) else part.local


def _kept(body: list[form.Statement], wanted: set[form.Local]) -> list[form.Statement]:
    out: list[form.Statement] = []
    for one in body:
        if isinstance(one, (form.Put, form.Let)) and _target(one) not in wanted:
            continue
        if isinstance(one, form.If):
            one.yes, one.no = _kept(one.yes, wanted), _kept(one.no, wanted)
            if not one.yes and not one.no:
                continue
        elif isinstance(one, (form.Loop, form.Count)):
            one.body = _kept(one.body, wanted)
        out.append(one)
    return out


__all__ = ["divisions", "loops", "may_be", "needed", "renamed"]
