"""Not proved (README.md). A recursion that gives back a sum adds to a total that is handed along.

Asked before: the method changes nothing, gives back a number, and that is a sum of what its own calls give back and of other values, or a
local that is only added to. Whoever wants the sum sets the total to 0, calls, and reads it; sums of 64 bits are the same in every order.
Where a caller's call can't stand before its statement, it keeps the method as it was.

Steps: two more for each value that is added.
"""

from .. import form
from ..finishing import jumps
from . import facts
from .building import ROOT, Shape, copied, fitted, own_copies

NAME = "sum that a recursion gives back to a total"
TOTAL = "Total"


def fits(method: form.Method) -> bool:
    """Whether the method is a recursion that gives back a sum."""
    return method.pure and method.result == form.LONG and method in facts.called(method.body)


def summed(shape: Shape, method: form.Method) -> form.Method | None:
    """The operation that adds to a total; its callers ask it. None where it can't be."""
    if not fits(method):
        return None
    local = _local(method)
    made = shape.method(method.cls, f"{method.name}_into", method, method.place)
    total = form.Local("total_", form.Pointer(_total(shape).name))
    body = _adding(copied(method.body), method, made, total, local)
    if body is None or any(method in facts.called([one]) for one in form.statements(body)):
        method.cls.methods.remove(made)
        return None
    made.body = body
    parameters = fitted(made.body, [total, *method.parameters], method.cls.names())
    made.parameters = parameters
    own_copies(made)
    jumps.one(made)
    if not _asked(shape, method, made):
        method.cls.methods.remove(made)
        return None
    shape.count(NAME)
    shape.tell(method.place, f"{method.origin} adds to a total in place of giving back a sum")
    return made


def _total(shape: Shape) -> form.Class:
    if TOTAL not in shape.program.classes:
        made = form.Class(TOTAL, [form.Slot("sum", form.LONG, origin="a total")], [], origin="a total")
        classes = {TOTAL: made, **shape.program.classes}
        shape.program.classes.clear()
        shape.program.classes.update(classes)
    return shape.program.classes[TOTAL]


def _local(method: form.Method) -> form.Local | None:
    """The local that is only added to and then given back, by every return behind its declaration."""
    seen: form.Local | None = None
    for one in form.statements(method.body):
        if isinstance(one, form.Let) and one.local.type == form.LONG and seen is None:
            if any(isinstance(x, form.Return) and x.value == one.local for x in form.statements(method.body)) and _only(
                method.body, one.local
            ):
                seen = one.local
        elif isinstance(one, form.Return) and seen is not None and one.value != seen:
            return None
    return seen


def _only(body: list[form.Statement], local: form.Local) -> bool:
    """Whether the local is only declared, added to and given back."""
    count = 0
    for one in form.statements(body):
        if isinstance(one, form.Let) and one.local == local:
            count += 1
        elif isinstance(one, form.Put) and one.target == local:
            if one.operator not in ("+", "-"):
                return False
            count += 1
        elif isinstance(one, form.Return) and one.value == local:
            count += 1
    return sum(1 for one in form.expressions(body) if one == local) == count


def _adding(
    body: list[form.Statement], method: form.Method, made: form.Method, total: form.Local, local: form.Local | None
) -> list[form.Statement] | None:
    out: list[form.Statement] = []
    for one in body:
        new: list[form.Statement] | None = [one]
        match one:
            case form.Return(value, place):
                assert value is not None
                new = [] if value == local else _terms(value, False, method, made, total, one)
                if new is not None:
                    new.append(form.Return(None, place))
            case form.Let(target, value, _) if target == local:
                new = [] if value is None else _terms(value, False, method, made, total, one)
            case form.Put(target, operator, value, _) if target == local:
                new = _terms(value, operator == "-", method, made, total, one)
            case form.If():
                yes, no = (_adding(block, method, made, total, local) for block in (one.yes, one.no))
                if yes is None or no is None:
                    return None
                one.yes, one.no = yes, no
            case form.Loop() | form.Count():
                inner = _adding(one.body, method, made, total, local)
                if inner is None:
                    return None
                one.body = inner
        if new is None:
            return None
        out += new
    return out


def _terms(
    value: form.Expr, minus: bool, method: form.Method, made: form.Method, total: form.Local, one: form.Statement
) -> list[form.Statement] | None:
    """What adds a value to the total, with the calls of the method itself as calls."""
    target = form.Field(total, "sum", form.LONG)
    match value:
        case form.Number(0):
            return []
        case form.Binary("+" | "-" as operator, left, right, _) if any(_asks(part, method) for part in (left, right)):
            first = _terms(left, minus, method, made, total, one)
            second = _terms(right, minus != (operator == "-"), method, made, total, one)
            return None if first is None or second is None else first + second
        case form.Apply(called, receiver, arguments, _) if called is method:
            if minus or any(_asks(part, method) for part in (receiver, *arguments)):
                return None
            return [form.Do(made, receiver, [total, *arguments], None, one.place)]
    if _asks(value, method):
        return None
    return [form.Put(target, "-" if minus else "+", value, one.place)]


def _asks(value: form.Expr, method: form.Method) -> bool:
    return any(isinstance(part, form.Apply) and part.method is method for part in form.within(value))


def _asked(shape: Shape, method: form.Method, made: form.Method) -> bool:
    """Lets callers ask the operation; whether one does."""
    inlined(shape, method)
    slot: list[form.Field] = []
    done = False
    for caller in shape.program.methods():
        if caller is not method and caller is not made and not caller.pure:
            done = _in_block(shape, caller.body, method, made, slot) or done
    if slot:
        kept = form.Local(f"made_{slot[0].name}", slot[0].type)
        shape.program.main.body[0:0] = [form.Make(kept, method.place), form.Put(slot[0], "", kept, method.place)]
    return done


def inlined(shape: Shape, method: form.Method) -> None:
    """Callers that only give back a value that asks for the method: the value stands at their callers."""
    for _ in range(4):
        wrappers = {
            one: one.body[0].value
            for one in shape.program.methods()
            if one.pure and one is not method and len(one.body) == 1 and isinstance(one.body[0], form.Return) and one.body[0].value is not None
            and _asks(one.body[0].value, method)
        }  # fmt: skip
        if not wrappers:
            return
        for caller in shape.program.methods():
            if caller not in wrappers:
                _unwrapped(caller.body, wrappers)


def _unwrapped(body: list[form.Statement], wrappers: dict[form.Method, form.Expr]) -> None:
    from .building import replace

    def change(expr: form.Expr) -> form.Expr | None:
        if isinstance(expr, form.Apply) and expr.method in wrappers:
            receiver = form.mapped(expr.receiver, change)
            given = [form.mapped(one, change) for one in expr.arguments]
            places = dict(zip(expr.method.parameters, given))

            def put(part: form.Expr) -> form.Expr | None:
                if isinstance(part, form.This):
                    return receiver
                return places.get(part) if isinstance(part, form.Local) else None

            return form.mapped(wrappers[expr.method], put)
        return None

    replace(body, change)


def _in_block(
    shape: Shape, body: list[form.Statement], method: form.Method, made: form.Method, slot: list[form.Field]
) -> bool:
    done = False
    at = 0
    while at < len(body):
        one = body[at]
        call = _first(one, method)
        if call is not None:
            if not slot:
                slot.append(_kept(shape, method))
            total = slot[0]
            kept = form.Local(f"sum_of_{made.name}_{len(form_names(body))}_{at}", form.LONG)
            field = form.Field(total, "sum", form.LONG)
            body[at:at] = [
                form.Put(field, "", form.Number(0), one.place),
                form.Do(made, call.receiver, [total, *call.arguments], None, one.place),
                form.Let(kept, field, one.place),
            ]
            at += 3
            _replaced(one, call, kept)
            done = True
            continue
        for block in form.blocks(one):
            if not (isinstance(one, form.Count) and block and block[0] is one.step):
                done = _in_block(shape, block, method, made, slot) or done
        at += 1
    return done


def form_names(body: list[form.Statement]) -> list[form.Local]:
    return facts.used(body)


def _replaced(one: form.Statement, call: form.Expr, kept: form.Expr) -> None:
    from ..finishing.walking import map_statement

    map_statement(one, lambda expr: form.mapped(expr, lambda part: kept if part == call else None))


def _first(one: form.Statement, method: form.Method) -> form.Apply | None:
    """A call of the method that the statement does whatever happens, and once, before it changes anything."""
    if not isinstance(one, (form.Let, form.Put, form.Do, form.Tell, form.If)):
        return None
    for expr in form.own_expressions(one):
        found = _sure(expr, method)
        if found is not None:
            return found
    return None


def _sure(expr: form.Expr, method: form.Method) -> form.Apply | None:
    if isinstance(expr, form.Apply) and expr.method is method:
        return None if any(_asks(part, method) for part in form.parts(expr)) else expr
    parts = form.parts(expr)
    if isinstance(expr, form.Binary) and expr.operator in ("&&", "||") or isinstance(expr, form.Choose):
        parts = parts[:1]
    for part in parts:
        found = _sure(part, method)
        if found is not None:
            return found
    return None


def _kept(shape: Shape, method: form.Method) -> form.Field:
    """The total of the method's sums: one object, that the program keeps."""
    program = shape.program.classes["Program"]
    type_ = form.Pointer(_total(shape).name)
    slot = shape.slot(program, f"total_of_{method.name}", type_, "a total")
    return form.Field(ROOT, slot.name, type_)
