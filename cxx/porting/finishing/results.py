"""Not proved (README.md). What an operation gives back: it puts it into a field of its receiver, and the caller reads
it at once."""

from .. import form
from ..places import Place
from ..words import unique


def finish(program: form.Program) -> None:
    slots: dict[form.Method, str] = {}
    for method in program.methods():
        if method.result is not None and not method.pure:
            slot = form.Slot(
                unique(f"{method.name}_result", method.cls.names()),
                method.result,
                origin=f"the result of {method.origin}",
            )
            method.cls.slots.append(slot)
            slots[method] = slot.name
    for method in program.methods():
        fresh = _Fresh(method)
        method.body = _block(method, method.body, slots, fresh)
    for method in slots:
        method.result = None


class _Fresh:
    """Names of locals that the method doesn't have."""

    def __init__(self, method: form.Method) -> None:
        self.used = {one.name for one in method.parameters}
        self.used |= {one.name for one in form.expressions(method.body) if isinstance(one, form.Local)}

    def local(self, type_: form.Type) -> form.Local:
        return form.Local(unique("of_", self.used), type_)


def _block(
    method: form.Method, body: list[form.Statement], slots: dict[form.Method, str], fresh: _Fresh
) -> list[form.Statement]:
    out: list[form.Statement] = []
    for one in body:
        match one:
            case form.Do(called, _, _, _, place) if called in slots:
                _call(one, slots[called], fresh, out, place)
            case form.Return(value, place) if method in slots and value is not None:
                target = form.Field(form.This(form.Pointer(method.cls.name)), slots[method], value.type)
                if isinstance(value, form.Null):
                    assert method.result is not None
                    target = form.Field(target.object, slots[method], method.result)
                out.append(form.Put(target, "", value, place))
                out.append(form.Return(None, place))
            case _:
                for block in form.blocks(one):
                    block[:] = _block(method, block, slots, fresh)
                out.append(one)
    return out


def _call(one: form.Do, slot: str, fresh: _Fresh, out: list[form.Statement], place: Place) -> None:
    """The call without its result, and then the read, of the same receiver."""
    if one.result is None:
        out.append(one)
        return
    receiver = one.receiver
    if not isinstance(receiver, (form.This, form.Root)):
        kept = fresh.local(receiver.type)
        out.append(form.Let(kept, receiver, place))
        receiver = kept
    out.append(form.Do(one.method, receiver, one.arguments, None, place))
    out.append(form.Let(one.result, form.Field(receiver, slot, one.result.type), place))
