"""Not proved (README.md). What only adds to one object that is handed along, as value methods that give back the sums.

Asked before: a call hands this object to an operation of another; all that a run of it writes are single numbers of that object, to which it
adds or from which it subtracts; and it reads none of them, prints nothing and makes nothing. Then the object adds, for each of the
fields, what a value method gives back, which does the same walk and adds up in place of writing.

Steps: the walk is repeated for each field.
"""

from .. import form
from ..words import unique
from . import facts
from .building import Shape, copied, replace, this


NAME = "what is added to one object given back to it"


def all_of(shape: Shape, method: form.Method) -> bool:
    """Gathers in the operation; whether anything was."""
    if method.pure:
        return False
    done = False
    for at, one in enumerate(list(method.body)):
        if isinstance(one, form.Do) and not isinstance(one.receiver, form.This):
            handed = [k for k, value in enumerate(one.arguments) if isinstance(value, form.This)]
            if len(handed) == 1 and one in method.body:
                done = _call(shape, method, one, handed[0]) or done
    return done


def _call(shape: Shape, method: form.Method, one: form.Do, handed: int) -> bool:
    target = one.method.parameters[handed]
    found = facts.effects([one], updates=False)
    if found.seen or found.makes or found.reads & found.writes or not found.writes:
        return False
    if any(cls != method.cls.name for cls, _ in found.writes):
        return False
    gatherer = _Gatherer(shape)
    fields = sorted(name for _, name in found.writes)
    if any(not _single(method.cls, name) for name in fields):
        return False
    new: list[form.Statement] = []
    for name in fields:
        made = gatherer.of(one.method, target, name)
        if made is None:
            gatherer.undo()
            return False
        value = form.Apply(made, one.receiver, tuple(one.arguments), form.LONG)
        new.append(form.Put(form.Field(this(method.cls), name, form.LONG), "+", value, one.place))
    at = method.body.index(one)
    method.body[at : at + 1] = new
    shape.count(NAME)
    shape.tell(one.place, f"what {one.method.origin} adds to one object is given back to it")
    return True


def _single(cls: form.Class, name: str) -> bool:
    slot = cls.slot(name)
    return slot.length is None and slot.type == form.LONG


class _Gatherer:
    """Value methods for operations, by the parameter that is added to and the field."""

    def __init__(self, shape: Shape) -> None:
        self.shape = shape
        self.made: dict[tuple[form.Method, form.Local | None, str], form.Method] = {}

    def undo(self) -> None:
        for one in self.made.values():
            if one in one.cls.methods:
                one.cls.methods.remove(one)

    def of(self, method: form.Method, target: form.Local | None, name: str) -> form.Method | None:
        """What the operation adds to the field of its parameter, or of its own object where `target` is None."""
        key = (method, target, name)
        if key in self.made:
            return self.made[key]
        if facts.assigned(method.body) & set(method.parameters):
            return None
        made = self.shape.method(method.cls, f"{method.name}_{name}", method, method.place)
        made.pure, made.result, made.parameters = True, form.LONG, list(method.parameters)
        self.made[key] = made
        used = (
            {one.name for one in facts.used(method.body)} | {one.name for one in method.parameters} | method.cls.names()
        )
        total = form.Local(unique("gathered_", used), form.LONG)
        owner: form.Expr = target if target is not None else this(method.cls)
        body = self._body(copied(method.body), owner, name, total)
        if body is None:
            return None
        made.body = [form.Let(total, form.Number(0), method.place), *body, form.Return(total, method.place)]
        return made

    def _body(
        self, body: list[form.Statement], owner: form.Expr, name: str, total: form.Local
    ) -> list[form.Statement] | None:
        out: list[form.Statement] = []
        for one in body:
            match one:
                case form.Put(form.Field(object_, field, _), operator, value, place):
                    if object_ != owner or operator not in ("+", "-"):
                        return None
                    if field == name:
                        out.append(form.Put(total, operator, value, place))
                case form.Put(form.Local(), _, _, _) | form.Let():
                    out.append(one)
                case form.Do():
                    new = self._inner(one, owner, name, total)
                    if new is None:
                        return None
                    out.append(new)
                case form.If():
                    yes, no = (self._body(block, owner, name, total) for block in (one.yes, one.no))
                    if yes is None or no is None:
                        return None
                    one.yes, one.no = yes, no
                    out.append(one)
                case form.Loop() | form.Count():
                    inner = self._body(one.body, owner, name, total)
                    if inner is None:
                        return None
                    one.body = inner
                    out.append(one)
                case _:
                    return None
        return out

    def _inner(self, one: form.Do, owner: form.Expr, name: str, total: form.Local) -> form.Put | None:
        handed = [at for at, value in enumerate(one.arguments) if value == owner]
        if one.receiver == owner and not handed:
            made = self.of(one.method, None, name)
        elif len(handed) == 1 and one.receiver != owner:
            made = self.of(one.method, one.method.parameters[handed[0]], name)
        else:
            return None
        if made is None:
            return None
        return form.Put(total, "+", form.Apply(made, one.receiver, tuple(one.arguments), form.LONG), one.place)


__all__ = ["all_of", "replace"]
