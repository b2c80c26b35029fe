"""Not proved (README.md). Ends of the program other than by main: a call of a value method that traps, one for each
end.

So the line of the trap tells which end it was.
"""

from .. import form
from ..words import unique


def finish(program: form.Program) -> list[int]:
    """The numbers of the stops, by the order of their methods in the text."""
    made: dict[tuple[str, int], form.Method] = {}
    for method in program.methods():
        _block(method, method.body, made)
    return [number for _, number in made]


def _block(method: form.Method, body: list[form.Statement], made: dict[tuple[str, int], form.Method]) -> None:
    for at, one in enumerate(body):
        if isinstance(one, form.Fail):
            stop = _stop(method.cls, one, made)
            used = {local.name for local in form.expressions(method.body) if isinstance(local, form.Local)}
            used |= {local.name for local in method.parameters}
            local = form.Local(unique("never", used), form.LONG)
            this = form.This(form.Pointer(method.cls.name))
            body[at] = form.Let(local, form.Apply(stop, this, (), form.LONG), one.place)
        for block in form.blocks(one):
            _block(method, block, made)


def _stop(cls: form.Class, one: form.Fail, made: dict[tuple[str, int], form.Method]) -> form.Method:
    key = (cls.name, one.stop)
    if key not in made:
        method = form.Method(unique(f"stop_{one.stop}", cls.names()), cls, form.LONG, pure=True, place=one.place)
        method.origin = f"stop {one.stop}"
        value = form.Binary("/", form.Number(1), form.Number(0), form.LONG)
        method.body.append(form.Return(value, one.place))
        cls.methods.append(method)
        made[key] = method
    return made[key]
