"""Not proved (README.md). How an object finds the one of `Program`: by a field that is put when the object is made."""

from .. import form
from ..words import unique
from .walking import map_body

ROOT = form.Pointer("Program")


def finish(program: form.Program) -> None:
    needing = _needing(program)
    slots: dict[str, str] = {}
    setters: dict[str, form.Method] = {}
    for name in sorted(needing):
        cls = program.classes[name]
        slot = form.Slot(unique("program_", cls.names()), ROOT, origin="the program")
        cls.slots.insert(0, slot)
        slots[name] = slot.name
        given = form.Local("given_", ROOT)
        setter = form.Method(
            unique("set_program_", cls.names()), cls, None, [given], place=cls.place, origin="a write of the program"
        )
        target = form.Field(form.This(form.Pointer(name)), slot.name, ROOT)
        setter.body.append(form.Put(target, "", given, cls.place))
        cls.methods.insert(0, setter)
        setters[name] = setter
    for method in program.methods():
        _announce(method.body, setters)
    for method in program.methods():
        _replace(method, slots)


def _needing(program: form.Program) -> set[str]:
    """The classes whose methods ask for the program, themselves or to tell a new object of it."""
    needing: set[str] = set()
    growing = True
    while growing:
        growing = False
        for cls in program.classes.values():
            if cls.name == "Program" or cls.name in needing:
                continue
            for method in cls.methods:
                asks = any(isinstance(one, form.Root) for one in form.expressions(method.body))
                makes = any(
                    isinstance(one, form.Make) and _made(one) in needing for one in form.statements(method.body)
                )
                if asks or makes:
                    needing.add(cls.name)
                    growing = True
                    break
    return needing


def _made(one: form.Make) -> str:
    assert isinstance(one.local.type, form.Pointer)
    return one.local.type.cls


def _announce(body: list[form.Statement], setters: dict[str, form.Method]) -> None:
    at = 0
    while at < len(body):
        one = body[at]
        if isinstance(one, form.Make) and _made(one) in setters:
            body.insert(at + 1, form.Do(setters[_made(one)], one.local, [form.Root()], None, one.place))
        for block in form.blocks(one):
            _announce(block, setters)
        at += 1


def _replace(method: form.Method, slots: dict[str, str]) -> None:
    this = form.This(form.Pointer(method.cls.name))
    own: form.Expr = this if method.cls.name == "Program" else form.Field(this, slots.get(method.cls.name, ""), ROOT)

    def change(expr: form.Expr) -> form.Expr | None:
        return own if isinstance(expr, form.Root) else None

    map_body(method.body, lambda expr: form.mapped(expr, change))
