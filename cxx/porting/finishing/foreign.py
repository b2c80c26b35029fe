"""Not proved (README.md). What is written to another object: a call of a small operation of that object.

A literal stands in the operation itself, since calls that put one literal may come in any order.
"""

from .. import form
from ..words import unique

# By class, field, operator, whether it is an item, and the value where that is a literal.
Setters = dict[tuple[str, str, str, bool, form.Expr | None], form.Method]
WORDS = {"": "set", "+": "add", "-": "sub", "*": "mul", "&": "and", "|": "or", "^": "xor"}


def finish(program: form.Program) -> None:
    setters: Setters = {}
    for method in program.methods():
        _block(program, method, method.body, setters)


def _block(
    program: form.Program,
    method: form.Method,
    body: list[form.Statement],
    setters: Setters,
) -> None:
    for at, one in enumerate(body):
        if (
            isinstance(one, form.Put)
            and isinstance(one.target, (form.Field, form.Item))
            and not _own(one.target.object, method)
        ):
            target = one.target
            index = [target.index] if isinstance(target, form.Item) else []
            literal = (
                one.value if not one.operator and isinstance(one.value, (form.Number, form.Truth, form.Null)) else None
            )
            setter = _setter(program, target, one.operator, literal, setters)
            given = [one.value] if literal is None else []
            body[at] = form.Do(setter, target.object, [*index, *given], None, one.place)
        for block in form.blocks(one):
            _block(program, method, block, setters)


def _own(owner: form.Expr, method: form.Method) -> bool:
    return isinstance(owner, form.This) or isinstance(owner, form.Root) and method.cls.name == "Program"


def _setter(
    program: form.Program,
    target: form.Field | form.Item,
    operator: str,
    literal: form.Expr | None,
    setters: Setters,
) -> form.Method:
    assert isinstance(target.object.type, form.Pointer)
    cls = program.classes[target.object.type.cls]
    indexed = isinstance(target, form.Item)
    key = (cls.name, target.name, operator, indexed, literal)
    if key not in setters:
        slot = cls.slot(target.name)
        name = f"{WORDS[operator]}_{target.name}" + (f"_{_word(literal)}" if literal is not None else "")
        made = form.Method(unique(name, cls.names()), cls, place=cls.place)
        made.origin = f"a write of {slot.origin or slot.name}"
        this = form.This(form.Pointer(cls.name))
        value: form.Expr = literal if literal is not None else form.Local("value_", slot.type)
        place: form.Target = form.Field(this, target.name, slot.type)
        if indexed:
            index = form.Local("index_", form.LONG)
            made.parameters.append(index)
            place = form.Item(this, target.name, index, slot.type)
        if isinstance(value, form.Local):
            made.parameters.append(value)
        made.body.append(form.Put(place, operator, value, cls.place))
        cls.methods.append(made)
        setters[key] = made
    return setters[key]


def _word(literal: form.Expr) -> str:
    """The literal as a part of a name."""
    match literal:
        case form.Truth(value, _):
            return "true" if value else "false"
        case form.Number(value, _):
            return str(value) if value >= 0 else f"minus_{-value}"
    return "null"
