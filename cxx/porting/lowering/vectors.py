"""Not proved (README.md). What vectors can do. A vector is an array and a count; what C++ does to the items behind the
count is undefined.

Of the receiver's own vector the statements stand where they are; of another object's they are an operation of that
object.
"""

from typing import Callable

from .. import form
from .. import tree as t
from ..places import Place
from ..refusals import Refused
from ..types import Array, Object, Type, Vector, bare, is_scalar
from . import cursors, objects, places, values
from .context import Body, Container, Out
from .numbers import binary


def value_of(body: Body, node: t.VectorCall, out: Out) -> form.Expr:
    held = places.container(body, node.vector, out)
    if node.method == "size":
        return places.size(held)
    if node.method == "empty":
        return binary("==", places.size(held), form.Number(0))
    if node.method == "back":
        return places.place(body, node, out)
    effect_of(body, node, out)
    return form.Number(0)


def effect_of(body: Body, node: t.VectorCall, out: Out) -> None:
    type_, place = bare(node.vector.type), node.place
    assert isinstance(type_, Vector)
    if node.method in ("size", "empty", "back", "begin", "end"):
        values.effect(body, node.vector, out)
        return
    if node.method in ("erase", "insert"):
        cursors.spot(body, node, out)
        return
    held = places.container(body, node.vector, out)
    if any(body.tables.effects.has_effect(one) for one in node.arguments):
        held = places.kept_container(body, held, out, place)
    arguments = [_argument(body, type_, one, out) for one in _given(node)]
    match node.method:
        case "push_back":
            _operation(body, held, type_, "push", arguments, out, place, _push)
        case "pop_back":
            put_count(body, held, "-", form.Number(1), out, place)
        case "clear":
            put_count(body, held, "", form.Number(0), out, place)
        case "reserve":
            pass
        case "resize":
            _operation(body, held, type_, "resize", arguments, out, place, _resize)
        case "assign":
            put_count(body, held, "", form.Number(0), out, place)
            _operation(body, held, type_, "resize", arguments, out, place, _resize)
        case _:
            raise Refused(place, f"vector's {node.method}", "write a loop with an index")


def change_at(body: Body, node: t.VectorCall, held: Container, index: form.Expr, out: Out) -> None:
    """`erase` or `insert` at an index."""
    type_ = bare(node.vector.type)
    assert isinstance(type_, Vector)
    arguments = [index] + [_argument(body, type_, one, out) for one in node.arguments[1:]]
    write = _erase if node.method == "erase" else _insert
    _operation(body, held, type_, node.method, arguments, out, node.place, write)


def erase_range(body: Body, node: t.VectorCall, held: Container, ends: list[form.Expr], out: Out) -> None:
    """`erase` of the items from one index up to another."""
    type_ = bare(node.vector.type)
    assert isinstance(type_, Vector)
    _operation(body, held, type_, "erase_range", ends, out, node.place, _erase_range)


def _given(node: t.VectorCall) -> list[t.Expr]:
    return [] if node.method == "reserve" else node.arguments


def _argument(body: Body, type_: Vector, node: t.Expr, out: Out) -> form.Expr:
    """An index, a length, or an item: of an object a new one."""
    if bare(node.type) == type_.of and not is_scalar(type_.of):
        made = values.value(body, node, out) if values.is_fresh(node) else objects.copy_of(body, node, out)
        return body.kept(made, out, node.place)
    made = values.value(body, node, out)
    held = body.shapes.of(type_.of)
    return form.Null(held) if isinstance(made, form.Null) and isinstance(held, form.Pointer) else made


def put_count(body: Body, held: Container, operator: str, value: form.Expr, out: Out, place: Place) -> None:
    assert held.count is not None
    out.append(form.Put(form.Field(held.object, held.count, form.LONG), operator, value, place))


# Of the operations that vectors become, what their parameters are called.
PARAMETERS = {"push": ["item"], "resize": ["length", "item"], "erase_range": ["first", "last"]}

Writer = Callable[[Body, Container, Vector, list[form.Expr], Out, Place], None]


def _operation(
    body: Body,
    held: Container,
    type_: Vector,
    name: str,
    arguments: list[form.Expr],
    out: Out,
    place: Place,
    write: Writer,
) -> None:
    """What is done to a vector: here, or by an operation of the object that has it."""
    if (
        isinstance(held.object, form.This)
        or isinstance(held.object, form.Root)
        and body.method.cls is body.shapes.program
    ):
        if name == "push":
            write(body, held, type_, arguments, out, place)
            return
    assert isinstance(held.object.type, form.Pointer) and held.offset is None
    cls = body.shapes.classes[held.object.type.cls]
    types = tuple(one.type for one in arguments)

    def written(inner: Body) -> None:
        names = PARAMETERS.get(name, ["at_index", "item"])
        given: list[form.Expr] = [inner.parameter(one, type_of) for one, type_of in zip(names, types)]
        mine = Container(inner.this, held.items, held.count, held.of)
        write(inner, mine, type_, given, inner.method.body, place)

    shown = name if held.items == "at" else f"{name}_{held.items}"
    method = body.tables.helper((name, cls, held.items, types), cls, shown, f"vector's {name}", written)
    out.append(form.Do(method, held.object, arguments, None, place))


def _push(body: Body, held: Container, type_: Vector, given: list[form.Expr], out: Out, place: Place) -> None:
    out.append(form.Put(places.item(body, held, places.size(held)), "", given[0], place))
    put_count(body, held, "+", form.Number(1), out, place)


def _resize(body: Body, held: Container, type_: Vector, given: list[form.Expr], out: Out, place: Place) -> None:
    """Items from the count on to the length, at their start or copies of one."""
    counter = body.local("k", form.LONG)
    inside: Out = []
    target = places.item(body, held, counter)
    if is_scalar(type_.of):
        value = given[1] if len(given) > 1 else form.zero(target.type)
        inside.append(form.Put(target, "", value, place))
    else:
        made = body.temporary(target.type, "made")
        if len(given) > 1 and isinstance(type_.of, Object):
            inside.append(form.Make(made, place))
            objects.copy_into(body, made, given[1], type_.of.record, inside, place)
        elif len(given) > 1:
            inside.append(form.Make(made, place))
            source = places.whole(body, given[1], type_.of)
            copy(body, places.whole(body, made, type_.of), source, type_.of, inside, place)
        else:
            objects.make(body, made, type_.of, None, inside, place)
        inside.append(form.Put(target, "", made, place))
    step = form.Put(counter, "+", form.Number(1), place)
    out.append(form.Count(counter, places.size(held), binary("<", counter, given[0]), step, inside, place))
    put_count(body, held, "", given[0], out, place)


def _erase(body: Body, held: Container, type_: Vector, given: list[form.Expr], out: Out, place: Place) -> None:
    """The items behind move one to the front."""
    counter = body.local("k", form.LONG)
    following = binary("+", counter, form.Number(1))
    step = form.Put(counter, "+", form.Number(1), place)
    move = form.Put(places.item(body, held, counter), "", places.item(body, held, following), place)
    out.append(form.Count(counter, given[0], binary("<", following, places.size(held)), step, [move], place))
    put_count(body, held, "-", form.Number(1), out, place)


def _erase_range(body: Body, held: Container, type_: Vector, given: list[form.Expr], out: Out, place: Place) -> None:
    """The items behind move to the front, by the number of those that go."""
    counter = body.local("k", form.LONG)
    gap = body.kept(binary("-", given[1], given[0]), out, place)
    following = binary("+", counter, gap)
    step = form.Put(counter, "+", form.Number(1), place)
    move = form.Put(places.item(body, held, counter), "", places.item(body, held, following), place)
    out.append(form.Count(counter, given[0], binary("<", following, places.size(held)), step, [move], place))
    put_count(body, held, "-", gap, out, place)


def _insert(body: Body, held: Container, type_: Vector, given: list[form.Expr], out: Out, place: Place) -> None:
    """The items from there on move one to the back, from the last one."""
    counter = body.local("k", form.LONG)
    before = binary("-", counter, form.Number(1))
    step = form.Put(counter, "-", form.Number(1), place)
    move = form.Put(places.item(body, held, counter), "", places.item(body, held, before), place)
    out.append(form.Count(counter, places.size(held), binary(">", counter, given[0]), step, [move], place))
    out.append(form.Put(places.item(body, held, given[0]), "", given[1], place))
    put_count(body, held, "+", form.Number(1), out, place)


# First values and copies ----------------------------------------------------------------------------------------------


def fill(body: Body, held: Container, type_: Vector, initial: t.Expr | None, out: Out, place: Place) -> None:
    """The first items of a vector that is there and empty."""
    match initial:
        case None | t.Construct(function=None):
            return
        case t.Aggregate():
            for part in initial.parts:
                assert part is not None
                item = _argument(body, type_, part, out)
                _operation(body, held, type_, "push", [item], out, place, _push)
        case t.Filled():
            length = values.value(body, initial.length, out)
            given = [length] + ([_argument(body, type_, initial.value, out)] if initial.value is not None else [])
            _operation(body, held, type_, "resize", given, out, place, _resize)
        case _:
            source_node = initial.operand if isinstance(initial, t.Copy) else initial
            source = places.kept_container(body, places.container(body, source_node, out), out, place)
            copy(body, held, source, type_, out, place)


def copy(body: Body, target: Container, source: Container, type_: Type, out: Out, place: Place) -> None:
    """All items of one array or vector into another one, and a vector's count."""
    length = places.size(source) if isinstance(type_, Vector) else form.Number(body.shapes.length(type_))
    item = type_.of if isinstance(type_, Vector) else body.shapes.item(type_)
    if isinstance(target.object, form.This):
        copy_items(body, target, source, length, item, out, place)
        if target.count is not None:
            put_count(body, target, "", length, out, place)
        return
    _copy_by_operation(body, target, source, type_, out, place)


def _copy_by_operation(body: Body, target: Container, source: Container, type_: Type, out: Out, place: Place) -> None:
    assert isinstance(target.object.type, form.Pointer) and isinstance(source.object.type, form.Pointer)
    if target.offset is not None or source.offset is not None:
        raise Refused(place, "a copy of a row", "write a loop")
    cls = body.shapes.classes[target.object.type.cls]
    of = source.object.type

    def write(inner: Body) -> None:
        given = inner.parameter("from", of)
        inner.still.add(given.name)
        mine = Container(inner.this, target.items, target.count, target.of, None, target.length)
        other = Container(given, source.items, source.count, source.of, None, source.length)
        copy(inner, mine, other, type_, inner.method.body, place)

    key = ("copy items", cls, target.items, of, source.items, body.shapes.length(type_))
    shown = "take" if target.items == "at" else f"take_{target.items}"
    method = body.tables.helper(key, cls, shown, "a copy of an array or vector", write)
    out.append(form.Do(method, target.object, [source.object], None, place))


def copy_items(
    body: Body, target: Container, source: Container, length: form.Expr, item: Type, out: Out, place: Place
) -> None:
    counter = body.local("k", form.LONG)
    inside: Out = []
    mine = places.item(body, Container(target.object, target.items, None, item, target.offset), counter)
    other = places.item(body, Container(source.object, source.items, None, item, source.offset), counter)
    if is_scalar(item):
        inside.append(form.Put(mine, "", other, place))
    else:
        copied = body.temporary(mine.type, "copied")
        inside.append(form.Make(copied, place))
        if isinstance(item, Object):
            objects.copy_into(body, copied, other, item.record, inside, place)
        else:
            copy(body, places.whole(body, copied, item), places.whole(body, other, item), item, inside, place)
        inside.append(form.Put(mine, "", copied, place))
    out.append(objects.counted(counter, length, inside, place))


def assign(body: Body, node: t.Assign, type_: Vector, out: Out) -> None:
    """A vector into another one."""
    place, given = node.place, node.value
    if values.is_fresh(given) or isinstance(given, t.Aggregate):
        source = places.whole(body, values.value(body, given, out), type_)
    else:
        source = places.container(body, given, out)
    source = places.kept_container(body, source, out, place)
    target = places.container(body, node.target, out)
    copy(body, target, source, type_, out, place)


def swap(body: Body, node: t.Swap, type_: Vector, out: Out) -> None:
    left = places.kept_container(body, places.container(body, node.left, out), out, node.place)
    right = places.kept_container(body, places.container(body, node.right, out), out, node.place)
    old = body.temporary(body.shapes.of(type_), "old")
    out.append(form.Make(old, node.place))
    held = places.whole(body, old, type_)
    for target, source in ((held, left), (left, right), (right, held)):
        copy(body, target, source, type_, out, node.place)
