"""Not proved (README.md). Pointers that walk over arrays and vectors: an object that has the items, and an index.

Of which class that object is, and which of its fields has the items, the text says. So a function with such parameters
is lowered once for each kind of array that it is called with.
"""

from dataclasses import dataclass

from .. import form
from .. import tree as t
from ..cursors import is_place, is_pointer
from ..places import Place
from ..refusals import Refused
from ..types import STRING, Array, Object, Pointer, Type, Vector, bare
from . import calls, letters, places, values, vectors
from .context import Body, Container, Cursor, Kind, Out
from .numbers import binary

WALKING = ("write an index", "let the pointer walk over one array or vector")


@dataclass
class Spot:
    """The place of an item: what has it, and where there."""

    held: Container
    index: form.Expr


def is_walking(body: Body, node: t.Expr) -> bool:
    """Whether the pointer's value is the place of an item."""
    if is_place(node):
        return True
    if isinstance(node, t.Name):
        return isinstance(body.bindings.get(node.variable), Cursor)
    if isinstance(node, t.Assign):
        return is_walking(body, node.target)
    return isinstance(node, t.Binary) and node.operator == "," and is_walking(body, node.right)


def spot(body: Body, node: t.Expr, out: Out) -> Spot:
    """Where the pointer points to."""
    match node:
        case t.Name():
            bound = body.bindings.get(node.variable)
            if isinstance(bound, Cursor):
                return Spot(_flat(bound.kind, bound.object), bound.index)
        case t.VectorCall():
            return _of_vector(body, node, out)
        case t.Binary(operator="+" | "-"):
            return _moved(body, node, out)
        case t.AddressOf(operand=t.Item() as item):
            held = places.container(body, item.items, out)
            return _absolute(body, held, values.value(body, item.index, out))
        case t.Assign():
            return _assigned(body, node, out)
        case t.Convert():
            return spot(body, node.operand, out)
        case t.Binary(operator=","):
            values.effect(body, node.left, out)
            return spot(body, node.right, out)
        case t.Call() if is_place(node):
            value = calls.only_value(node.function)
            if value is not None and len(calls.called(node)) == 1:
                return spot(calls.within(body, node, out), value, out)
            kind, target = calls.given(body, node, out)
            assert kind is not None and isinstance(target, form.Item)
            return Spot(_flat(kind, target.object), target.index)
    if node.type == STRING and not isinstance(node, t.Null):
        return Spot(*letters.moved(places.container(body, node, out)))
    if isinstance(bare(node.type), (Array, Vector)):
        return _absolute(body, places.container(body, node, out), form.Number(0))
    if isinstance(node.type, Pointer) and not isinstance(node.type.to, Object) and not isinstance(node, t.Null):
        return _absolute(body, places.container(body, node, out), form.Number(0))
    if isinstance(node, t.New) and node.length is not None:
        raise Refused(node.place, *values.NEW_OBJECTS)
    if isinstance(node, (t.New, t.Null)) or isinstance(node.type, Pointer) and isinstance(node.type.to, Object):
        raise Refused(node.place, *values.ORDER)
    raise Refused(node.place, "a pointer that walks over items is given what isn't the place of one", WALKING[1])


def kept(body: Body, one: Spot, out: Out, at: Place) -> Spot:
    return Spot(places.kept_container(body, one.held, out, at), body.kept(one.index, out, at))


def _flat(kind: Kind, owner: form.Expr) -> Container:
    return Container(owner, kind.items, kind.count, kind.of)


def _absolute(body: Body, held: Container, index: form.Expr) -> Spot:
    """The place without rows: an index into all items."""
    if isinstance(held.of, Array):
        index = binary("*", index, form.Number(body.shapes.length(held.of)))
    if held.offset is not None:
        index = binary("+", held.offset, index)
    return Spot(Container(held.object, held.items, held.count, body.shapes.item(held.of)), index)


def _of_vector(body: Body, node: t.VectorCall, out: Out) -> Spot:
    held = places.container(body, node.vector, out)
    if node.method in ("erase", "insert"):
        held = places.kept_container(body, held, out, node.place)
        index = body.kept(index_of(body, node.arguments[0], out), out, node.place)
        if node.method == "erase" and len(node.arguments) > 1:
            vectors.erase_range(body, node, held, [index, index_of(body, node.arguments[1], out)], out)
        else:
            vectors.change_at(body, node, held, index, out)
        return Spot(held, index)
    if node.method == "begin":
        return _absolute(body, held, form.Number(0))
    return _absolute(body, held, places.size(held))


def index_of(body: Body, node: t.Expr, out: Out) -> form.Expr:
    """The index of a place that is given by a pointer or a number."""
    return spot(body, node, out).index if isinstance(node.type, Pointer) else values.value(body, node, out)


def _moved(body: Body, node: t.Binary, out: Out) -> Spot:
    walks = is_pointer(node.left)
    pointer, by = (node.left, node.right) if walks else (node.right, node.left)
    start = spot(body, pointer, out)
    if body.tables.effects.has_effect(by):
        start = kept(body, start, out, node.place)
    distance = values.value(body, by, out)
    return Spot(start.held, binary(node.operator, start.index, distance))


def kind_of(body: Body, one: Spot) -> Kind:
    assert isinstance(one.held.object.type, form.Pointer)
    return Kind(one.held.object.type.cls, one.held.items, one.held.count, one.held.of)


def give(body: Body, value: t.Expr, out: Out) -> None:
    """The result of a function is the place of an item."""
    start = spot(body, value, out)
    kind = kind_of(body, start)
    of = body.shapes.of(kind.of)
    calls.give(body, form.Item(start.held.object, start.held.items, start.index, of), kind, value.place, out)


def declare(
    body: Body, variable: t.Variable, initial: t.Expr | None, out: Out, at: Place, given_in: Body | None = None
) -> None:
    """A local that walks; its first value is read in another body, where one is given."""
    if initial is None:
        raise Refused(at, f"{variable.name} without a first value", "declare it where it gets its first place")
    start = spot(given_in or body, initial, out)
    kind = kind_of(body, start)
    owner = body.local(f"{variable.name}_of", form.Pointer(kind.cls))
    index = body.local(variable.name, form.LONG)
    out.append(form.Let(owner, start.held.object, at))
    out.append(form.Let(index, start.index, at))
    body.bindings[variable] = Cursor(owner, index, kind)


def parameter(body: Body, variable: t.Variable, kind: Kind) -> None:
    """A parameter that walks: two of the method."""
    owner = body.parameter(f"{variable.name}_of", form.Pointer(kind.cls))
    index = body.parameter(variable.name, form.LONG)
    body.bindings[variable] = Cursor(owner, index, kind)


def _assigned(body: Body, node: t.Assign, out: Out) -> Spot:
    """A walking pointer moves; where it points to then, or of a postfix operator pointed to before."""
    if not isinstance(node.target, t.Name) or not isinstance(cursor := body.bindings.get(node.target.variable), Cursor):
        raise Refused(node.place, "arithmetic on a pointer that isn't a local", "write an index")
    held = _flat(cursor.kind, cursor.object)
    if not node.operator:
        given = spot(body, node.value, out)
        if kind_of(body, given) != cursor.kind:
            raise Refused(node.place, "a pointer that walks over items of two kinds of arrays", WALKING[1])
        if given.held.object != cursor.object:
            out.append(form.Put(cursor.object, "", given.held.object, node.place))
        out.append(form.Put(cursor.index, "", given.index, node.place))
        return Spot(held, cursor.index)
    by = values.value(body, node.value, out)
    before: form.Expr = cursor.index
    if node.after:
        before = body.kept(cursor.index, out, node.place)
    out.append(form.Put(cursor.index, node.operator, by, node.place))
    return Spot(held, before if node.after else cursor.index)


def move(body: Body, node: t.Assign, out: Out) -> None:
    """A walking pointer moves, and where it was isn't asked for."""
    node = t.Assign(node.type, node.place, node.target, node.operator, node.value, node.within)
    _assigned(body, node, out)


def compared(body: Body, node: t.Binary, out: Out) -> form.Expr:
    """A comparison or difference of two places."""
    if isinstance(node.left, t.Null) or isinstance(node.right, t.Null):
        raise Refused(node.place, "a pointer that walks is compared with null", "compare it with the end")
    left = spot(body, node.left, out)
    if body.tables.effects.has_effect(node.right):
        left = kept(body, left, out, node.place)
    right = spot(body, node.right, out)
    made = binary(node.operator, left.index, right.index)
    if node.operator in ("==", "!=") and left.held.object != right.held.object:
        same = binary("==", left.held.object, right.held.object)
        made = binary("&&", same, made) if node.operator == "==" else binary("||", form.negated(same), made)
    return made


def read(body: Body, node: t.Expr, type_: Type, out: Out) -> form.Expr:
    """The pointer as a value: of items that are objects a pointer to that object."""
    one = spot(body, node, out)
    if isinstance(type_, Pointer) and isinstance(type_.to, (Object, Vector)):
        return places.item(body, one.held, one.index)
    raise Refused(node.place, "a pointer into an array as a value", "pass the array and an index")
