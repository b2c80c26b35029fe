"""Not proved (README.md). What can be assigned to, what arrays and vectors are found in, and what references are bound
to."""

from .. import form
from .. import tree as t
from ..effects import is_lending
from ..places import Place
from ..refusals import Refused
from ..types import BOOL, STRING, Array, Int, Object, Pointer, Reference, Type, Vector, bare, is_scalar
from . import calls, cursors, letters, values
from .context import Body, Container, Cursor, Out
from .numbers import binary


def place(body: Body, node: t.Expr, out: Out) -> form.Target:
    """The place of a number, truth value or pointer."""
    match node:
        case t.Name():
            return _variable(body, node)
        case t.Dot():
            owner = values.pointer_to(body, node.object, out)
            return _member(body, owner, node)
        case t.Item():
            return _item(body, node, out)
        case t.Deref():
            return _pointed(body, node, out)
        case t.VectorCall(method="back"):
            held = container(body, node.vector, out)
            return form.Item(held.object, held.items, binary("-", size(held), form.Number(1)), body.shapes.of(held.of))
        case t.Call():
            return calls.accessed(body, node, out)
        case t.Assign():
            values.effect(body, node, out)
            return place(body, node.target, out)
        case t.Binary(operator=","):
            values.effect(body, node.left, out)
            return place(body, node.right, out)
        case t.Conditional():
            raise Refused(node.place, "a choice between two places", "write an if with two assignments")
        case t.Convert():
            return place(body, node.operand, out)
    raise Refused(node.place, "a place that isn't known", "write it another way")


def _variable(body: Body, node: t.Name) -> form.Target:
    variable = node.variable
    if variable.shared:
        made: form.Target = form.Field(form.Root(), body.shapes.slot_of(variable), _held(body, variable))
        return _opened(made, variable.lent, body.shapes.of(variable.type))
    bound = body.bindings.get(variable)
    if isinstance(bound, (Container, Cursor)) or bound is None:
        raise Refused(node.place, f"{variable.name} in this place", "write it another way", bound is None)
    boxed = variable.lent or is_lending(variable) and isinstance(bound, form.Local) and body.shapes.is_box(bound.type)
    return _opened(bound, boxed and is_scalar(bare(variable.type)), body.shapes.of(variable.type))


def _held(body: Body, variable: t.Variable | t.Member) -> form.Type:
    if variable.lent and is_scalar(variable.type):
        return form.Pointer(body.shapes.box(variable.type).name)
    return body.shapes.of(variable.type)


def _opened(made: form.Target, boxed: bool, type_: form.Type) -> form.Target:
    """The place within the box, where references are bound to it."""
    return form.Field(made, "value", type_) if boxed else made


def _member(body: Body, owner: form.Expr, node: t.Dot) -> form.Target:
    member = node.member
    made = form.Field(owner, body.shapes.slot_of(member), _held(body, member))
    if is_lending(member):
        return _opened(
            form.Field(owner, made.name, body.shapes.parameter(member.type)), True, body.shapes.of(member.type)
        )
    return _opened(made, member.lent and is_scalar(member.type), body.shapes.of(member.type))


def _item(body: Body, node: t.Item, out: Out) -> form.Item:
    held = container(body, node.items, out)
    before: Out = []
    index = values.value(body, node.index, before)
    if before:
        held = kept_container(body, held, out, node.place)
        out += before
    return item(body, held, index)


def item(body: Body, held: Container, index: form.Expr) -> form.Item:
    """The place of an item, which is no row."""
    if held.offset is not None:
        index = binary("+", held.offset, index)
    return form.Item(held.object, held.items, index, body.shapes.of(held.of))


def _pointed(body: Body, node: t.Deref, out: Out) -> form.Target:
    if isinstance(node.pointer, t.AddressOf):
        return place(body, node.pointer.operand, out)
    if cursors.is_walking(body, node.pointer):
        spot = cursors.spot(body, node.pointer, out)
        return item(body, spot.held, spot.index)
    if node.pointer.type == STRING:
        return item(body, container(body, node.pointer, out), form.Number(0))
    pointer = values.value(body, node.pointer, out)
    return form.Item(pointer, "at", form.Number(0), body.shapes.of(node.type))


# Arrays and vectors ---------------------------------------------------------------------------------------------------


def size(held: Container) -> form.Expr:
    if held.count is not None:
        return form.Field(held.object, held.count, form.LONG)
    return form.Number(held.length or 0)


def container(body: Body, node: t.Expr, out: Out) -> Container:
    """Where the items of an array, of a vector or of what a pointer points to are."""
    type_ = bare(node.type)
    match node:
        case t.Name():
            bound = body.bindings.get(node.variable)
            if isinstance(bound, Container):
                return bound
            if isinstance(bound, Cursor):
                return Container(bound.object, bound.kind.items, None, bound.kind.of, bound.index)
            if node.variable.shared and not node.variable.whole and isinstance(type_, (Array, Vector)):
                return _within(body, form.Root(), node.variable, type_)
        case t.Dot() if isinstance(node.member.type, (Array, Vector)) and not node.member.whole:
            owner = values.pointer_to(body, node.object, out)
            return _within(body, owner, node.member, type_)
        case t.Item() if isinstance(type_, Array):
            return _row(body, node, type_, out)
        case t.Deref() if isinstance(type_, (Array, Vector)):
            if isinstance(node.pointer, t.AddressOf):
                return container(body, node.pointer.operand, out)
            return whole(body, values.value(body, node.pointer, out), type_)
        case t.Binary(operator=","):
            values.effect(body, node.left, out)
            return container(body, node.right, out)
    if type_ == STRING:
        return letters.of(body, values.value(body, node, out))
    if isinstance(type_, Pointer):
        if isinstance(type_.to, Object):
            raise Refused(node.place, "an index on a pointer to objects", "write an array of pointers, or a vector")
        return whole(body, values.value(body, node, out), Array(type_.to, 0))
    return whole(body, values.value(body, node, out), type_)


def whole(body: Body, pointer: form.Expr, type_: Type) -> Container:
    """An array or vector that is an object of its own."""
    if isinstance(type_, Vector):
        return Container(pointer, "at", "n", type_.of)
    assert isinstance(type_, Array)
    return Container(pointer, "at", None, type_.of, None, type_.length)


def _within(body: Body, owner: form.Expr, member: t.Member | t.Variable, type_: Type) -> Container:
    """An array or vector that is fields of its owner."""
    name = body.shapes.slot_of(member)
    if isinstance(type_, Vector):
        return Container(owner, name, name + "_n", type_.of)
    assert isinstance(type_, Array)
    return Container(owner, name, None, type_.of, None, type_.length)


def _row(body: Body, node: t.Item, type_: Array, out: Out) -> Container:
    """A row of an array of arrays: the same items from another place on."""
    held = container(body, node.items, out)
    before: Out = []
    index = values.value(body, node.index, before)
    if before:
        held = kept_container(body, held, out, node.place)
        out += before
    offset = binary("*", index, form.Number(body.shapes.length(type_)))
    if held.offset is not None:
        offset = binary("+", held.offset, offset)
    return Container(held.object, held.items, held.count, type_.of, offset, type_.length)


def kept_container(body: Body, held: Container, out: Out, at: Place) -> Container:
    """The same container, whatever is done later to what led to it."""
    offset = body.kept(held.offset, out, at) if held.offset is not None else None
    return Container(body.kept(held.object, out, at), held.items, held.count, held.of, offset, held.length)


def kept(body: Body, target: form.Target, out: Out, at: Place) -> form.Target:
    """The same place, whatever is done later to what led to it."""
    match target:
        case form.Field(owner, name, type_):
            return form.Field(body.kept(owner, out, at), name, type_)
        case form.Item(owner, name, index, type_):
            return form.Item(body.kept(owner, out, at), name, body.kept(index, out, at), type_)
    return target


# References -----------------------------------------------------------------------------------------------------------


def box_of(body: Body, node: t.Expr, out: Out) -> form.Expr | None:
    """The box that a place of a number lives in, if it does."""
    if not isinstance(node, (t.Name, t.Dot)):
        return None
    target = place(body, node, out)
    if isinstance(target, form.Field) and body.shapes.is_box(target.object.type):
        return target.object
    return None


def _is_named_number(node: t.Expr) -> bool:
    """Whether it is a local, a parameter or a global that may be assigned to while another name of it is read."""
    return isinstance(node, t.Name) and (isinstance(bare(node.type), Int) or bare(node.type) == BOOL)


def bind(body: Body, variable: t.Variable, initial: t.Expr, out: Out, at: Place) -> None:
    """Declares a local reference: another name of a place, a container or an object."""
    type_ = bare(variable.type)
    if is_scalar(type_):
        if isinstance(variable.type, Reference) and variable.type.constant:
            if _is_named_number(initial):
                body.bindings[variable] = place(body, initial, out)
                return
            local = body.local(variable.name, body.shapes.of(type_))
            out.append(form.Let(local, values.value(body, initial, out), at))
            body.bindings[variable] = local
            return
        target = kept(body, place(body, initial, out), out, at)
        body.bindings[variable] = target
        return
    if isinstance(type_, (Array, Vector)) and not values.is_fresh(initial):
        body.bindings[variable] = kept_container(body, container(body, initial, out), out, at)
        return
    local = body.local(variable.name, body.shapes.of(type_))
    out.append(form.Let(local, values.pointer_to(body, initial, out), at))
    body.bindings[variable] = local
