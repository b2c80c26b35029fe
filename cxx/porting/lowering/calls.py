"""Not proved (README.md). Calls: the method of a function, its receiver and arguments, its result.

A free function is a method of `Program`. A virtual call is a call of a method that asks for the class of the object.
An argument for a reference to a number is the box that the number lives in; an item of an array is lent: copied into a
box for the call, and back behind it, by one box where two such arguments are one item.
"""


from .. import form
from .. import tree as t
from ..effects import is_lending, lowered_parameters, overriders
from ..places import Place
from ..refusals import Refused
from ..types import VOID, Object, Reference, Vector, bare, is_scalar
from ..words import unique
from . import cursors, objects, places, values
from .context import Body, Given, Kind, Kinds, Out
from .numbers import binary


def is_pure(body: Body, node: t.Call) -> bool:
    return all(one in body.tables.effects.pure for one in called(node))


def called(node: t.Call) -> list[t.Function]:
    return overriders(node.function) if node.virtual else [node.function]


def method_of(body: Body, node: t.Call, kinds: Kinds) -> form.Method:
    """The method that is called: of a virtual one with several bodies the one that chooses."""
    if node.virtual and node.function.virtual:
        chooser = body.tables.dispatchers.get(node.function)
        if chooser is not None:
            if kinds:
                raise Refused(
                    node.place, "a virtual call with a pointer that walks over items", "pass the array and an index"
                )
            return chooser
        chosen = called(node)
        if len(chosen) == 1:
            return body.tables.method_of(chosen[0], kinds)
    return body.tables.method_of(node.function, kinds)


def prepared(body: Body, node: t.Call, out: Out, after: Out) -> tuple[form.Expr, list[form.Expr], Kinds]:
    """Receiver, arguments, and the kinds of those that walk; `after` has what is done behind the call."""
    parameters = lowered_parameters(node.function)
    pairs = list(zip(parameters, node.arguments))
    nodes = [argument for _, argument in pairs]
    if not node.function.library and not node.listed:
        values.note_order(body, nodes, node.place)
    if node.receiver is None:
        receiver: form.Expr = form.Root()
    else:
        receiver = values.pointer_to(body, node.receiver, out)
        receiver = values.keep_before(body, receiver, nodes, out, node.place)
    made: list[list[form.Expr]] = [[] for _ in pairs]
    lent: list[tuple[form.Item, form.Expr]] = []
    kinds: dict[int, Kind] = {}
    backwards = body.tables.backwards and not node.listed
    for at in reversed(range(len(pairs))) if backwards else range(len(pairs)):
        parameter, argument = pairs[at]
        later = nodes[:at] if backwards else nodes[at + 1 :]
        if parameter in body.tables.walking:
            spot = cursors.spot(body, argument, out)
            for part in (spot.held.object, spot.index):
                made[at].append(values.keep_before(body, part, later, out, node.place))
            kinds[at] = cursors.kind_of(body, spot)
            continue
        one = _argument(body, parameter, argument, out, after, lent)
        made[at].append(values.keep_before(body, one, later, out, node.place))
    return receiver, [one for parts in made for one in parts], tuple(kinds[at] for at in sorted(kinds))


def _argument(
    body: Body, parameter: t.Variable, node: t.Expr, out: Out, after: Out, lent: list[tuple[form.Item, form.Expr]]
) -> form.Expr:
    type_ = parameter.type
    if is_lending(parameter):
        box = places.box_of(body, node, out)
        return box if box is not None else _lend(body, node, out, after, lent)
    if isinstance(type_, (Object, Vector)):
        return values.value(body, node, out) if values.is_fresh(node) else objects.copy_of(body, node, out)
    if isinstance(type_, Reference) and not is_scalar(type_.to):
        return values.pointer_to(body, node, out)
    made = values.value(body, node, out)
    held = body.shapes.of(type_)
    if isinstance(made.type, form.Pointer) != isinstance(held, form.Pointer):
        raise Refused(node.place, *values.LETTERS)
    return form.Null(held) if isinstance(made, form.Null) and isinstance(held, form.Pointer) else made


def _lend(body: Body, node: t.Expr, out: Out, after: Out, lent: list[tuple[form.Item, form.Expr]]) -> form.Expr:
    """A box that has the value of a place for the time of the call."""
    target = places.kept(body, places.place(body, node, out), out, node.place)
    cls = body.shapes.box(bare(node.type))
    box = body.temporary(form.Pointer(cls.name), "lent")
    inside = form.Field(box, "value", target.type)
    out.append(form.Make(box, node.place))
    out.append(form.Put(inside, "", target, node.place))
    after.append(form.Put(target, "", inside, node.place))
    if not isinstance(target, form.Item):
        return box
    result: form.Expr = box
    for other, first in lent:
        if other.name == target.name and other.object.type == target.object.type:
            same = binary("&&", binary("==", other.object, target.object), binary("==", other.index, target.index))
            chosen = body.local("lent_", box.type)
            out.append(form.Let(chosen, result, node.place))
            out.append(form.If(same, [form.Put(chosen, "", first, node.place)], [], node.place))
            after[-1] = form.If(form.negated(same), [after[-1]], [], node.place)
            result = chosen
    lent.append((target, box))
    return result


def value_of(body: Body, node: t.Call, out: Out) -> form.Expr:
    """The value of a call."""
    if _is_accessor(node) and not is_pure(body, node):
        return accessed(body, node, out)
    if node.function.result == VOID:
        effect_of(body, node, out)
        return form.Number(0)
    held = body.shapes.of(node.function.result)
    after: Out = []
    receiver, arguments, kinds = prepared(body, node, out, after)
    method = method_of(body, node, kinds)
    if is_pure(body, node) and not after:
        return form.Apply(method, receiver, tuple(arguments), held)
    result = body.temporary(held)
    out.append(form.Do(method, receiver, arguments, result, node.place))
    out += after
    return result


def effect_of(body: Body, node: t.Call, out: Out) -> None:
    """A call for its effects alone."""
    after: Out = []
    if is_pure(body, node):
        for part in t.parts(node):
            assert isinstance(part, t.Node)
            values.effect(body, part, out)  # type: ignore[arg-type]
        return
    receiver, arguments, kinds = prepared(body, node, out, after)
    out.append(form.Do(method_of(body, node, kinds), receiver, arguments, None, node.place))
    out += after


# Functions whose result is a place ------------------------------------------------------------------------------------


def _is_accessor(node: t.Call) -> bool:
    """Whether the result is a reference to a number, so that the call stands for a place."""
    result = node.function.result
    return isinstance(result, Reference) and not result.constant and is_scalar(result.to)


def accessed(body: Body, node: t.Call, out: Out) -> form.Target:
    """The place that a call gives: of a function whose body does no more than return one, that place; else what its
    method gives."""
    value = only_value(node.function)
    if value is None or len(called(node)) != 1:
        return given(body, node, out)[1]
    return places.place(within(body, node, out), value, out)


def give(body: Body, target: form.Target, kind: Kind | None, at: Place, out: Out) -> None:
    """The result is a place: the object that has it, and of an array the index in a field of the receiver."""
    method, tables = body.method, body.tables
    if isinstance(target, form.Local):
        raise Refused(at, "a reference to a local as a result", "give the value")
    known = tables.given.get(method)
    index = None
    if isinstance(target, form.Item):
        index = known.index if known is not None else unique(f"{method.name}_index", body.shapes.names[method.cls])
        if known is None:
            method.cls.slots.append(form.Slot(index or "", form.LONG, origin=f"the index that {method.origin} gives"))
    given_now = Given(target.name, target.type, index, kind)
    if known not in (None, given_now) or method.result not in (None, target.object.type):
        raise Refused(at, "references to places of several kinds as results", "write a setter")
    tables.given[method] = given_now
    method.result = target.object.type
    if isinstance(target, form.Item) and index is not None:
        own = body.function is not None and body.function.owner is not None and not body.function.static
        this: form.Expr = form.This(form.Pointer(method.cls.name)) if own else form.Root()
        out.append(form.Put(form.Field(this, index, form.LONG), "", target.index, at))
    out.append(form.Return(target.object, at))


def given(body: Body, node: t.Call, out: Out) -> tuple[Kind | None, form.Target]:
    """The place by the object that the method gives, and by its field."""
    after: Out = []
    receiver, arguments, kinds = prepared(body, node, out, after)
    method = method_of(body, node, kinds)
    told = body.tables.given.get(method)
    if told is None or method.result is None:
        what = f"{node.function.name}, which gives places of several kinds"
        raise Refused(node.place, what, "write a setter", follows=True)
    receiver = body.kept(receiver, out, node.place)
    result = body.temporary(method.result)
    out.append(form.Do(method, receiver, arguments, result, node.place))
    out += after
    if told.index is None:
        return told.kind, form.Field(result, told.name, told.type)
    index = body.kept(form.Field(receiver, told.index, form.LONG), out, node.place)
    return told.kind, form.Item(result, told.name, index, told.type)


def only_value(function: t.Function) -> t.Expr | None:
    """What a function gives whose body does no more."""
    steps = [one for one in _flat(function.body)] if function.body is not None else []
    return steps[0].value if len(steps) == 1 and isinstance(steps[0], t.Return) else None


def within(body: Body, node: t.Call, out: Out) -> Body:
    """The body of the function that is called, at the place of the call: with its receiver and arguments."""
    function = node.function
    receiver = values.pointer_to(body, node.receiver, out) if node.receiver is not None else form.Root()
    inner = body.inlined(body.kept(receiver, out, node.place))
    for parameter, argument in zip(lowered_parameters(function), node.arguments):
        if is_lending(parameter):
            places.bind(inner, parameter, argument, out, node.place)
            continue
        if parameter in body.tables.walking:
            cursors.declare(inner, parameter, argument, out, node.place, body)
            continue
        made = _argument(body, parameter, argument, out, [], [])
        local = body.temporary(body.shapes.of(parameter.type), parameter.name)
        out.append(form.Let(local, made, node.place))
        inner.bindings[parameter] = local
    return inner


def _flat(block: t.Block) -> list[t.Statement]:
    return [inner for one in block.steps for inner in (_flat(one) if isinstance(one, t.Block) else [one])]
