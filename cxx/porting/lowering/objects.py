"""Not proved (README.md). Making and copying objects, arrays and vectors.

A constructor is an operation `init` that is called on the new object: its base, then its members in the order of their
declaration, then its body. A struct within a struct is an object that its owner makes. A copy goes member by member.
"""

from .. import form
from .. import tree as t
from .. import types as ct

from ..effects import is_lending
from ..places import Place
from ..refusals import Refused
from ..types import Array, Object, Type, Vector, bare, is_scalar
from ..words import spelled
from . import calls, letters, places, values, vectors
from .context import Body, Container, Kinds, Out
from .numbers import binary, number

Made = t.New | t.Construct | t.Aggregate | t.Filled | t.Copy


def made(body: Body, node: Made, out: Out) -> form.Expr:
    """A pointer to the new object, array or vector."""
    match node:
        case t.New():
            return _new(body, node, out)
        case t.Copy():
            return (
                values.value(body, node.operand, out)
                if values.is_fresh(node.operand)
                else copy_of(body, node.operand, out)
            )
    local = body.temporary(body.shapes.of(node.type), "made")
    make(body, local, node.type, node, out, node.place)
    return local


def make(body: Body, local: form.Local, type_: Type, initial: t.Expr | None, out: Out, place: Place) -> None:
    """Declares the local as a pointer to a new object, array or vector with this first value."""
    if isinstance(type_, Object):
        if isinstance(initial, t.Construct) or initial is None:
            if initial is None:
                initial = t.Construct(type_, place, default_constructor(type_.record), [])
            construct(body, local, type_.record, initial, out, place)
            return
        if isinstance(initial, t.Aggregate):
            _aggregate(body, local, type_.record, initial, out)
            return
        assert initial is not None
        pointer = values.value(body, initial, out) if values.is_fresh(initial) else copy_of(body, initial, out)
        out.append(form.Let(local, pointer, place))
        return
    if isinstance(initial, (t.Call, t.Copy, t.Conditional)) and values.is_fresh(initial):
        out.append(form.Let(local, values.value(body, initial, out), place))
        return
    out.append(form.Make(local, place))
    fill(body, places.whole(body, local, type_), type_, initial, out, place)


def _new(body: Body, node: t.New, out: Out) -> form.Expr:
    assert isinstance(node.type, ct.Pointer)
    to, place = node.type.to, node.place
    local = body.temporary(body.shapes.of(node.type), "made")
    if node.length is None and isinstance(to, (Object, Vector)):
        make(body, local, to, node.initial, out, place)
        return local
    if isinstance(to, Object):
        raise Refused(place, *values.NEW_OBJECTS)
    length = values.value(body, node.length, out) if node.length is not None else form.Number(1)
    out.append(form.Make(local, place))
    held = Container(local, "at", None, to)
    if node.length is None and node.initial is not None:
        out.append(form.Put(places.item(body, held, form.Number(0)), "", values.value(body, node.initial, out), place))
    elif isinstance(node.initial, t.Aggregate):
        assert isinstance(node.initial.type, Array)
        fill(body, held, node.initial.type, node.initial, out, place)
    elif isinstance(to, (Vector, Array)):
        _each(body, held, length, to, out, place)
    elif isinstance(node.each, ct.Pointer):
        length = body.kept(length, out, place)
        _each(body, Container(local, "at", None, node.each.to), length, node.each.to, out, place)
    if isinstance(length, form.Number):
        body.shapes.need(body.shapes.classes[local.type.cls], length.value)  # type: ignore[union-attr]
    return local


# Constructors ---------------------------------------------------------------------------------------------------------


def default_constructor(record: t.Record) -> t.Function | None:
    for function in record.functions:
        if function.constructor and not function.parameters:
            return function
    return None


def construct(
    body: Body,
    local: form.Local,
    record: t.Record,
    initial: t.Construct,
    out: Out,
    place: Place,
) -> None:
    """A new object, and the call of its constructor."""
    after: Out = []
    arguments: list[form.Expr] = []
    function = initial.function
    if function is not None and initial.arguments:
        call = t.Call(ct.VOID, place, function, None, initial.arguments, False, initial.listed)
        _, arguments, kinds = calls.prepared(body, call, out, after)
        _no_kinds(kinds, place)
    out.append(form.Make(local, place))
    method = initializer(body, record, function)
    if method is not None:
        out.append(form.Do(method, local, arguments, None, place))
    out += after


def _no_kinds(kinds: Kinds, place: Place) -> None:
    if kinds:
        raise Refused(place, "a constructor with a pointer that walks over items", "pass the array and an index")


def initializer(body: Body, record: t.Record, function: t.Function | None) -> form.Method | None:
    """The operation that a constructor is; none where there is nothing to do."""
    if function is None or function.body is None:
        function = None
        if not needs_initial(body, record):
            return None
    cls = body.shapes.class_of(record)
    name = "init" if record.base is None else f"init_{record.name}"
    origin = f"{record.name}::{record.name}"
    return body.tables.helper(
        ("init", record, function), cls, name, origin, lambda inner: _write_initializer(inner, record, function)
    )


def needs_initial(body: Body, record: t.Record) -> bool:
    """Whether an object of which nothing is said is more than fields at their start."""
    return (
        record in body.shapes.kinds
        or any(one.initial is not None or not is_scalar(one.type) and _needs(body, one) for one in record.members)
        or any(one.lent for one in record.members)
        or record.base is not None
        and needs_initial(body, record.base)
    )


def _needs(body: Body, member: t.Member) -> bool:
    type_ = member.type
    if isinstance(type_, Array) and not member.whole:
        return not is_scalar(body.shapes.item(type_))
    return not (isinstance(type_, Vector) and not member.whole)


def _write_initializer(body: Body, record: t.Record, function: t.Function | None) -> None:
    from . import steps

    place = function.place if function is not None else record.place
    body.method.place = place
    body.method.user = function is not None and not function.library
    out = body.method.body
    if function is not None:
        steps.parameters(body, function, out)
    given = {one.member: one for one in function.initializers if one.member is not None} if function is not None else {}
    others = [one for one in function.initializers if one.member is None] if function is not None else []
    delegated = False
    for other in others:
        delegated = _before_members(body, record, other, out) or delegated
    if not others and record.base is not None:
        method = initializer(body, record.base, default_constructor(record.base))
        if method is not None:
            out.append(form.Do(method, body.this, [], None, place))
    if not delegated:
        if record in body.shapes.kinds:
            kind = form.Number(body.shapes.kinds[record])
            out.append(form.Put(body.own("kind_", form.LONG), "", kind, place))
        for member in record.members:
            first = given.get(member)
            value = first.value if first is not None else member.initial
            member_at(body, body.this, member, value, out, first.place if first is not None else place)
    if function is not None and function.body is not None:
        steps.block(body, function.body, out)


def _before_members(body: Body, record: t.Record, other: t.Initializer, out: Out) -> bool:
    """The constructor of the base, or another one of the class, which does all."""
    value = other.value
    if not isinstance(value, t.Construct) or not isinstance(value.type, Object):
        raise Refused(other.place, "a base that is made this way", "call a constructor of the base")
    after: Out = []
    arguments: list[form.Expr] = []
    if value.function is not None and value.arguments:
        call = t.Call(ct.VOID, other.place, value.function, None, value.arguments, False, value.listed)
        _, arguments, kinds = calls.prepared(body, call, out, after)
        _no_kinds(kinds, other.place)
    method = initializer(body, value.type.record, value.function)
    if method is not None:
        out.append(form.Do(method, body.this, arguments, None, other.place))
    out += after
    return value.type.record is record


def member_at(
    body: Body, owner: form.Expr, member: t.Member | t.Variable, initial: t.Expr | None, out: Out, place: Place
) -> None:
    """The first value of a member or global."""
    shapes, type_ = body.shapes, member.type
    name = shapes.slot_of(member)
    if is_scalar(type_):
        target: form.Target = form.Field(owner, name, shapes.of(type_))
        if member.lent:
            box = body.temporary(form.Pointer(shapes.box(type_).name), "box")
            out.append(form.Make(box, place))
            out.append(form.Put(form.Field(owner, name, box.type), "", box, place))
            target = form.Field(box, "value", shapes.of(type_))
        if initial is not None:
            value = values.literal(body, initial, type_, out)
            out.append(form.Put(target, "", _fitting(value, target.type), place))
        return
    if isinstance(type_, (Array, Vector)) and not member.whole:
        held = places._within(body, owner, member, type_)
        fill(body, held, type_, initial, out, place)
        return
    if isinstance(type_, ct.Reference):
        if initial is None:
            raise Refused(place, f"the reference {member.name} without a first value", "write a pointer")
        if is_lending(member):
            given = places.box_of(body, initial, out)
            if given is None:
                raise Refused(
                    place, f"the reference {member.name} to what is no variable", "write a variable, or an index"
                )
        else:
            given = values.pointer_to(body, initial, out)
        out.append(form.Put(form.Field(owner, name, shapes.parameter(type_)), "", given, place))
        return
    local = body.temporary(shapes.of(type_), member.name)
    make(body, local, type_, initial, out, place)
    out.append(form.Put(form.Field(owner, name, local.type), "", local, place))


def _fitting(value: form.Expr, type_: form.Type) -> form.Expr:
    return form.Null(type_) if isinstance(value, form.Null) and isinstance(type_, form.Pointer) else value


def _aggregate(body: Body, local: form.Local, record: t.Record, node: t.Aggregate, out: Out) -> None:
    """A new object from its parts: the simple ones by one operation."""
    place, parts = node.place, list(node.parts)
    if record.base is not None:
        raise Refused(place, f"{record.name}, which has a base, from a list", "write a constructor")
    parts += [None] * (len(record.members) - len(parts))
    simple: list[tuple[t.Member, t.Expr]] = []
    rest: list[tuple[t.Member, t.Expr | None]] = []
    for member, part in zip(record.members, parts):
        part = part if part is not None else member.initial
        if part is not None and is_scalar(member.type) and not member.lent:
            simple.append((member, part))
        else:
            rest.append((member, part))
    made = values.several(body, [part for _, part in simple], out)
    out.append(form.Make(local, place))
    if simple:
        method = _setter(body, record, tuple(member for member, _ in simple))
        fitting = [_fitting(one, body.shapes.of(member.type)) for one, (member, _) in zip(made, simple)]
        out.append(form.Do(method, local, fitting, None, place))
    for member, part in rest:
        if part is not None or not is_scalar(member.type) or member.lent:
            member_at(body, local, member, part, out, place)


def _setter(body: Body, record: t.Record, members: tuple[t.Member, ...]) -> form.Method:
    """The operation that puts these members."""
    cls = body.shapes.class_of(record)
    name = (
        "fill" if len(members) == len(record.members) else "fill_" + "_".join(spelled(one.name) for one in members[:3])
    )

    def write(inner: Body) -> None:
        for member in members:
            local = inner.parameter(member.name, body.shapes.of(member.type))
            target = inner.own(body.shapes.slot_of(member), local.type)
            inner.method.body.append(form.Put(target, "", local, record.place))

    return body.tables.helper(("fill", record, members), cls, name, f"{record.name}'s first values", write)


# Arrays and vectors ---------------------------------------------------------------------------------------------------


def fill(body: Body, held: Container, type_: Type, initial: t.Expr | None, out: Out, place: Place) -> None:
    """The first items of an array or vector that is there and empty."""
    if isinstance(type_, Vector):
        vectors.fill(body, held, type_, initial, out, place)
        return
    assert isinstance(type_, Array)
    if held.items == "at" and isinstance(held.object.type, form.Pointer) and type_.length:
        cls = body.shapes.classes[held.object.type.cls]
        if cls.slot("at").grows:
            body.shapes.need(cls, body.shapes.length(type_))
    if isinstance(initial, t.Text):
        for at, letter in enumerate(initial.value[: type_.length]):
            target = places.item(body, held, form.Number(at))
            out.append(form.Put(target, "", form.Number(letters.signed(letter)), place))
    elif isinstance(initial, t.Aggregate):
        _listed(body, held, type_, initial, out, place)
    elif isinstance(initial, t.Copy):
        source = places.kept_container(body, places.container(body, initial.operand, out), out, place)
        vectors.copy_items(
            body, held, source, form.Number(body.shapes.length(type_)), body.shapes.item(type_), out, place
        )
    elif initial is None or isinstance(initial, t.Construct):
        _each(body, held, form.Number(type_.length), type_.of, out, place)
    else:
        raise Refused(place, "an array from this", "write a list or a loop")


def _listed(body: Body, held: Container, type_: Array, initial: t.Aggregate, out: Out, place: Place) -> None:
    for at in range(type_.length):
        part = initial.parts[at] if at < len(initial.parts) else None
        if part is None and at >= len(initial.parts):
            if not is_scalar(body.shapes.item(type_)):
                rest = Container(held.object, held.items, None, type_.of, _moved(body, held, type_, at))
                _each(body, rest, form.Number(type_.length - at), type_.of, out, place)
            return
        if isinstance(type_.of, Array):
            row = Container(held.object, held.items, None, type_.of.of, _moved(body, held, type_, at), type_.of.length)
            fill(body, row, type_.of, part, out, place)
        elif is_scalar(type_.of):
            if part is not None:
                value = values.value(body, part, out)
                target = places.item(body, held, form.Number(at))
                out.append(form.Put(target, "", _fitting(value, target.type), place))
        else:
            local = body.temporary(body.shapes.of(type_.of), "made")
            make(body, local, type_.of, part, out, place)
            out.append(form.Put(places.item(body, held, form.Number(at)), "", local, place))


def _moved(body: Body, held: Container, type_: Array, at: int) -> form.Expr:
    offset = number(at * body.shapes.length(type_.of))
    return offset if held.offset is None else binary("+", held.offset, offset)


def _each(body: Body, held: Container, length: form.Expr, of: Type, out: Out, place: Place) -> None:
    """Objects for the items of which nothing is said."""
    item = body.shapes.item(of)
    if is_scalar(item):
        return
    if isinstance(of, Array):
        length = binary("*", length, form.Number(body.shapes.length(of)))
    counter = body.local("k", form.LONG)
    inside: Out = []
    local = body.temporary(body.shapes.of(item), "made")
    make(body, local, item, None, inside, place)
    flat = Container(held.object, held.items, None, item, held.offset)
    inside.append(form.Put(places.item(body, flat, counter), "", local, place))
    out.append(counted(counter, length, inside, place))


def counted(counter: form.Local, length: form.Expr, inside: Out, place: Place) -> form.Count:
    """For each number from 0 to below the length."""
    step = form.Put(counter, "+", form.Number(1), place)
    return form.Count(counter, form.Number(0), binary("<", counter, length), step, inside, place)


# Copies ---------------------------------------------------------------------------------------------------------------


def copy_of(body: Body, node: t.Expr, out: Out) -> form.Expr:
    """A new object, array or vector with the values of another."""
    type_, place = bare(node.type), node.place
    local = body.temporary(body.shapes.of(type_), "copy")
    if isinstance(type_, Object):
        source = body.kept(values.pointer_to(body, node, out), out, place)
        out.append(form.Make(local, place))
        copy_into(body, local, source, type_.record, out, place)
        return local
    held = places.kept_container(body, places.container(body, node, out), out, place)
    out.append(form.Make(local, place))
    vectors.copy(body, places.whole(body, local, type_), held, type_, out, place)
    return local


def copy_into(body: Body, target: form.Expr, source: form.Expr, record: t.Record, out: Out, place: Place) -> None:
    """All members of one object into another one."""
    out.append(form.Do(copier(body, record), target, [source], None, place))


def copier(body: Body, record: t.Record) -> form.Method:
    cls = body.shapes.class_of(record)

    def write(inner: Body) -> None:
        inner.method.place = record.place
        source = inner.parameter("from", form.Pointer(cls.name))
        inner.still.add(source.name)
        for one in record.ancestors()[::-1]:
            for member in one.members:
                _copy_member(inner, member, source, record.place)
        if record in body.shapes.kinds:
            target = inner.own("kind_", form.LONG)
            inner.method.body.append(form.Put(target, "", form.Number(body.shapes.kinds[record]), record.place))

    return body.tables.helper(
        ("copy", record), cls, f"copy_{record.name}" if record.base else "copy", f"a copy of {record.name}", write
    )


def _copy_member(body: Body, member: t.Member, source: form.Expr, place: Place) -> None:
    shapes, out, type_ = body.shapes, body.method.body, member.type
    name = shapes.slot_of(member)
    if isinstance(type_, (Array, Vector)) and not member.whole:
        mine, other = (places._within(body, one, member, type_) for one in (body.this, source))
        vectors.copy(body, mine, other, type_, out, place)
        return
    held = form.Pointer(shapes.box(type_).name) if member.lent and is_scalar(type_) else shapes.parameter(type_)
    mine_at, other_at = body.own(name, held), form.Field(source, name, held)
    if member.lent and is_scalar(type_):
        _made_if_null(body, mine_at, None, out, place)
        inside = form.Field(mine_at, "value", shapes.of(type_))
        out.append(form.Put(inside, "", form.Field(other_at, "value", shapes.of(type_)), place))
    elif is_scalar(type_) or isinstance(type_, ct.Reference):
        out.append(form.Put(mine_at, "", other_at, place))
    elif isinstance(type_, Object):
        _made_if_null(body, mine_at, type_, out, place)
        copy_into(body, mine_at, other_at, type_.record, out, place)
    else:
        _made_if_null(body, mine_at, None, out, place)
        vectors.copy(body, places.whole(body, mine_at, type_), places.whole(body, other_at, type_), type_, out, place)


def _made_if_null(body: Body, target: form.Target, type_: Type | None, out: Out, place: Place) -> None:
    """An object for a field that has none yet."""
    assert isinstance(target.type, form.Pointer)
    local = body.temporary(target.type, "made")
    inside: Out = [form.Make(local, place), form.Put(target, "", local, place)]
    out.append(form.If(binary("==", target, form.Null(target.type)), inside, [], place))


def assign(body: Body, node: t.Assign, out: Out) -> None:
    """An object or vector into another one."""
    type_ = bare(node.target.type)
    if isinstance(type_, Vector):
        vectors.assign(body, node, type_, out)
        return
    assert isinstance(type_, Object)
    source = values.pointer_to(body, node.value, out)
    if body.tables.effects.has_effect(node.target):
        source = body.kept(source, out, node.place)
    target = values.pointer_to(body, node.target, out)
    copy_into(body, target, source, type_.record, out, node.place)


def swap(body: Body, node: t.Swap, out: Out) -> None:
    """Two objects or vectors change their values."""
    type_ = bare(node.left.type)
    if isinstance(type_, Vector):
        vectors.swap(body, node, type_, out)
        return
    assert isinstance(type_, Object)
    left = body.kept(values.pointer_to(body, node.left, out), out, node.place)
    right = body.kept(values.pointer_to(body, node.right, out), out, node.place)
    old = body.temporary(left.type, "old")
    out.append(form.Make(old, node.place))
    for target, source in ((old, left), (left, right), (right, old)):
        copy_into(body, target, source, type_.record, out, node.place)
