"""Not proved (README.md). Statements."""

from .. import form
from .. import tree as t
from ..effects import is_lending, lowered_parameters
from ..places import Place
from ..refusals import FAULTS, NOT_KNOWN, Refused
from ..sites import EXIT_SITE
from ..types import VOID, Array, Object, Reference, Vector, bare, is_scalar
from . import calls, cursors, objects, places, values, vectors
from .context import Body, Container, Kinds, Out
from .numbers import binary


def parameters(body: Body, function: t.Function, out: Out, kinds: Kinds = ()) -> None:
    """Declares the parameters; one that references are bound to gets its box, one that walks is two."""
    left = list(kinds)
    for variable in lowered_parameters(function):
        if variable in body.tables.walking:
            cursors.parameter(body, variable, left.pop(0))
            continue
        local = body.declared(variable, body.shapes.parameter(variable.type))
        body.method.parameters.append(local)
        if variable.lent and is_scalar(variable.type) and not is_lending(variable):
            _boxed(body, variable, local, out)


def _boxed(body: Body, variable: t.Variable, first: form.Expr | None, out: Out) -> None:
    """A box for a variable that references are bound to."""
    cls = body.shapes.box(variable.type)
    box = body.temporary(form.Pointer(cls.name), variable.name)
    out.append(form.Make(box, variable.place))
    if first is not None:
        out.append(form.Put(form.Field(box, "value", body.shapes.of(variable.type)), "", first, variable.place))
    body.bindings[variable] = box


def block(body: Body, node: t.Block, out: Out) -> None:
    for one in node.steps:
        try:
            step(body, one, out)
        except Refused as refused:
            if not refused.place.line:
                refused.place = one.place
            body.tables.refusals.add(refused)
        except FAULTS:
            body.tables.refusals.add(Refused(one.place, NOT_KNOWN, "write it another way"))


def inside(body: Body, node: t.Block) -> Out:
    out: Out = []
    block(body, node, out)
    return out


def step(body: Body, node: t.Statement, out: Out) -> None:
    place = node.place
    match node:
        case t.Block():
            block(body, node, out)
        case t.Declare():
            declare(body, node.variable, out)
        case t.Evaluate():
            values.effect(body, node.value, out)
        case t.If():
            asked = values.condition(body, node.condition, out)
            out.append(form.If(asked, inside(body, node.yes), inside(body, node.no), place))
        case t.While():
            test: Out = []
            asked = values.condition(body, node.condition, test)
            out.append(form.Loop(test, asked, inside(body, node.body), [], place, True))
        case t.DoWhile():
            _do(body, node, out)
        case t.For():
            _for(body, node, out)
        case t.Each():
            _each(body, node, out)
        case t.Switch():
            _switch(body, node, out)
        case t.Break():
            out.append(form.Break(place))
        case t.Continue():
            out.append(form.Continue(place))
        case t.Return():
            _return(body, node, out)


def declare(body: Body, variable: t.Variable, out: Out) -> None:
    """A local with its first value."""
    type_, place, initial = variable.type, variable.place, variable.initial
    if variable.shared:
        _static(body, variable, out)
        return
    if isinstance(type_, Reference):
        assert initial is not None
        places.bind(body, variable, initial, out, place)
        return
    if variable in body.tables.walking:
        cursors.declare(body, variable, initial, out, place)
        return
    if is_scalar(type_):
        held = body.shapes.of(type_)
        value = values.literal(body, initial, type_, out) if initial is not None else None
        if isinstance(value, form.Null) and isinstance(held, form.Pointer):
            value = form.Null(held)
        if variable.lent:
            _boxed(body, variable, value, out)
            return
        out.append(form.Let(body.declared(variable, held), value, place))
        return
    if isinstance(type_, Array) and not variable.whole:
        cls = body.shapes.exact_array(type_)
        local = body.declared(variable, form.Pointer(cls.name))
        out.append(form.Make(local, place))
        held_in = places.whole(body, local, type_)
        objects.fill(body, held_in, type_, initial, out, place)
        body.bindings[variable] = Container(local, "at", None, type_.of, None, type_.length)
        return
    local = body.declared(variable, body.shapes.of(type_))
    objects.make(body, local, type_, initial, out, place)


def _static(body: Body, variable: t.Variable, out: Out) -> None:
    """A static local: its first value is made where it is first met, or at the start where the text tells it."""
    if not is_late(variable):
        return
    program = body.shapes.program
    name = body.shapes.slot_of(variable) + "_made"
    if not any(slot.name == name for slot in program.slots):
        program.slots.append(form.Slot(name, form.BOOL, origin=variable.name))
    made = form.Field(form.Root(), name, form.BOOL)
    first: Out = [form.Put(made, "", form.Truth(True), variable.place)]
    objects.member_at(body, form.Root(), variable, variable.initial, first, variable.place)
    out.append(form.If(form.Not(made), first, [], variable.place))


def is_late(variable: t.Variable) -> bool:
    """Whether the first value of a variable that lives as long as the program depends on when it is made."""
    if variable.initial is None:
        return False
    return not all(
        isinstance(one, (t.Number, t.Truth, t.Null, t.Text, t.Aggregate, t.Convert)) for one in t.walk(variable.initial)
    )


def _do(body: Body, node: t.DoWhile, out: Out) -> None:
    """The condition is looked at before each turn but the first."""
    place = node.place
    first = body.local("first", form.BOOL)
    out.append(form.Let(first, form.Truth(True), place))
    more: Out = []
    asked = values.condition(body, node.condition, more)
    turn = inside(body, node.body)
    if not more:
        test: Out = []
        again: form.Expr = binary("||", first, asked)
    else:
        again_local = body.local("again", form.BOOL)
        more.append(form.Put(again_local, "", asked, place))
        test = [form.Let(again_local, form.Truth(True), place), form.If(form.Not(first), more, [], place)]
        again = again_local
    out.append(form.Loop(test, again, [form.Put(first, "", form.Truth(False), place), *turn], [], place, True))


def _for(body: Body, node: t.For, out: Out) -> None:
    place = node.place
    first = inside(body, node.first)
    test: Out = []
    asked = values.condition(body, node.condition, test) if node.condition is not None else form.Truth(True)
    turn = inside(body, node.body)
    behind: Out = []
    if node.step is not None:
        values.effect(body, node.step, behind)
    counter = first[0] if len(first) == 1 else None
    update = behind[0] if len(behind) == 1 else None
    if (
        isinstance(counter, form.Let)
        and isinstance(update, form.Put)
        and not test
        and isinstance(update.target, form.Local)
    ):
        start = counter.value if counter.value is not None else form.zero(counter.local.type)
        out.append(form.Count(counter.local, start, asked, update, turn, place, True))
        return
    out += first
    out.append(form.Loop(test, asked, turn, behind, place, True))


def _each(body: Body, node: t.Each, out: Out) -> None:
    """Over the items of an array or a vector."""
    place, variable, type_ = node.place, node.variable, node.variable.type
    held = places.kept_container(body, places.container(body, node.items, out), out, place)
    counter = body.local("i", form.LONG)
    turn: Out = []
    if isinstance(held.of, Array):
        if not isinstance(type_, Reference):
            raise Refused(place, "a row as a pointer", "write auto &row")
        offset = binary("*", counter, form.Number(body.shapes.length(held.of)))
        if held.offset is not None:
            offset = binary("+", held.offset, offset)
        body.bindings[variable] = Container(held.object, held.items, None, held.of.of, offset, held.of.length)
    else:
        _bind_item(body, node, held, places.item(body, held, counter), turn)
    block(body, node.body, turn)
    loop = objects.counted(counter, places.size(held), turn, place)
    loop.user = True
    out.append(loop)


def _bind_item(body: Body, node: t.Each, held: Container, item: form.Item, turn: Out) -> None:
    variable, type_, place = node.variable, node.variable.type, node.place
    if isinstance(type_, Reference) and is_scalar(type_.to) and not type_.constant:
        body.bindings[variable] = item
        return
    if is_scalar(bare(type_)):
        if variable.lent:
            _boxed(body, variable, item, turn)
            return
        turn.append(form.Let(body.declared(variable, item.type), item, place))
        return
    local = body.declared(variable, item.type)
    if isinstance(type_, Reference):
        turn.append(form.Let(local, item, place))
    elif isinstance(type_, Object):
        turn.append(form.Make(local, place))
        objects.copy_into(body, local, item, type_.record, turn, place)
    else:
        turn.append(form.Make(local, place))
        assert isinstance(type_, Vector)
        vectors.copy(body, places.whole(body, local, type_), places.whole(body, item, type_), type_, turn, place)


def _switch(body: Body, node: t.Switch, out: Out) -> None:
    """A chain of conditions; what falls through to the next case stands in both."""
    place = node.place
    asked = body.kept(values.value(body, node.value, out), out, place)
    arms: list[tuple[list[int | None], Out]] = []
    for at, case in enumerate(node.cases):
        steps: list[t.Statement] = []
        for following in node.cases[at:]:
            steps += following.body.steps
            if any(_leaves(one) for one in following.body.steps):
                break
        arms.append((case.values, inside(body, t.Block(place, _until_break(steps)))))
    chain: Out = next((arm for values_, arm in arms if None in values_), Out())
    for values_, arm in reversed(arms):
        if None in values_:
            continue
        condition: form.Expr | None = None
        for value in values_:
            assert value is not None
            one = binary("==", asked, form.Number(value))
            condition = one if condition is None else binary("||", condition, one)
        assert condition is not None
        chain = [form.If(condition, arm, chain, place)]
    if any(isinstance(one, form.Break) for one in _jumps(chain)):
        _left_early(body, chain, out, place)
        return
    out += chain


def _jumps(chain: Out) -> list[form.Break | form.Continue]:
    """The jumps that belong to what stands round these statements."""
    found: list[form.Break | form.Continue] = []
    for one in chain:
        if isinstance(one, (form.Break, form.Continue)):
            found.append(one)
        elif isinstance(one, form.If):
            found += _jumps(one.yes) + _jumps(one.no)
    return found


def _left_early(body: Body, chain: Out, out: Out, place: Place) -> None:
    """A switch with a break within an if: a loop of one turn is what it leaves. A continue leaves it too, and then
    goes on."""
    once, goes_on = body.local("once", form.BOOL), body.local("goes_on", form.BOOL)
    continues = any(isinstance(one, form.Continue) for one in _jumps(chain))
    if continues:
        out.append(form.Let(goes_on, form.Truth(False), place))
        _redirect(chain, goes_on)
    out.append(form.Let(once, form.Truth(True), place))
    out.append(form.Loop([], once, [form.Put(once, "", form.Truth(False), place), *chain], [], place))
    if continues:
        out.append(form.If(goes_on, [form.Continue(place)], [], place))


def _redirect(chain: Out, goes_on: form.Local) -> None:
    """Each continue sets the local and breaks."""
    for at, one in enumerate(chain):
        if isinstance(one, form.Continue):
            chain[at : at + 1] = [form.Put(goes_on, "", form.Truth(True), one.place), form.Break(one.place)]
            return
        if isinstance(one, form.If):
            _redirect(one.yes, goes_on)
            _redirect(one.no, goes_on)


def _until_break(steps: list[t.Statement]) -> list[t.Statement]:
    """The statements up to the break that ends a case."""
    taken: list[t.Statement] = []
    for one in steps:
        if isinstance(one, t.Break):
            break
        if isinstance(one, t.Block) and any(isinstance(inner, t.Break) for inner in one.steps):
            taken.append(t.Block(one.place, _until_break(one.steps)))
            break
        taken.append(one)
        if _leaves(one):
            break
    return taken


def _leaves(one: t.Statement) -> bool:
    """Whether nothing behind the statement in its list is reached."""
    if isinstance(one, t.Block):
        return any(_leaves(inner) for inner in one.steps)
    return isinstance(one, (t.Break, t.Continue, t.Return))


def _return(body: Body, node: t.Return, out: Out) -> None:
    place, function = node.place, body.function
    if node.value is None or function is None:
        out.append(form.Return(None, place))
        return
    if function.name == "main" and function.owner is None:
        _exit(body, node.value, out)
        return
    if function.result == VOID:
        values.effect(body, node.value, out)
        out.append(form.Return(None, place))
        return
    result = function.result
    if isinstance(result, Reference) and not result.constant and is_scalar(result.to):
        calls.give(body, places.place(body, node.value, out), None, place, out)
        return
    if function.walks:
        cursors.give(body, node.value, out)
        return
    if isinstance(result, (Object, Vector)) and not values.is_fresh(node.value):
        value = (
            values.pointer_to(body, node.value, out) if _dies(node.value) else objects.copy_of(body, node.value, out)
        )
    elif isinstance(result, Reference) and not is_scalar(result.to):
        value = values.pointer_to(body, node.value, out)
    elif isinstance(result, (Object, Vector)) and isinstance(node.value, t.Copy) and _dies(node.value.operand):
        value = values.pointer_to(body, node.value.operand, out)
    else:
        value = values.literal(body, node.value, bare(result), out)
    held = body.shapes.of(result)
    if isinstance(value, form.Null) and isinstance(held, form.Pointer):
        value = form.Null(held)
    out.append(form.Return(value, place))


def _dies(node: t.Expr) -> bool:
    """Whether the object is a local of the function, so that nobody has it behind the return."""
    return isinstance(node, t.Name) and not node.variable.shared and isinstance(node.variable.type, (Object, Vector))


def _exit(body: Body, value: t.Expr, out: Out) -> None:
    code = values.value(body, value, out)
    if code != form.Number(0):
        out.append(form.Tell(EXIT_SITE, [code], value.place))
    out.append(form.Return(None, value.place))
