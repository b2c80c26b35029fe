"""Not proved (README.md). Expressions: a value without effects, and before it the statements that do what the
expression does.

The order is C++17's; where that is open, from left to right: of an assignment the right side first, of a call the
receiver and the arguments from the left. A value that a later operand may change is kept in a local.
"""

from .. import form
from .. import tree as t
from ..effects import assigned
from ..places import Place
from ..refusals import Refused
from ..sites import EXIT_SITE, Stop
from ..types import BOOL, STREAM, STRING, VOID, Array, Int, Object, Pointer, Reference, Type, Vector, bare, is_scalar
from . import calls, cursors, objects, places, vectors
from .context import Body, Container, Out

from .numbers import (
    COMPARISONS, SIMPLE, arithmetic, binary, compared, converted, flipped, is_unsigned_long, negative, number,
)  # fmt: skip


# Of a print: text, or a value with its way.
Part = str | tuple[str, t.Expr]

ORDER = ("a pointer to an object in an order or with arithmetic", "compare numbers that the objects have")
LETTERS = (
    "letters of an array or a std::string where a literal string is wanted",
    "let the parameter be an array, or const std::string &",
)
NEW_OBJECTS = ("a new array of objects", "write a vector, or an array of pointers")


def value(body: Body, node: t.Expr, out: Out) -> form.Expr:
    """The value; of an object, an array or a vector a pointer to it."""
    type_ = bare(node.type)
    if (isinstance(type_, Pointer) or type_ == STRING) and cursors.is_walking(body, node):
        return cursors.read(body, node, type_, out)
    match node:
        case t.Number():
            return number(node.value)
        case t.Truth():
            return form.Truth(node.value)
        case t.Null():
            return _null(body, type_)
        case t.Text():
            return form.Number(body.tables.sites.string(node.value))
        case t.This():
            return body.this
        case t.Name() | t.Dot() | t.Item() | t.Deref():
            return _read(body, node, type_, out)
        case t.AddressOf():
            return _address(body, node, out)
        case t.Unary():
            return _unary(body, node, out)
        case t.Binary():
            return _binary(body, node, out)
        case t.Conditional():
            return _conditional(body, node, out)
        case t.Assign():
            return assign(body, node, out, True)
        case t.Convert():
            return _converted(body, node, out)
        case t.Narrow():
            return _narrowed(body, node, out)
        case t.Call():
            return calls.value_of(body, node, out)
        case t.VectorCall():
            return vectors.value_of(body, node, out)
        case t.New() | t.Construct() | t.Aggregate() | t.Filled() | t.Copy():
            return objects.made(body, node, out)
        case t.Built():
            return _built(body, node, out)
    effect(body, node, out)
    return form.Number(0)


def _null(body: Body, type_: Type) -> form.Expr:
    """No object, where the type is a pointer to one; else the number of nothing."""
    held = body.shapes.of(type_)
    return form.Null(held) if isinstance(held, form.Pointer) else form.Number(0)


def literal(body: Body, node: t.Expr, type_: Type, out: Out) -> form.Expr:
    """The value for what has the type: a literal string is a number, and no array of letters."""
    made = value(body, node, out)
    if type_ == STRING and isinstance(made.type, form.Pointer) and not isinstance(made, form.Null):
        raise Refused(node.place, *LETTERS)
    return made


def several(body: Body, nodes: list[t.Expr], out: Out, is_open: bool = False) -> list[form.Expr]:
    """The values of expressions that are evaluated from left to right, or `is_open` says that C++ leaves it open."""
    if is_open and body.tables.backwards:
        return _ordered(body, [(node, False) for node in reversed(nodes)], out)[::-1]
    return _ordered(body, [(node, False) for node in nodes], out)


def note_order(body: Body, nodes: list[t.Expr], place: Place) -> None:
    """Keeps the place of a call where the order of its arguments, which C++ leaves open, may be seen."""
    changing = [one for one in nodes if body.tables.effects.has_effect(one)]
    names = {variable for one in changing for variable in assigned(one)}
    if changing and sum(not _is_still(one, names) for one in nodes) > 1:
        body.tables.sites.open_orders.append(place)


def _is_still(node: t.Expr, changed: set[t.Variable]) -> bool:
    """Whether the value is surely the same whenever it is computed, where these variables are changed by their names."""
    if isinstance(node, t.Name):
        variable = node.variable
        kept = not (variable.shared or variable.lent or isinstance(variable.type, Reference))
        return kept and is_scalar(variable.type) and variable not in changed
    if isinstance(node, t.Convert):
        return _is_still(node.operand, changed)
    return isinstance(node, (t.Number, t.Truth, t.Null, t.Text, t.This))


def receiver_and(body: Body, receiver: t.Expr, nodes: list[t.Expr], out: Out) -> tuple[form.Expr, list[form.Expr]]:
    """The pointer to an object, and then values."""
    first, *others = _ordered(body, [(receiver, True)] + [(node, False) for node in nodes], out)
    return first, others


def _ordered(body: Body, nodes: list[tuple[t.Expr, bool]], out: Out) -> list[form.Expr]:
    made = []
    for at, (node, pointed) in enumerate(nodes):
        one = pointer_to(body, node, out) if pointed else value(body, node, out)
        made.append(keep_before(body, one, [other for other, _ in nodes[at + 1 :]], out, node.place))
    return made


def keep_before(body: Body, one: form.Expr, later: list[t.Expr], out: Out, place: Place) -> form.Expr:
    """The value, kept where the later expressions may change it."""
    changing = [other for other in later if body.tables.effects.has_effect(other)]
    if not changing:
        return one
    if isinstance(one, form.Local):
        names = {bound.name for other in changing for bound in _bound(body, other)}
        if one.name not in names:
            return one
    return body.kept(one, out, place)


def _bound(body: Body, node: t.Expr) -> list[form.Local]:
    found = [body.bindings.get(variable) for variable in assigned(node)]
    return [one for one in found if isinstance(one, form.Local)]


def _read(body: Body, node: t.Name | t.Dot | t.Item | t.Deref, type_: Type, out: Out) -> form.Expr:
    if isinstance(type_, Array) or isinstance(type_, Vector):
        return _whole(body, node, out)
    if isinstance(type_, Object) and isinstance(node, t.Deref):
        return value(body, node.pointer, out)
    return places.place(body, node, out)


def _whole(body: Body, node: t.Expr, out: Out) -> form.Expr:
    """An array or vector as a value: a pointer to the object that it is."""
    if isinstance(node, t.Deref) and not isinstance(node.pointer, t.AddressOf):
        return value(body, node.pointer, out)
    if isinstance(node, t.Item) and isinstance(node.type, Vector):
        return places.place(body, node, out)
    if isinstance(node, (t.Name, t.Dot)):
        bound = body.bindings.get(node.variable) if isinstance(node, t.Name) else None
        if isinstance(bound, form.Local):
            return bound
        if not isinstance(bound, Container):
            return places.place(body, node, out)
    held = places.container(body, node, out)
    if held.offset is not None or held.items != "at":
        raise Refused(node.place, "a row of an array as a value", "pass the whole array, and the row's number")
    return held.object


def pointer_to(body: Body, node: t.Expr, out: Out) -> form.Expr:
    """A pointer to the object that the expression names or makes."""
    if isinstance(node, t.Deref):
        return value(body, node.pointer, out)
    if isinstance(node, t.Assign) and isinstance(bare(node.type), Object):
        assign(body, node, out, False)
        return pointer_to(body, node.target, out)
    return value(body, node, out)


def is_fresh(node: t.Expr) -> bool:
    """Whether the expression makes the object that it gives, so that nobody else has it."""
    if isinstance(node, (t.Construct, t.Aggregate, t.Filled, t.Copy)):
        return True
    if isinstance(node, t.Conditional):
        return is_fresh(node.yes) and is_fresh(node.no)
    return isinstance(node, t.Call) and isinstance(node.function.result, (Object, Vector))


def _address(body: Body, node: t.AddressOf, out: Out) -> form.Expr:
    operand = node.operand
    if isinstance(bare(operand.type), (Object, Vector)):
        return pointer_to(body, operand, out)
    if isinstance(operand, t.Item) and isinstance(operand.index, t.Number) and operand.index.value == 0:
        return value(body, operand.items, out)
    raise Refused(node.place, "the address of a number or pointer", "write a reference, or an object that has it")


def _unary(body: Body, node: t.Unary, out: Out) -> form.Expr:
    operand = value(body, node.operand, out)
    if node.operator == "!":
        return form.negated(converted(operand, node.operand.type, BOOL))
    assert isinstance(node.type, Int)
    operand = converted(operand, node.operand.type, node.type)
    return negative(operand, node.type) if node.operator == "-" else flipped(operand, node.type)


def _binary(body: Body, node: t.Binary, out: Out) -> form.Expr:
    operator = node.operator
    if operator == ",":
        effect(body, node.left, out)
        return value(body, node.right, out)
    if operator in ("&&", "||"):
        return _logical(body, node, out)
    if cursors.is_walking(body, node.left) or cursors.is_walking(body, node.right):
        return cursors.compared(body, node, out)
    for side in (node.left, node.right):
        if isinstance(bare(side.type), Pointer) and operator not in ("==", "!="):
            told = ORDER if operator in COMPARISONS else ("arithmetic on a pointer", "write an array and an index")
            raise Refused(node.place, *told)
    left, right = several(body, [node.left, node.right], out)
    if operator in COMPARISONS:
        if isinstance(left.type, form.Pointer) or isinstance(right.type, form.Pointer):
            return _pointers(node, left, right)
        if left.type == right.type == form.BOOL and operator in ("==", "!="):
            return binary(operator, left, right)
        left, right = (converted(one, BOOL, Int(64, True)) for one in (left, right))
        return compared(body, operator, left, right, (node.left, node.right))
    assert isinstance(node.type, Int)
    left, right = (converted(one, BOOL, Int(64, True)) for one in (left, right))
    return arithmetic(body, operator, left, right, node.type, (node.left, node.right))


def _pointers(node: t.Binary, left: form.Expr, right: form.Expr) -> form.Expr:
    if node.operator not in ("==", "!="):
        raise Refused(node.place, *ORDER)
    return binary(node.operator, left, right)


def _logical(body: Body, node: t.Binary, out: Out) -> form.Expr:
    left = condition(body, node.left, out)
    more: Out = []
    right = condition(body, node.right, more)
    if not more:
        return binary(node.operator, left, right)
    result = body.local("t_", form.BOOL)
    out.append(form.Let(result, left, node.place))
    more.append(form.Put(result, "", right, node.place))
    yes, no = (more, []) if node.operator == "&&" else ([], more)
    out.append(form.If(result, yes, no, node.place))
    return result


def condition(body: Body, node: t.Expr, out: Out) -> form.Expr:
    return converted(value(body, node, out), node.type, BOOL)


def _conditional(body: Body, node: t.Conditional, out: Out) -> form.Expr:
    asked = condition(body, node.condition, out)
    yes_out, no_out = Out(), Out()
    if node.type == VOID:
        effect(body, node.yes, yes_out)
        effect(body, node.no, no_out)
        out.append(form.If(asked, yes_out, no_out, node.place))
        return form.Number(0)
    yes, no = _branch(body, node, node.yes, yes_out), _branch(body, node, node.no, no_out)
    if not yes_out and not no_out and is_safe(yes) and is_safe(no):
        return form.Choose(asked, yes, no, body.shapes.of(node.type))
    result = body.local("t_", body.shapes.of(node.type))
    out.append(form.Let(result, None, node.place))
    yes_out.append(form.Put(result, "", yes, node.place))
    no_out.append(form.Put(result, "", no, node.place))
    out.append(form.If(asked, yes_out, no_out, node.place))
    return result


def _branch(body: Body, node: t.Conditional, branch: t.Expr, out: Out) -> form.Expr:
    """One of two values; where only one of two objects is made anew, the other is copied."""
    if isinstance(node.type, (Object, Vector)) and not is_fresh(branch) and (is_fresh(node.yes) or is_fresh(node.no)):
        return objects.copy_of(body, branch, out)
    made = value(body, branch, out)
    return (
        form.Null(type_)
        if isinstance(made, form.Null) and isinstance(type_ := body.shapes.of(node.type), form.Pointer)
        else made
    )


def is_safe(expr: form.Expr) -> bool:
    """Whether the value can be computed without a trap, whatever the objects are."""
    for one in form.within(expr):
        match one:
            case form.Field(form.This() | form.Root(), _, _):
                continue
            case form.Field() | form.Item() | form.Apply() | form.Help():
                return False
            case form.Binary("/" | "%", _, right, _) if not isinstance(right, form.Number) or right.value == 0:
                return False
    return True


def _converted(body: Body, node: t.Convert, out: Out) -> form.Expr:
    operand = value(body, node.operand, out)
    if isinstance(node.type, Pointer) and isinstance(operand, form.Null):
        held = body.shapes.of(node.type)
        assert isinstance(held, form.Pointer)
        return form.Null(held)
    if node.type == STRING and isinstance(operand, form.Null):
        return form.Number(0)
    return converted(operand, bare(node.operand.type), node.type)


def _narrowed(body: Body, node: t.Narrow, out: Out) -> form.Expr:
    """The pointer where the object is of the class or one that is derived from it, else null."""
    assert isinstance(node.type, Pointer) and isinstance(node.type.to, Object)
    given = body.kept(value(body, node.operand, out), out, node.place)
    kinds = [body.shapes.kinds[one] for one in node.type.to.record.family() if one in body.shapes.kinds]
    if not kinds:
        return given
    kind = form.Field(given, "kind_", form.LONG)
    held = body.shapes.of(node.type)
    assert isinstance(held, form.Pointer)
    asked = binary("==", kind, form.Number(kinds[0]))
    for other in kinds[1:]:
        asked = binary("||", asked, binary("==", kind, form.Number(other)))
    result = body.local("t_", held)
    out.append(form.Let(result, form.Null(held), node.place))
    there = binary("&&", binary("!=", given, form.Null(held)), asked)
    out.append(form.If(there, [form.Put(result, "", given, node.place)], [], node.place))
    return result


def _built(body: Body, node: t.Built, out: Out) -> form.Expr:
    made = several(body, node.arguments, out)
    if node.name == "abs":
        return form.Help("abs_", (made[0],))
    if is_unsigned_long(node.type):
        chosen = compared(
            body, "<" if node.name == "min" else ">", made[0], made[1], (node.arguments[0], node.arguments[1])
        )
        if not (isinstance(chosen, form.Binary) and chosen.left is made[0]):
            return form.Choose(chosen, made[0], made[1], form.LONG)
    return form.Binary(node.name, made[0], made[1], form.LONG)


# Effects --------------------------------------------------------------------------------------------------------------


def effect(body: Body, node: t.Expr, out: Out) -> None:
    """What the expression does, without its value."""
    match node:
        case t.Assign():
            assign(body, node, out, False)
        case t.Call():
            calls.effect_of(body, node, out)
        case t.VectorCall():
            vectors.effect_of(body, node, out)
        case t.Print():
            _print(body, node, out)
        case t.Swap():
            _swap(body, node, out)
        case t.Stop():
            _stop(body, node, out)
        case t.Ignored():
            for part in node.parts:
                effect(body, part, out)
        case t.Binary(operator=","):
            effect(body, node.left, out)
            effect(body, node.right, out)
        case t.Binary(operator="&&" | "||"):
            asked = condition(body, node.left, out)
            more: Out = []
            effect(body, node.right, more)
            if more:
                yes, no = (more, Out()) if node.operator == "&&" else (Out(), more)
                out.append(form.If(asked, yes, no, node.place))
        case t.Conditional():
            asked = condition(body, node.condition, out)
            yes, no = Out(), Out()
            effect(body, node.yes, yes)
            effect(body, node.no, no)
            if yes or no:
                out.append(form.If(asked, yes, no, node.place))
        case t.Number() | t.Truth() | t.Null() | t.Text() | t.This():
            pass
        case _:
            if body.tables.effects.has_effect(node) and node.type not in (VOID, STREAM):
                value(body, node, out)


def assign(body: Body, node: t.Assign, out: Out, wanted: bool) -> form.Expr:
    """An assignment; its value, where it is wanted, is what the target has then, or of a postfix operator had
    before."""
    type_ = bare(node.target.type)
    if (isinstance(type_, Pointer) or type_ == STRING) and cursors.is_walking(body, node.target):
        cursors.move(body, node, out)
        return form.Number(0)
    if isinstance(type_, Pointer) and node.operator:
        raise Refused(node.place, "arithmetic on a pointer", "write an array and an index")
    if isinstance(type_, (Object, Vector)):
        objects.assign(body, node, out)
        return value(body, node.target, out) if wanted else form.Number(0)
    if isinstance(node.target, t.Conditional):
        return _assign_one_of(body, node, node.target, out, wanted)
    given = literal(body, node.value, type_, out)
    if body.tables.effects.has_effect(node.target):
        given = body.kept(given, out, node.place)
    target = places.place(body, node.target, out)
    if wanted or node.operator:
        if _changes_itself(node):
            target = places.kept(body, target, out, node.place)
    old: form.Expr | None = None
    if node.after and wanted:
        old = body.temporary(target.type)
        out.append(form.Let(old, target, node.place))
    if not node.operator:
        given = _fitting(body, given, target.type)
        if old is not None:
            out.append(form.Put(target, "", given, node.place))
            return old
        if wanted:
            given = given if isinstance(target, form.Local) else body.kept(given, out, node.place)
        out.append(form.Put(target, "", given, node.place))
        return given if wanted and not isinstance(target, form.Local) else target
    put(body, node, target, given, out)
    return old if old is not None else target


def _assign_one_of(body: Body, node: t.Assign, target: t.Conditional, out: Out, wanted: bool) -> form.Expr:
    """`(condition ? one : other) = value`."""
    if wanted or body.tables.effects.has_effect(node.value):
        raise Refused(node.place, "a choice between two places", "write an if with two assignments")
    asked = condition(body, target.condition, out)
    yes, no = Out(), Out()
    for place, branch in ((target.yes, yes), (target.no, no)):
        assign(body, t.Assign(place.type, node.place, place, node.operator, node.value, node.within), branch, False)
    out.append(form.If(asked, yes, no, node.place))
    return form.Number(0)


def _changes_itself(node: t.Assign) -> bool:
    """Whether the assignment may change what led to its target."""
    return isinstance(node.target, (t.Item, t.Dot, t.Deref, t.Call))


def _fitting(body: Body, given: form.Expr, type_: form.Type) -> form.Expr:
    if isinstance(given, form.Null) and isinstance(type_, form.Pointer):
        return form.Null(type_)
    return given


def put(body: Body, node: t.Assign, target: form.Target, given: form.Expr, out: Out) -> None:
    """`target op= given`."""
    type_, within = bare(node.target.type), node.within
    if not isinstance(within, Int):
        raise Refused(node.place, f"{node.operator}= of what isn't a number", "write an assignment")
    given = converted(given, BOOL, within)
    direct = (
        isinstance(type_, Int) and type_ == within and (type_.signed or type_.width == 64 or node.operator in "&|^")
    )
    if direct and node.operator in SIMPLE:
        if node.operator in ("+", "-") and isinstance(given, form.Choose) and given.no == form.Number(0):
            added = form.Put(target, node.operator, given.yes, node.place)
            out.append(form.If(given.condition, [added], [], node.place))
            return
        out.append(form.Put(target, node.operator, given, node.place))
        return
    old = converted(target, type_, within)
    nodes = (t.Convert(within, node.place, node.target), node.value)
    made = arithmetic(body, node.operator, old, given, within, nodes)
    if isinstance(type_, Int) and type_ != within:
        made = converted(made, within, type_) if not (isinstance(type_, Int) and type_.width == 64) else made
    elif type_ == BOOL:
        made = converted(made, within, BOOL)
    out.append(form.Put(target, "", made, node.place))


def _print(body: Body, node: t.Print, out: Out) -> None:
    nodes = [part[1] for part in node.parts if not isinstance(part, str)]
    is_open = all(isinstance(part, str) or part[0].startswith("%") for part in node.parts)
    if is_open:
        note_order(body, nodes, node.place)
    if any(_is_letters(one) for one in nodes):
        _print_letters(body, node, nodes, out)
        return
    made = several(body, nodes, out, is_open)
    if node.standard:
        _tell(body, node.parts, made, out, node.place)


def _tell(body: Body, parts: list[Part], made: list[form.Expr], out: Out, place: Place) -> None:
    """A print of parts whose values are computed already."""
    ways: list[str | tuple[str]] = []
    shown: list[form.Expr] = []
    left = iter(made)
    for part in parts:
        if isinstance(part, str):
            ways.append(part)
            continue
        one = next(left)
        if part[0] == "%s" and isinstance(part[1], t.Text):
            ways.append(part[1].value)
            continue
        ways.append((part[0],))
        shown.append(one)
    out.append(form.Tell(body.tables.sites.add(ways), shown, place))


def _is_letters(node: t.Expr) -> bool:
    """Whether the value is an array or a vector of letters, and no literal."""
    return isinstance(bare(node.type), (Array, Pointer, Vector))


def _print_letters(body: Body, node: t.Print, nodes: list[t.Expr], out: Out) -> None:
    """A print of which a part is an array or a vector of letters: those up to a zero, or all, one by one."""
    made: list[form.Expr | Container] = []
    for at, one in enumerate(nodes):
        if _is_letters(one):
            made.append(places.kept_container(body, places.container(body, one, out), out, node.place))
        else:
            made.append(keep_before(body, value(body, one, out), nodes[at + 1 :], out, node.place))
    if not node.standard:
        return
    parts: list[Part] = []
    values_of: list[form.Expr] = []
    for part in node.parts:
        one_made = made.pop(0) if not isinstance(part, str) else None
        if isinstance(one_made, Container):
            if parts:
                _tell(body, parts, values_of, out, node.place)
            _print_each(body, part[0], one_made, out, node.place)
            parts, values_of = [], []
            continue
        parts.append(part)
        if one_made is not None:
            values_of.append(one_made)
    if parts:
        _tell(body, parts, values_of, out, node.place)


def _print_each(body: Body, way: str, held: Container, out: Out, place: Place) -> None:
    """Letters one by one; where what is written depends on their number, they are gathered first."""
    sites, nothing = body.tables.sites, form.Number(0)
    plain = way == "%s"
    if not plain:
        out.append(form.Tell(sites.add([("!open",)]), [nothing], place))
    counter = body.local("k", form.LONG)
    letter = places.item(body, held, counter)
    turn: Out = [form.Tell(sites.add([("c",)]), [letter], place)]
    step = form.Put(counter, "+", form.Number(1), place)
    counted = held.count is not None
    asked = binary("<", counter, places.size(held)) if counted else binary("!=", letter, form.Number(0))
    out.append(form.Count(counter, nothing, asked, step, turn, place))
    if not plain:
        out.append(form.Tell(sites.add([("!close" + way.removeprefix("s"),)]), [nothing], place))


def _swap(body: Body, node: t.Swap, out: Out) -> None:
    type_ = bare(node.left.type)
    if not is_scalar(type_):
        objects.swap(body, node, out)
        return
    left = places.kept(body, places.place(body, node.left, out), out, node.place)
    right = places.kept(body, places.place(body, node.right, out), out, node.place)
    old = body.temporary(left.type, "old")
    out.append(form.Let(old, left, node.place))
    out.append(form.Put(left, "", right, node.place))
    out.append(form.Put(right, "", old, node.place))


def _stop(body: Body, node: t.Stop, out: Out) -> None:
    if node.code is not None:
        out.append(form.Tell(EXIT_SITE, [value(body, node.code, out)], node.place))
    body.tables.sites.stops.append(Stop(node.place, node.text, node.code is None))
    out.append(form.Fail(len(body.tables.sites.stops) - 1, node.place))
