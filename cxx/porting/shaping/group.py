"""Not proved (README.md). Statements on another object as one operation of it.

Asked before: statements in a row write fields of one object alone, which is named by an expression that none of them changes, and use
only locals and that object's fields beside; one of them certainly looks through the pointer, and none asks whether it is null. They run as they
are, in their order, in an operation of that object; a null pointer ends the run as before. Steps: a call more.
"""

from .. import form
from . import facts
from .building import ROOT, Shape, copied, fitted, replace, this


NAME = "statements on another object to one operation of it"


def all_of(shape: Shape, method: form.Method) -> None:
    if not method.pure:
        _block(shape, method, method.body)


def _block(shape: Shape, method: form.Method, body: list[form.Statement]) -> None:
    at = 0
    while at < len(body):
        owner = _owner(body[at], method)
        if owner is None:
            for block in form.blocks(body[at]):
                if not (isinstance(body[at], form.Count) and block and block[0] is body[at].step):  # type: ignore[union-attr]
                    _block(shape, method, block)
            at += 1
            continue
        end = at + 1
        while end < len(body) and (_owner(body[end], method) == owner or _let_for(body[end], owner)):
            end += 1
        while isinstance(body[end - 1], form.Let):
            end -= 1
        run = body[at:end]
        left = set(facts.used(body[end:])) & facts.declared(run)
        sure = any(facts.follows(one, owner) for one in run)
        if sure and not left and _asks_itself(run, owner) and not _writes_own(run, owner):
            body[at:end] = [_grouped(shape, method, run, owner)]
            at += 1
            continue
        for one in run:
            for block in form.blocks(one):
                _block(shape, method, block)
        at = end


def _let_for(one: form.Statement, owner: form.Expr) -> bool:
    return isinstance(one, form.Let) and one.value is not None and _only_of(one.value, owner)


def _asks_itself(run: list[form.Statement], owner: form.Expr) -> bool:
    """Whether the run reads the object, so that small writes alone wouldn't do."""
    for one in form.statements(run):
        exprs = form.own_expressions(one)
        if isinstance(one, form.Put):
            exprs = [one.value, *(part for part in form.parts(one.target) if part != owner)]
        if any(
            isinstance(part, (form.Field, form.Item)) and part.object == owner
            for expr in exprs
            for part in form.within(expr)
        ):
            return True
    return False


def _owner(one: form.Statement, method: form.Method) -> form.Expr | None:
    """The one object, not its own, that the statement writes and all it uses is of."""
    owners: set[form.Expr] = set()
    for part in form.statements([one]):
        if isinstance(part, form.Put) and isinstance(part.target, (form.Field, form.Item)):
            owners.add(part.target.object)
        elif isinstance(part, (form.Do, form.Make, form.Tell, form.Fail, form.Loop, form.Count)):
            return None
        elif isinstance(part, form.Put) and part.target not in facts.declared([one]):
            return None
    if len(owners) != 1:
        return None
    owner = owners.pop()
    own_root = isinstance(owner, form.Root) and method.cls.name == "Program"
    if isinstance(owner, form.This) or own_root or not _named(owner):
        return None
    exprs = [expr for part in form.statements([one]) for expr in form.own_expressions(part)]
    return owner if all(_only_of(expr, owner) for expr in exprs) else None


def _named(owner: form.Expr) -> bool:
    """Whether the object is a local, or a field of this or of the program."""
    match owner:
        case form.Local() | form.Root():
            return True
        case form.Field(inner, _, _):
            return isinstance(inner, (form.This, form.Root))
    return False


def _only_of(expr: form.Expr, owner: form.Expr) -> bool:
    """Whether the expression uses locals, fields of the object and single fields of this alone, and the object for nothing else."""
    if _own(expr) and expr != owner:
        return True
    if isinstance(expr, (form.Field, form.Item)) and expr.object == owner:
        return not isinstance(expr, form.Item) or _only_of(expr.index, owner)
    if isinstance(expr, (form.This, form.Root, form.Apply)) or expr == owner:
        return False
    return all(_only_of(part, owner) for part in form.parts(expr))


def _own(expr: form.Expr) -> bool:
    return (
        isinstance(expr, form.Field) and isinstance(expr.object, form.This) and not isinstance(expr.type, form.Pointer)
    )


def _writes_own(run: list[form.Statement], owner: form.Expr) -> bool:
    """Whether a field that is written may be one of this that is read, or the one that names the object."""
    written = {
        facts.place_of(one.target)
        for one in form.statements(run)
        if isinstance(one, form.Put) and not isinstance(one.target, form.Local)
    }
    if isinstance(owner, form.Field) and facts.place_of(owner) in written:
        return True
    return any(_own(part) and facts.place_of(part) in written for part in form.expressions(run))  # type: ignore[arg-type]


def _grouped(shape: Shape, method: form.Method, run: list[form.Statement], owner: form.Expr) -> form.Do:
    assert isinstance(owner.type, form.Pointer)
    cls = shape.program.classes[owner.type.cls]
    made = shape.method(cls, f"{method.name}_part", method, run[0].place)
    made.origin = f"a part of {method.origin.removeprefix('a part of ')}"
    made.body = copied(run)
    handed: dict[form.Local, form.Expr] = {}

    def change(expr: form.Expr) -> form.Expr | None:
        if expr == owner:
            return this(cls)
        if _own(expr):
            local = form.Local(f"given_{expr.name}", expr.type)  # type: ignore[union-attr]
            handed[local] = expr
            return local
        return None

    replace(made.body, change)
    parameters = facts.free(made.body)
    given = [handed.get(one, one) for one in parameters]
    made.parameters = fitted(made.body, parameters, cls.names())
    shape.count(NAME)
    shape.tell(run[0].place, f"what is done to one {cls.origin or cls.name} made one operation of it")
    return form.Do(made, owner, list(given), None, run[0].place)


__all__ = ["all_of", "ROOT"]
