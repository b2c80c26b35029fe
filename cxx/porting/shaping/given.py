"""Not proved (README.md). Members that a function of the own object reads and the operation changes, given to it.

Asked before: the function only computes and doesn't come back to itself, and what it reads of what is changed are single members of its own
object. The call reads them where it stands, and nothing changes while the function computes; so it has the values that it had. Steps: the same.
"""

from .. import form
from . import facts
from .building import Shape, copied, fitted, replace

NAME = "members that are changed given to a function"
Written = set[facts.Place]
# The other function, and the members that it is given behind its arguments; none where it stays.
Made = dict[form.Method, tuple[form.Method, tuple[form.Field, ...]] | None]


def all_of(shape: Shape, method: form.Method, written: Written) -> None:
    """Of an operation; `written` is what is changed meanwhile, by all that the operations lead to."""
    if not method.pure:
        made: Made = {}
        replace(method.body, lambda expr: _asked(shape, expr, written, made))


def _asked(shape: Shape, expr: form.Expr, written: Written, made: Made) -> form.Expr | None:
    """The call with what its function is given; none where it stays as it is."""
    if not isinstance(expr, form.Apply) or not isinstance(expr.receiver, form.This):
        return None
    found = _other(shape, expr.method, written, made)
    if found is None:
        return None
    arguments = tuple(form.mapped(one, lambda part: _asked(shape, part, written, made)) for one in expr.arguments)
    return form.Apply(found[0], expr.receiver, (*arguments, *found[1]), expr.type)


def _other(
    shape: Shape, function: form.Method, written: Written, made: Made
) -> tuple[form.Method, tuple[form.Field, ...]] | None:
    if function not in made:
        made[function] = None
        if not facts.recursive(function):
            made[function] = _with_members(shape, function, written, made)
    return made[function]


def _with_members(
    shape: Shape, function: form.Method, written: Written, made: Made
) -> tuple[form.Method, tuple[form.Field, ...]] | None:
    body = copied(function.body)
    replace(body, lambda expr: _asked(shape, expr, written, made))
    read = [one for one in form.expressions(body) if isinstance(one, (form.Field, form.Item))]
    read = [one for one in read if facts.place_of(one) in written]
    members = list(
        dict.fromkeys(one for one in read if isinstance(one, form.Field) and isinstance(one.object, form.This))
    )
    others = [one for one in form.expressions(body) if isinstance(one, form.Apply)]
    if not members or len(members) < len(set(read)):
        return None
    if any(facts.effects(one.method.body).reads & written for one in others):
        return None
    used = shape.names(function.cls)
    stand = {one: form.Local(f"{one.name}_now", one.type) for one in members}
    replace(body, lambda expr: stand.get(expr) if isinstance(expr, form.Field) else None)
    again = shape.method(function.cls, f"{function.name}_of", function, function.place)
    again.pure, again.result, again.user = True, function.result, function.user
    again.body = body
    again.parameters = fitted(body, [*function.parameters, *stand.values()], used)
    shape.count(NAME)
    shape.tell(function.place, f"{function.origin or function.name} given what it reads and its caller changes")
    return again, tuple(members)
