"""Not proved (README.md). Another program that is the same, and can be changed without that one.

Expressions are shared, but for those that call a method: that is another one too.
"""

from dataclasses import replace

from .. import form
from .building import Shape, copied

Methods = dict[form.Method, form.Method]


def duplicate(shape: Shape) -> Shape:
    methods: Methods = {}
    classes: dict[str, form.Class] = {}
    for name, cls in shape.program.classes.items():
        again = form.Class(cls.name, [replace(slot) for slot in cls.slots], [], cls.place, cls.origin)
        for one in cls.methods:
            made = form.Method(one.name, again, one.result, list(one.parameters), [], one.pure, one.place, one.origin)
            made.user = one.user
            methods[one] = made
            again.methods.append(made)
        classes[name] = again
    for one, made in methods.items():
        made.body = copied(one.body)
        _block(made.body, methods)
    program = form.Program(classes, methods[shape.program.main])
    loops = {methods[one]: place for one, place in shape.loops.items() if one in methods}
    return Shape(program, list(shape.told), loops, dict(shape.done))


def _block(body: list[form.Statement], methods: Methods) -> None:
    for one in body:
        match one:
            case form.Let():
                one.value = _expr(one.value, methods) if one.value is not None else None
            case form.Put():
                _put(one, methods)
            case form.Do():
                one.method = methods.get(one.method, one.method)
                one.receiver = _expr(one.receiver, methods)
                one.arguments = [_expr(value, methods) for value in one.arguments]
            case form.Tell():
                one.values = [_expr(value, methods) for value in one.values]
            case form.If():
                one.condition = _expr(one.condition, methods)
                _block(one.yes, methods)
                _block(one.no, methods)
            case form.Loop():
                one.condition = _expr(one.condition, methods)
                for block in (one.test, one.body, one.step):
                    _block(block, methods)
            case form.Count():
                one.first, one.condition = _expr(one.first, methods), _expr(one.condition, methods)
                _put(one.step, methods)
                _block(one.body, methods)
            case form.Return():
                one.value = _expr(one.value, methods) if one.value is not None else None


def _put(one: form.Put, methods: Methods) -> None:
    target = _expr(one.target, methods)
    assert isinstance(target, (form.Local, form.Field, form.Item))
    one.target, one.value = target, _expr(one.value, methods)


def _expr(expr: form.Expr, methods: Methods) -> form.Expr:
    """The expression with the methods of the other program; the same one where it calls none."""
    if isinstance(expr, form.Apply):
        given = tuple([_expr(one, methods) for one in expr.arguments])
        return form.Apply(methods.get(expr.method, expr.method), _expr(expr.receiver, methods), given, expr.type)
    old = form.parts(expr)
    if not old:
        return expr
    made = tuple([_expr(part, methods) for part in old])
    return expr if all(a is b for a, b in zip(old, made)) else form.with_parts(expr, made)
