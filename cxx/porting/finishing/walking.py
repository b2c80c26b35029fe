"""Not proved (README.md). Changes of all expressions of statements."""

from typing import Callable

from .. import form

Change = Callable[[form.Expr], form.Expr]


def map_body(body: list[form.Statement], change: Change) -> None:
    """Changes every expression of the statements and of those within."""
    for one in body:
        map_statement(one, change)
        for block in form.blocks(one):
            map_body(block, change)


def map_statement(one: form.Statement, change: Change) -> None:
    """Changes the expressions of the statement itself; what it declares stays."""
    match one:
        case form.Let():
            one.value = change(one.value) if one.value is not None else None
        case form.Put():
            target = change(one.target)
            assert isinstance(target, (form.Local, form.Field, form.Item))
            one.target, one.value = target, change(one.value)
        case form.Do():
            one.receiver, one.arguments = change(one.receiver), [change(argument) for argument in one.arguments]
        case form.Tell():
            one.values = [change(value) for value in one.values]
        case form.If() | form.Loop():
            one.condition = change(one.condition)
        case form.Count():
            one.first, one.condition = change(one.first), change(one.condition)
        case form.Return():
            one.value = change(one.value) if one.value is not None else None
