"""Not proved (README.md). What is only gathered: a local that statements add to, keep the greatest or least in, or set to one value.

A loop that does more with a local of outside has its turns in an order, and no rewrite takes that away.
"""

from .. import form
from . import facts

ADDING = ("+", "-", "&", "|", "^")
BOTH_WAYS = ("+", "&", "|", "^", "max", "min", "||", "&&")
VALUE = "a value"


def gathers(body: list[form.Statement], local: form.Local) -> bool:
    """Whether the statements, each as often as may be, leave the same in the local in every order, as far as the local goes."""
    puts = [one for one in form.statements(body) if isinstance(one, form.Put) and one.target == local]
    guarded = [_guarded(one, local) for one in form.statements(body)]
    ways = [_way(one, local) for one in puts]
    # (an update under its guard is one that puts a value)
    under = [one for one in guarded if one is not None]
    if None in ways or ways.count(VALUE) != len(under):
        return False
    asked = sum(1 + facts.mentions(one.value, local) for one in puts) + len(under)
    uses = sum(1 for part in form.expressions(body) if part == local)
    return uses == asked and len({*ways, *under} - {VALUE}) == 1


def _way(one: form.Put, local: form.Local) -> str | None:
    """How an update gathers; None where it doesn't."""
    if one.operator in ADDING:
        return None if facts.mentions(one.value, local) else "+" if one.operator == "-" else one.operator
    if one.operator:
        return None
    match one.value:
        case form.Binary(operator, left, right, _) if operator in BOTH_WAYS and (left == local) != (right == local):
            return None if facts.mentions(right if left == local else left, local) else operator
        case form.Binary("-", left, right, _) if left == local:
            return None if facts.mentions(right, local) else "+"
        case form.Number() | form.Truth() | form.Null():
            return f"value {one.value}"
    return None if facts.mentions(one.value, local) else VALUE


def _guarded(one: form.Statement, local: form.Local) -> str | None:
    """`if (e > local) local = e`."""
    if not isinstance(one, form.If) or one.no or len(one.yes) != 1 or not isinstance(one.condition, form.Binary):
        return None
    put, condition = one.yes[0], one.condition
    if not isinstance(put, form.Put) or put.target != local or put.operator:
        return None
    if {condition.left, condition.right} != {local, put.value}:
        return None
    greater = condition.operator in (">", ">=")
    if not greater and condition.operator not in ("<", "<="):
        return None
    return "max" if greater == (condition.left == put.value) else "min"
