"""Not proved (README.md). Arithmetic with C++'s widths, over the one kind of number of the language, which has 64 bits
with sign.

A number of less than 64 bits is held as its own value; one of 64 bits without sign by its bits. What is undefined in
C++ isn't asked for: `int` is computed in 64 bits and not wrapped. So only unsigned numbers and conversions to less
bits need a mask.
"""

from .. import form
from .. import tree as t
from ..folding import wrapped
from ..types import BOOL, LONG, Int, Type
from .context import Body
from .naturals import ALL, bits_of

LEAST = -(1 << 63)
SIMPLE = ("+", "-", "*", "&", "|", "^")
COMPARISONS = ("==", "!=", "<", ">", "<=", ">=")


def number(value: int) -> form.Number:
    return form.Number(wrapped(value, LONG))


def binary(operator: str, left: form.Expr, right: form.Expr) -> form.Expr:
    """The operation, computed where both sides are numbers, and left out where it changes nothing."""
    if operator in COMPARISONS or operator in ("&&", "||"):
        return form.Binary(operator, left, right, form.BOOL)
    if isinstance(left, form.Number) and isinstance(right, form.Number) and operator in ("+", "-", "*"):
        computed = {"+": left.value + right.value, "-": left.value - right.value, "*": left.value * right.value}[
            operator
        ]
        return number(computed)
    if isinstance(right, form.Number) and (operator, right.value) in (("+", 0), ("-", 0), ("*", 1), ("/", 1)):
        return left
    if isinstance(left, form.Number) and (operator, left.value) in (("+", 0), ("*", 1)):
        return right
    return form.Binary(operator, left, right, form.LONG)


def cut(value: form.Expr, to: Int) -> form.Expr:
    """The value in the bits of the type."""
    if to.width == 64:
        return value
    if isinstance(value, form.Number):
        return number(wrapped(value.value, to))
    mask = form.Number((1 << to.width) - 1)
    if not to.signed:
        return binary("&", value, mask)
    half = form.Number(1 << (to.width - 1))
    return binary("-", binary("&", binary("+", value, half), mask), half)


def fits(of: Type, to: Int) -> bool:
    """Whether each value of one type is one of the other, or is held in the same bits."""
    if not isinstance(of, Int):
        return True
    if to.width == 64:
        return True
    return of.width < to.width and (to.signed or not of.signed) or of.width == to.width and of.signed == to.signed


def converted(value: form.Expr, of: Type, to: Type) -> form.Expr:
    """A number or truth value as one of another type."""
    if to == BOOL:
        if value.type == form.LONG:
            if isinstance(value, form.Number):
                return form.Truth(value.value != 0)
            return binary("!=", value, form.Number(0))
        if isinstance(value.type, form.Pointer):
            return binary("!=", value, form.Null(value.type))
        return value
    if isinstance(to, Int):
        if value.type == form.BOOL:
            if isinstance(value, form.Truth):
                return form.Number(int(value.value))
            return form.Choose(value, form.Number(1), form.Number(0), form.LONG)
        return value if fits(of, to) else cut(value, to)
    return value


def is_natural(body: Body, node: t.Expr) -> bool:
    """Whether the value is surely held as itself: from 0 to below 2^63."""
    return bits_of(node, lambda key: body.tables.bits.get(key, ALL)) < ALL


def is_unsigned_long(type_: Type) -> bool:
    return isinstance(type_, Int) and type_.width == 64 and not type_.signed


def compared(body: Body, operator: str, left: form.Expr, right: form.Expr, nodes: tuple[t.Expr, t.Expr]) -> form.Expr:
    """A comparison of two numbers of one type."""
    if not is_unsigned_long(nodes[0].type) or operator in ("==", "!="):
        return binary(operator, left, right)
    if is_natural(body, nodes[0]) and is_natural(body, nodes[1]):
        return binary(operator, left, right)
    if operator == ">" and isinstance(right, form.Number) and right.value == 0:
        return binary("!=", left, right)
    if operator == "<" and isinstance(left, form.Number) and left.value == 0:
        return binary("!=", left, right)
    if operator == ">=" and isinstance(right, form.Number) and right.value == 0:
        return form.Truth(True)
    least = form.Number(LEAST)
    return binary(operator, binary("^", left, least), binary("^", right, least))


def arithmetic(
    body: Body, operator: str, left: form.Expr, right: form.Expr, type_: Int, nodes: tuple[t.Expr, t.Expr]
) -> form.Expr:
    """An operation on two numbers of a type, in that type; of a shift the right one may have another."""
    if operator in ("<<", ">>"):
        return _shifted(body, operator, left, right, type_, nodes)
    if operator in ("/", "%"):
        natural = is_natural(body, nodes[0]) and is_natural(body, nodes[1])
        if is_unsigned_long(type_) and not natural:
            return form.Help("quotient_" if operator == "/" else "remainder_", (left, right))
        return binary(operator, left, right)
    made = binary(operator, left, right)
    if not type_.signed and operator in ("+", "-", "*"):
        return cut(made, type_)
    return made


def _shifted(
    body: Body, operator: str, left: form.Expr, right: form.Expr, type_: Int, nodes: tuple[t.Expr, t.Expr]
) -> form.Expr:
    constant = right.value if isinstance(right, form.Number) else None
    if operator == "<<":
        if constant is not None and 0 <= constant < 64:
            made = binary("*", left, number(1 << constant))
        else:
            made = binary("*", left, form.Help("power_", (right,)))
        return made if type_.signed else cut(made, type_)
    natural = is_natural(body, nodes[0])
    power: form.Expr = form.Help("power_", (right,))
    if constant is not None and 0 <= constant < 64:
        power = number(1 << constant)
    if natural and constant != 63:
        return binary("/", left, power)
    if is_unsigned_long(type_):
        return form.Help("shifted_", (left, right))
    return form.Help("down_", (left, power))


def negative(value: form.Expr, type_: Int) -> form.Expr:
    if isinstance(value, form.Number):
        return number(wrapped(-value.value, type_))
    made = form.Minus(value)
    return made if type_.signed else cut(made, type_)


def flipped(value: form.Expr, type_: Int) -> form.Expr:
    if type_.signed or type_.width == 64:
        return binary("-", form.Number(-1), value)
    return binary("-", form.Number((1 << type_.width) - 1), value)
