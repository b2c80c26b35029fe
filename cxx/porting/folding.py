"""Not proved (README.md). Constants within expressions: what the text alone decides is a number."""

from typing import Callable

from . import tree as t
from .types import BOOL, STRING, Int, Pointer, Type

COMPARED: dict[str, Callable[[int, int], bool]] = {
    "==": lambda a, b: a == b, "!=": lambda a, b: a != b, "<": lambda a, b: a < b, ">": lambda a, b: a > b,
    "<=": lambda a, b: a <= b, ">=": lambda a, b: a >= b,
}  # fmt: skip


def wrapped(value: int, type_: Int) -> int:
    """The value in so many bits."""
    value %= 1 << type_.width
    return value - (1 << type_.width) if type_.signed and value >> (type_.width - 1) else value


def computed(operator: str, a: int, b: int) -> int | None:
    """The value before it is wrapped; None where the program would be wrong."""
    if operator in ("/", "%"):
        if b == 0:
            return None
        quotient = abs(a) // abs(b) * (1 if (a < 0) == (b < 0) else -1)
        return quotient if operator == "/" else a - quotient * b
    if operator in ("<<", ">>"):
        if not 0 <= b < 64:
            return None
        return a << b if operator == "<<" else a >> b
    table = {"+": a + b, "-": a - b, "*": a * b, "&": a & b, "|": a | b, "^": a ^ b}
    return table.get(operator)


def _value(node: t.Expr) -> int | None:
    if isinstance(node, t.Number):
        return node.value
    return int(node.value) if isinstance(node, t.Truth) else None


def folded(node: t.Expr) -> t.Expr:
    """The constant that the expression is, or itself."""
    if isinstance(node, t.Convert):
        return _converted(node, node.type)
    if isinstance(node, t.Unary):
        value = _value(node.operand)
        if value is None:
            return node
        if node.operator == "!":
            return t.Truth(BOOL, node.place, not value)
        if isinstance(node.type, Int):
            return t.Number(node.type, node.place, wrapped(-value if node.operator == "-" else ~value, node.type))
    if isinstance(node, t.Binary):
        left, right = _value(node.left), _value(node.right)
        if left is None or right is None:
            return node
        if node.operator in COMPARED:
            return t.Truth(BOOL, node.place, COMPARED[node.operator](left, right))
        value = computed(node.operator, left, right)
        if value is not None and isinstance(node.type, Int):
            return t.Number(node.type, node.place, wrapped(value, node.type))
    if isinstance(node, t.Conditional):
        chosen = _value(node.condition)
        if chosen is not None and isinstance(node.yes, t.Number) and isinstance(node.no, t.Number):
            return node.yes if chosen else node.no
    return node


def _converted(node: t.Convert, to: Type) -> t.Expr:
    value = _value(node.operand)
    if value is not None and isinstance(to, Int):
        return t.Number(to, node.place, wrapped(value, to))
    if value is not None and to == BOOL:
        return t.Truth(BOOL, node.place, value != 0)
    if isinstance(to, Pointer) or to == STRING:
        if isinstance(node.operand, t.Null) or value == 0:
            return t.Null(to, node.place)
    return node
