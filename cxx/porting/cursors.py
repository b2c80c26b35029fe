"""Not proved (README.md). Which pointers walk over arrays and vectors: iterators, `p++`, `first` and `last` of a range.

Such a pointer is a pair here, of the object that has the items and an index. It is found by its use: arithmetic, an
order, a value that is the place of an item. What it is given, and what a parameter of its kind is called with, is such
a pair too.
"""

from . import tree as t
from .effects import lowered_parameters, overriders
from .types import STRING, Array, Object, Pointer, Vector, bare

ORDERS = ("<", ">", "<=", ">=", "+", "-")
# Of literal strings these are comparisons of the strings, as std::string has them.
COMPARED = ("<", ">", "<=", ">=")
PLACES = ("begin", "end", "erase", "insert")


def walking(program: t.Program) -> set[t.Variable]:
    """The locals and parameters that walk."""
    finder = _Finder()
    nodes = list(t.everything(program))
    returns = [
        (function, node.value)
        for function in program.functions
        for node in t.bodies(function)
        if isinstance(node, t.Return)
        and node.value is not None
        and (isinstance(function.result, Pointer) or function.result == STRING)
    ]
    growing = True
    while growing:
        before = len(finder.found), sum(function.walks for function, _ in returns)
        for node in nodes:
            finder.look(node)
        for function, value in returns:
            function.walks = function.walks or is_place(value) or finder.walks(value)
        growing = before != (len(finder.found), sum(function.walks for function, _ in returns))
    return finder.found


def is_pointer(node: t.Expr) -> bool:
    """Whether the value is a pointer, also one to a letter of a string, or an array, which is one to its first item."""
    return isinstance(bare(node.type), (Pointer, Array)) or node.type == STRING


def is_place(node: t.Expr) -> bool:
    """Whether the value is the place of an item that can't be had without its array."""
    match node:
        case t.VectorCall():
            return node.method in PLACES
        case t.Binary(operator="+" | "-"):
            return isinstance(node.type, Pointer) or node.type == STRING
        case t.Call():
            return node.function.walks
        case t.AddressOf(operand=t.Item()):
            return isinstance(node.type, Pointer) and not isinstance(node.type.to, (Object, Vector))
    return False


def is_to_object(node: t.Expr) -> bool:
    """Whether the value is a pointer to an object, and no array."""
    return isinstance(node.type, Pointer) and isinstance(node.type.to, Object)


class _Finder:
    def __init__(self) -> None:
        self.found: set[t.Variable] = set()

    def look(self, node: t.Tree) -> None:
        match node:
            case t.Assign():
                if isinstance(bare(node.target.type), Pointer) or node.target.type == STRING:
                    if node.operator:
                        self._take(node.target)
                    elif isinstance(node.target, t.Name):
                        self._flow(node.target.variable, node.value)
            case t.Binary():
                if is_pointer(node.left) or is_pointer(node.right):
                    self._compared(node)
            case t.Item():
                if isinstance(node.items.type, Pointer) and isinstance(node.items.type.to, (Object, Vector)):
                    self._take(node.items)
            case t.VectorCall(method="erase" | "insert"):
                for at in node.arguments[: 2 if node.method == "erase" else 1]:
                    self._take(at)
            case t.Declare():
                if node.variable.initial is not None:
                    self._flow(node.variable, node.variable.initial)
            case t.Call():
                functions = overriders(node.function) if node.virtual else [node.function]
                for function in functions:
                    for parameter, argument in zip(lowered_parameters(function), node.arguments):
                        self._flow(parameter, argument)

    def _compared(self, node: t.Binary) -> None:
        strings = node.left.type == STRING and node.right.type == STRING
        ordered = node.operator in ORDERS and not (strings and node.operator in COMPARED)
        sides = (node.left, node.right)
        placed = any(is_place(side) or self.walks(side) for side in sides)
        if node.operator in COMPARED and not placed and all(is_to_object(side) for side in sides):
            return
        if ordered or placed and node.operator in ("==", "!="):
            self._take(node.left)
            self._take(node.right)

    def walks(self, node: t.Expr) -> bool:
        return isinstance(node, t.Name) and node.variable in self.found

    def _take(self, node: t.Expr) -> None:
        """The variable walks, if it is one that may."""
        if isinstance(node, t.Assign):
            self._take(node.target)
        elif isinstance(node, t.Name) and _may_walk(node.variable):
            self.found.add(node.variable)

    def _flow(self, variable: t.Variable, value: t.Expr) -> None:
        """A value is given to a variable."""
        if not _may_walk(variable):
            return
        to_object = isinstance(variable.type, Pointer) and isinstance(variable.type.to, (Object, Vector))
        if variable.type == STRING and isinstance(bare(value.type), (Array, Pointer, Vector)):
            self.found.add(variable)
        if (
            is_place(value)
            or self.walks(value)
            and not to_object
            or isinstance(value, t.Assign)
            and self.walks(value.target)
        ):
            self.found.add(variable)
        if variable in self.found:
            self._take(value)


def _may_walk(variable: t.Variable) -> bool:
    return not variable.shared and (isinstance(variable.type, Pointer) or variable.type == STRING)
