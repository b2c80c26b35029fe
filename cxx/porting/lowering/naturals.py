"""Not proved (README.md). How many bits the numbers of a program need that are never below zero.

Numbers without sign of 64 bits are held by their bits, so that a comparison or quotient of them needs care where one
may be 2^63 or more; and a shift to the right of a number with sign is a quotient where that isn't below zero. Most
numbers never are either: sizes, indices, remainders. This is found for the whole program: each variable starts at no
bits and takes what is assigned to it, until nothing grows. What is added to a variable over and over again stays below
2^62, since a run has at most 1,000,000,000 steps and each adds less than 2^32.
"""

from typing import Callable, Iterator, TypeGuard, Union

from .. import tree as t
from ..effects import is_lending, is_lending_type, lowered_parameters, overriders
from ..types import BOOL, Int, Object, Reference, Type, bare

Key = Union[t.Variable, t.Member, t.Function]
Known = dict[Key, int]
# So many bits say nothing: a number with sign may be below zero, one without may have all of them.
ALL = 64
COUNTING = 62
# A vector has fewer items than this many bits count.
SIZE = 20
# What still grows then needs all bits.
ROUNDS = 10


def bits_of(node: t.Expr, known: Callable[[Key], int]) -> int:
    """So many bits hold the value, which isn't below zero; `ALL` where that isn't sure. `known` has the bits of
    variables, members and results."""
    width = _width(node.type)
    match node:
        case t.Number():
            return node.value.bit_length() if node.value >= 0 else width
        case t.Convert():
            return _converted(bits_of(node.operand, known), node.type)
        case t.VectorCall(method="size"):
            return SIZE
        case t.Name():
            return min(known(node.variable), width)
        case t.Dot():
            return min(known(node.member), width)
        case t.Call():
            called = overriders(node.function) if node.virtual else [node.function]
            return min(max((known(one) for one in called), default=ALL), width)
        case t.Conditional():
            return min(max(bits_of(node.yes, known), bits_of(node.no, known)), width)
        case t.Built(name="abs"):
            return ALL - 1
        case t.Built(name="max" | "min"):
            return min(max(bits_of(one, known) for one in node.arguments), width)
        case t.Binary():
            return min(_of_binary(node, known), width)
    return width


def _width(type_: Type) -> int:
    """The bits of a type's greatest value, where it has none below zero."""
    type_ = bare(type_)
    if type_ == BOOL:
        return 1
    return type_.width if isinstance(type_, Int) and not type_.signed else ALL


def _converted(bits: int, to: Type) -> int:
    """The bits of a value as one of another type: with sign, its highest bit would be below zero."""
    if isinstance(to, Int) and to.signed:
        return bits if bits < to.width else ALL
    return min(bits, _width(to))


def _of_binary(node: t.Binary, known: Callable[[Key], int]) -> int:
    left, right = bits_of(node.left, known), bits_of(node.right, known)
    below = isinstance(node.type, Int) and node.type.signed
    constant = node.right.value if isinstance(node.right, t.Number) else None
    match node.operator:
        case "+":
            return max(left, right) + 1
        case "*":
            return left + right
        case "&":
            return min(left, right)
        case "|" | "^":
            return max(left, right)
        case "/":
            return ALL if below and right == ALL else left
        case "%":
            return ALL if below and left == ALL else min(left, right)
        case "<<":
            return left + constant if constant is not None and constant >= 0 else ALL
        case ">>":
            return left - min(left, constant or 0) if left < ALL or not below else ALL
        case ",":
            return right
    return 1 if node.type == BOOL else ALL


def known_bits(program: t.Program) -> Known:
    """The bits of each variable, member and result; what isn't here needs all."""
    finder = _Finder(program)
    rounds, before = 0, dict(finder.bits)
    while finder.round():
        if rounds >= ROUNDS:
            finder.bits.update({key: ALL for key, bits in finder.bits.items() if before.get(key) != bits})
        rounds, before = rounds + 1, dict(finder.bits)
    return {key: bits for key, bits in finder.bits.items() if bits < ALL}


class _Finder:
    def __init__(self, program: t.Program) -> None:
        self.bits: Known = {}
        nodes: list[tuple[t.Function | None, t.Tree]] = []
        for function in program.functions:
            nodes += [(function, node) for node in t.bodies(function)]
            for initializer in function.initializers:
                if initializer.member is not None:
                    nodes.append((None, _Initial(initializer.member, initializer.value)))
        firsts: list[t.Variable | t.Member] = [*program.globals]
        firsts += [member for record in program.records for member in record.members]
        nodes += [(None, _Initial(one, one.initial)) for one in firsts if one.initial is not None]
        self._nodes = [(function, node) for function, node in nodes if isinstance(node, _ASSIGNING)]

    def round(self) -> bool:
        """Looks at all assignments once; whether anything grew."""
        before = dict(self.bits)
        for function, node in self._nodes:
            self._look(function, node)
        return before != self.bits

    def _look(self, function: t.Function | None, node: t.Tree) -> None:
        match node:
            case _Initial():
                self._bound(node.key, node.value)
            case t.Declare():
                if node.variable.initial is not None:
                    self._bound(node.variable, node.variable.initial)
            case t.Assign():
                self._assigned(node)
            case t.Swap():
                self._lose(node.left)
                self._lose(node.right)
            case t.Call() | t.Construct():
                self._called(node)
            case t.Aggregate():
                if isinstance(node.type, Object):
                    for member, part in zip(node.type.record.members, node.parts):
                        if part is not None:
                            self._bound(member, part)
            case t.Return():
                if function is not None and node.value is not None:
                    self._grow(function, self.of(node.value))
                    if is_lending_type(function.result):
                        self._lose(node.value)
            case t.Each():
                self._grow(node.variable, ALL)

    def _called(self, node: t.Call | t.Construct) -> None:
        if node.function is None:
            return
        functions = overriders(node.function) if isinstance(node, t.Call) and node.virtual else [node.function]
        for function in functions:
            for parameter, argument in zip(lowered_parameters(function), node.arguments):
                self._bound(parameter, argument)

    def _bound(self, key: t.Variable | t.Member, value: t.Expr) -> None:
        """What takes a value, or is another name of a place, through which that may be changed."""
        if isinstance(key.type, Reference) and not key.type.constant or is_lending(key):
            self._lose(value)
            self._grow(key, ALL)
        else:
            self._grow(key, self.of(t.Convert(bare(key.type), value.place, value)))

    def _assigned(self, node: t.Assign) -> None:
        keys = list(_keys(node.target))
        type_, value = bare(node.target.type), node.value
        if node.operator:
            old = t.Convert(node.within, node.place, node.target)
            value = t.Binary(node.within, node.place, node.operator, old, value)
        for key in keys:
            bits = self.of(t.Convert(type_, node.place, value))
            if _is_sum_of(value, key) and value.type == type_ and self.of(value.right) <= 32:
                bits = max(COUNTING, self._of_key(key))
            self._grow(key, bits)

    def _grow(self, key: Key, bits: int) -> None:
        self.bits[key] = min(ALL, max(self.bits.get(key, 0), bits))

    def _lose(self, node: t.Expr) -> None:
        for key in _keys(node):
            self._grow(key, ALL)

    def _of_key(self, key: Key) -> int:
        return self.bits.get(key, 0)

    def of(self, node: t.Expr) -> int:
        """The bits of a value, by what is known so far."""
        return bits_of(node, self._of_key)


class _Initial(t.Step):
    """A first value that stands in no statement."""

    def __init__(self, key: t.Variable | t.Member, value: t.Expr) -> None:
        super().__init__(value.place)
        self.key, self.value = key, value


_ASSIGNING = (_Initial, t.Declare, t.Assign, t.Swap, t.Call, t.Construct, t.Aggregate, t.Return, t.Each)


def _keys(node: t.Expr) -> Iterator[Key]:
    """What the place may be; what functions give as places, and references are bound to, needs all bits already."""
    match node:
        case t.Name():
            yield node.variable
        case t.Dot():
            yield node.member
        case t.Conditional():
            yield from _keys(node.yes)
            yield from _keys(node.no)
        case t.Assign():
            yield from _keys(node.target)
        case t.Binary(operator=","):
            yield from _keys(node.right)
        case t.Convert():
            yield from _keys(node.operand)
        case t.Deref(pointer=t.AddressOf(operand=operand)):
            yield from _keys(operand)


def _is_sum_of(value: t.Expr, key: Key) -> TypeGuard[t.Binary]:
    """Whether the value is what the key has, and something added."""
    if not (isinstance(value, t.Binary) and value.operator == "+"):
        return False
    left = value.left.operand if isinstance(value.left, t.Convert) and value.left.type == value.type else value.left
    return list(_keys(left)) == [key]
