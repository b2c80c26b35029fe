"""Not proved: what an extent writes, and how. Each field that it writes has one kind, by all uses that operations of
the extent make of it; docs/guide/native.md says kind by kind why this is right."""

from __future__ import annotations

from dataclasses import dataclass
from enum import Enum
from typing import Callable

from .tree import Binary, Expression, If, Item, Local, Method, Own, Pick, Program, Put, Statement, Target
from .tree import Unary, Word, array, calls, expressions, inside, listed, puts, statements


class Kind(Enum):
    """The first seven only take something to the field, by one operator, and nothing reads it: each worker has a copy.
    `PUT` puts what comes from no written field. `ONCE` is a truth value that is only asked and set by `if (!f) { f =
    true; .. }`. `OTHER` is for the lock of the object."""

    SUM = "sum"
    PRODUCT = "product"
    MAX = "max"
    MIN = "min"
    AND = "and"
    OR = "or"
    XOR = "xor"
    PUT = "put"
    ONCE = "once"
    OTHER = "other"

    def has_copies(self) -> bool:
        return self not in (Kind.PUT, Kind.ONCE, Kind.OTHER)


OPERATORS = {
    "+": Kind.SUM, "-": Kind.SUM, "*": Kind.PRODUCT, "&": Kind.AND, "|": Kind.OR, "^": Kind.XOR,
    "max": Kind.MAX, "min": Kind.MIN,
}  # fmt: skip
# A field of a class.
Place = tuple[str, str]


@dataclass(frozen=True)
class Taken:
    """What an update takes to its target."""

    kind: Kind
    value: Expression


def operator_of(it: Expression) -> tuple[str, Expression, Expression] | None:
    if isinstance(it, Binary):
        return it.operator, it.left, it.right
    return (it.word, it.left, it.right) if isinstance(it, Pick) else None


def rebuilt(it: Expression, left: Expression, right: Expression) -> Expression:
    """The same operation of other sides."""
    if isinstance(it, Binary):
        return Binary(it.operator, left, right)
    assert isinstance(it, Pick)
    return Pick(it.word, left, right)


def without(it: Expression, target: Target, kind: Kind) -> Expression | None:
    """What stands beside the target in a chain of operators of this kind, if the target is one of its operands and more
    stands there."""
    found = operator_of(it)
    if found is None or OPERATORS.get(found[0]) is not kind:
        return None
    operator, left, right = found
    if left == target:
        return Unary("-", right) if operator == "-" else right
    if right == target and operator != "-":
        return left
    rest = without(left, target, kind)
    if rest is not None:
        return rebuilt(it, rest, right)
    rest = without(right, target, kind) if operator != "-" else None
    return None if rest is None else rebuilt(it, left, rest)


def taken(put: Put) -> Taken | None:
    """Of an update that only takes something to its target: what."""
    if put.operator != "=":
        kind = OPERATORS[put.operator[0]]
        return Taken(kind, Unary("-", put.value) if put.operator == "-=" else put.value)
    found = operator_of(put.value)
    kind_ = OPERATORS.get(found[0]) if found else None
    rest = without(put.value, put.target, kind_) if kind_ else None
    return None if rest is None or kind_ is None else Taken(kind_, rest)


def moved(it: If) -> tuple[Own, Taken] | None:
    """Of `if (f < e) f = e;` and its like: the field, and e as what is taken to its greatest or least."""
    body = listed(it.yes)
    if (
        it.no is not None
        or len(body) != 1
        or not isinstance(it.test, Binary)
        or it.test.operator not in ("<", "<=", ">", ">=")
    ):
        return None
    put = body[0]
    if not isinstance(put, Put) or not isinstance(put.target, Own) or put.operator != "=":
        return None
    less, greater = it.test.left, it.test.right
    if it.test.operator[0] == ">":
        less, greater = greater, less
    if (less, greater) == (put.target, put.value):
        return put.target, Taken(Kind.MAX, put.value)
    return (put.target, Taken(Kind.MIN, put.value)) if (greater, less) == (put.target, put.value) else None


def flag(it: If) -> Own | None:
    """Of `if (!f) { f = true; .. }`: the field."""
    body = listed(it.yes)
    if (
        it.no is not None
        or not body
        or not isinstance(it.test, Unary)
        or it.test.operator != "!"
        or not isinstance(it.test.of, Own)
    ):
        return None
    return it.test.of if body[0] == Put(it.test.of, "=", Word("true")) else None


class Uses:
    """How the body of an operation uses the fields that its extent writes."""

    def __init__(self, method: Method, written: set[Place], program: Program):
        self.method, self.written, self.program = method, written, program
        self.kinds: dict[str, set[Kind]] = {}
        self.reads_written = False
        self.statement(method.body)

    def use(self, name: str, kind: Kind) -> None:
        self.kinds.setdefault(name, set()).add(kind)

    def read(self, it: Expression) -> None:
        """Reads of others' written fields are no part of a separable operation, nor are those of value methods."""
        for part in inside(it):
            if isinstance(part, Own) and (self.method.owner, part.name) in self.written:
                self.use(part.name, Kind.OTHER)
                self.reads_written = True

    def statement(self, it: Statement) -> None:
        if isinstance(it, Put) and not isinstance(it.target, Local):
            self.put(it, it.target)
        elif not (isinstance(it, If) and self.guarded(it)):
            for part in expressions(it):
                self.read(part)
            for each in statements(it):
                self.statement(each)

    def put(self, it: Put, target: Own | Item) -> None:
        if isinstance(target, Item):
            self.read(target.at)
        name = array(target).name
        found = taken(it) if self.program.classes[self.method.owner].fields[name].type == "long" else None
        self.use(name, found.kind if found else Kind.PUT)
        self.read(found.value if found else it.value)

    def guarded(self, it: If) -> bool:
        """Whether this is an update under a condition on its field, which then is noted."""
        found = moved(it)
        if found is not None:
            self.use(found[0].name, found[1].kind)
            self.read(found[1].value)
            return True
        field = flag(it)
        if field is None:
            return False
        self.use(field.name, Kind.ONCE)
        for item in listed(it.yes)[1:]:
            self.statement(item)
        return True


class Extent:
    """The operations that some lead to, with the kinds of the fields that they write."""

    def __init__(self, program: Program, roots: list[Method]):
        self.program = program
        self.members = closure(
            roots, lambda method: [program.called(call, method.owner) for call in calls(method.body)]
        )
        self.members.sort(key=repr)
        self.written = {(method.owner, array(put.target).name) for method in self.members for put in field_puts(method)}
        self.uses = {method: Uses(method, self.written, program) for method in self.members}
        self.kinds: dict[Place, Kind] = {}
        for place in sorted(self.written):
            self.kinds[place] = self.one_kind(place)

    def one_kind(self, place: Place) -> Kind:
        users = self.users(place)
        found = self.found(place)
        if len(found) != 1 or Kind.PUT in found and any(it.reads_written or self.reads_flag(it) for it in users):
            return Kind.OTHER
        return found.pop()

    def users(self, place: Place) -> list[Uses]:
        return [it for it in self.uses.values() if it.method.owner == place[0] and place[1] in it.kinds]

    def found(self, place: Place) -> set[Kind]:
        return {kind for it in self.users(place) for kind in it.kinds[place[1]]}

    def reads_flag(self, it: Uses) -> bool:
        """Whether an operation looks at a flag that is more than a flag, since it is used otherwise elsewhere."""
        flags = [name for name, kinds in it.kinds.items() if Kind.ONCE in kinds]
        return any(self.found((it.method.owner, name)) != {Kind.ONCE} for name in flags)

    def kind(self, owner: str, target: Target) -> Kind:
        return self.kinds.get((owner, array(target).name), Kind.OTHER)

    def used(self, method: Method) -> set[Kind]:
        """The kinds of the written fields that an operation uses."""
        return {self.kinds[(method.owner, name)] for name in self.uses[method].kinds}

    def has_lock(self, method: Method) -> bool:
        return Kind.OTHER in self.used(method)

    def is_free(self) -> bool:
        """Whether its operations take neither locks nor copies."""
        return all(kind in (Kind.PUT, Kind.ONCE) for kind in self.kinds.values())


def field_puts(method: Method) -> list[Put]:
    return [put for put in puts(method.body) if not isinstance(put.target, Local)]


def closure(roots: list[Method], led: Callable[[Method], list[Method]]) -> list[Method]:
    """Methods, and all that they lead to."""
    found: list[Method] = []
    waiting = list(roots)
    while waiting:
        method = waiting.pop()
        if method not in found:
            found.append(method)
            waiting += led(method)
    return found
