"""Not proved (README.md). Statements that keep the least or greatest with its owner, as the rewrites of these find them."""

from collections import Counter
from dataclasses import dataclass
from typing import Iterator

from .. import form
from ..words import unique
from . import facts
from .building import copied, renamed

Block = list[form.Statement]
# What compares, and what it is with its sides changed.
SIDES = {"<": ">", ">": "<", "<=": ">=", ">=": "<="}


@dataclass
class Choice:
    """`if (guards && value < what was kept) { owner = ..; .. }`."""

    statement: form.If
    guards: list[form.Expr]
    value: form.Expr
    # `max` or `min`, and whether the last of several equals is kept.
    word: str
    last: bool
    # The locals that are put; the pointer that has to be there, where the first one is taken in place of null.
    targets: set[form.Local]
    there: form.Expr | None

    def local(self, name: str, type_: form.Type, used: set[str]) -> form.Local:
        return form.Local(unique(f"{name}_", used), type_)

    def guarded(self, body: Block) -> Block:
        """The statements where the comparison is come to."""
        guards = list(self.guards)
        if self.there is not None:
            assert isinstance(self.there.type, form.Pointer)
            guards.append(form.Binary("!=", self.there, form.Null(self.there.type), form.BOOL))
        if not guards:
            return body
        condition = guards[0]
        for one in guards[1:]:
            condition = form.Binary("&&", condition, one, form.BOOL)
        return [form.If(condition, body, [], self.statement.place)]


def choices(body: Block, counter: form.Local) -> Iterator[tuple[Block, Choice]]:
    """Such statements of a loop's body, each with the block in which it stands."""
    for one in body:
        if isinstance(one, form.If):
            found = _choice(one, counter)
            if found is not None:
                yield body, found
            for block in form.blocks(one):
                yield from choices(block, counter)


def _choice(one: form.If, counter: form.Local) -> Choice | None:
    puts = _puts(one)
    if puts is None:
        return None
    targets = {put.target for put in puts if isinstance(put.target, form.Local)}
    *guards, test = _conjuncts(one.condition)
    if _mention([*guards, *(put.value for put in puts)], targets):
        return None
    none: form.Expr | None = None
    if isinstance(test, form.Binary) and test.operator == "||":
        none, test = test.left, test.right
    if not isinstance(test, form.Binary) or test.operator not in SIDES:
        return None
    for put in puts:
        for value, kept, operator in (
            (test.left, test.right, test.operator),
            (test.right, test.left, SIDES[test.operator]),
        ):
            if _kept_of(put, value) != kept or value == kept or value.type != form.LONG or _mention([value], targets):
                continue
            plain = value == put.value
            if plain and (len(puts) == 1 or none is not None):
                continue
            if none is not None and not _none_yet(none, put, counter):
                continue
            there = put.value if none is not None and isinstance(put.value.type, form.Pointer) else None
            word = "min" if operator in ("<", "<=") else "max"
            return Choice(one, guards, value, word, operator in ("<=", ">="), targets, there)
    return None


def _puts(one: form.If) -> list[form.Put] | None:
    """The statements under the condition, where each puts a local of its own."""
    puts = [
        put for put in one.yes if isinstance(put, form.Put) and isinstance(put.target, form.Local) and not put.operator
    ]
    if one.no or not puts or len(puts) != len(one.yes) or len({put.target for put in puts}) != len(puts):
        return None
    return puts


def _conjuncts(condition: form.Expr) -> list[form.Expr]:
    match condition:
        case form.Binary("&&", left, right, _):
            return [*_conjuncts(left), *_conjuncts(right)]
    return [condition]


def _mention(exprs: list[form.Expr], locals_: set[form.Local]) -> bool:
    return any(part in locals_ for expr in exprs for part in form.within(expr))


def _kept_of(put: form.Put, value: form.Expr) -> form.Expr:
    """What the value is of what the statement puts."""
    return form.mapped(value, lambda part: put.target if part == put.value else None)


def _none_yet(test: form.Expr, put: form.Put, counter: form.Local) -> bool:
    """Whether the test asks if nothing was kept as yet: a null pointer, or an index below zero."""
    match test:
        case form.Not(form.Binary("!=", left, right, _), _):
            test = form.Binary("==", left, right, form.BOOL)
    match test:
        case form.Binary("==", left, right, _) if isinstance(put.value.type, form.Pointer):
            return (
                left == put.target
                and isinstance(right, form.Null)
                or right == put.target
                and isinstance(left, form.Null)
            )
        case form.Binary("<" | "==" as operator, left, right, _) if put.value == counter and left == put.target:
            return (
                right == form.Number(0) if operator == "<" else right in (form.Number(-1), form.Minus(form.Number(1)))
            )
    return False


# What a statement of a turn needs --------------------------------------------------------------------------------------


def sliced(body: Block, statement: form.Statement) -> Block:
    """A copy of what the statement needs of a loop's body: the conditions that it stands under, and declarations before it."""
    made = copied(_on_the_way(body, statement))
    while True:
        counts = Counter(one for one in form.expressions(made) if isinstance(one, form.Local))
        if not _without(made, {local for local, count in counts.items() if count == 1}):
            return made


def _on_the_way(body: Block, statement: form.Statement) -> Block:
    out: Block = []
    for one in body:
        if one is statement:
            return [*out, one]
        if any(other is statement for other in form.statements([one])):
            assert isinstance(one, form.If)
            inside = [any(other is statement for other in form.statements(block)) for block in (one.yes, one.no)]
            yes, no = (_on_the_way(block, statement) if has else [] for has, block in zip(inside, (one.yes, one.no)))
            return [*out, form.If(one.condition, yes, no, one.place)]
        if isinstance(one, form.Let) and one.value is not None:
            out.append(one)
    return out


def _without(body: Block, locals_: set[form.Local]) -> bool:
    """Takes away the declarations of these locals; whether there was one."""
    gone = [one for one in body if isinstance(one, form.Let) and one.local in locals_]
    for one in gone:
        body.remove(one)
    inner = [_without(block, locals_) for one in body for block in form.blocks(one)]
    return bool(gone) or any(inner)


def again(body: Block, used: set[str], others: dict[form.Local, form.Local]) -> Block:
    """The statements with locals of other names: those that they declare, and the ones that are given."""
    made = copied(body)
    names = {one: form.Local(unique(one.name, used), one.type) for one in facts.declared(made)}
    renamed(made, {**names, **others})
    return made


def uses(body: Block, local: form.Local) -> int:
    return sum(1 for part in form.expressions(body) if part == local)


def places_of(body: Block) -> set[facts.Place]:
    """The fields that a run of the statements reads."""
    return facts.effects(body).reads
