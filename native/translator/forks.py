"""Not proved: value methods that share their work. They change nothing, so where two of their calls stand in one
expression, or in locals one behind the other, these may go to two workers without any mark."""

from __future__ import annotations

from typing import Iterator, Sequence

from .kinds import closure
from .plain import Lines, Plain, braced, indented, of_type, parameters
from .tree import Asked, Binary, Block, Class, Declare, Expression, For, If, Local, Method, Program, Put
from .tree import Return, Statement, While, asked, expressions, inside, listed, parts, within
from .weights import FEW, Weights


class Forks:
    """Which value methods share, and their bodies."""

    def __init__(self, program: Program, weights: Weights, is_forced: bool):
        self.program, self.weights = program, weights
        self.few = -1 if is_forced else FEW
        heavy = [
            method for method in program.methods() if method.result != "void" and weights.method(method) > self.few
        ]
        forking = [method for method in heavy if self.has_fork(method)]
        self.sharing = [method for method in heavy if any(each in forking for each in closure([method], self.led))]

    def led(self, method: Method) -> list[Method]:
        return asked(method.body, method.owner, self.program)

    def shares(self, it: Expression, owner: str) -> bool:
        return isinstance(it, Asked) and self.program.called(it, owner) in self.sharing

    # Which calls go together

    def certain(self, it: Expression, owner: str) -> Iterator[Asked]:
        """The heavy calls that stand in an expression and are made in any case, none in another one."""
        if isinstance(it, Asked) and self.weights.method(self.program.called(it, owner)) > self.few:
            yield it
            return
        sides = (it.left,) if isinstance(it, Binary) and it.operator in ("&&", "||") else parts(it)
        for part in sides:
            yield from self.certain(part, owner)

    def group(self, items: Sequence[Statement], owner: str) -> tuple[int, list[Asked]]:
        """How many of these statements, from the first on, go together, and their heavy calls."""
        found: list[Asked] = []
        declared: list[Local] = []
        for at, item in enumerate(items):
            if isinstance(item, (If, While, For, Block)) and not (isinstance(item, If) and at == 0):
                return at, found
            calls = [call for each in expressions(item) for call in self.certain(each, owner)]
            if any(local in inside(call) for call in calls for local in declared):
                return at, found
            found += calls
            if isinstance(item, (If, Return)):
                return at + 1, found
            if isinstance(item, Declare):
                declared.append(item.local)
            elif isinstance(item, Put) and isinstance(item.target, Local):
                declared.append(item.target)
        return len(items), found

    def has_fork(self, method: Method) -> bool:
        return any(
            len(self.group(items[at:], method.owner)[1]) > 1 for items in lists(method.body) for at in range(len(items))
        )

    # Bodies

    def methods(self) -> list[tuple[Class, str, Lines]]:
        found = []
        for method in self.sharing:
            declared = parameters(method, ["Worker &w", "[[maybe_unused]] int levels"])
            head = f"inline {of_type(method.result)}{method.owner}_class::{method.name}_shared({declared})"
            lines = braced(head, SharedValue(self, method.owner).statements(method.body.items))
            found.append(
                (
                    self.program.classes[method.owner],
                    f"{of_type(method.result)}{method.name}_shared({declared});",
                    lines,
                )
            )
        return found


def lists(it: Statement) -> Iterator[tuple[Statement, ...]]:
    """The lists of statements in one."""
    for each in within(it):
        if isinstance(each, Block):
            yield each.items
        elif isinstance(each, If):
            yield from (
                listed(branch) for branch in (each.yes, each.no) if branch is not None and not isinstance(branch, Block)
            )
        elif isinstance(each, (For, While)) and not isinstance(each.body, Block):
            yield (each.body,)


class SharedValue(Plain):
    """Writes the body of a value method that shares."""

    def __init__(self, forks: Forks, owner: str):
        super().__init__(forks.program, owner)
        self.forks = forks
        self.count = 0
        self.answers: list[tuple[Asked, str]] = []

    def statements(self, items: Sequence[Statement]) -> Lines:
        lines: Lines = []
        at = 0
        while at < len(items):
            size, calls = self.forks.group(items[at:], self.owner)
            if len(calls) < 2:
                lines += self.statement(items[at])
                at += 1
                continue
            lines += self.forked(calls)
            for item in items[at : at + size]:
                lines += self.statement(item)
            at += size
            self.answers = []
        return lines

    def forked(self, calls: list[Asked]) -> Lines:
        """The calls side by side; what follows has their names in their places, one for each."""
        texts = [
            f"[=]([[maybe_unused]] Worker &w, [[maybe_unused]] int levels) {{ return {self.branch(call)}; }}"
            for call in calls
        ]
        names = [f"answer{self.count + at}" for at in range(len(calls))]
        self.count += len(calls)
        self.answers = list(zip(calls, names))
        return [
            f"const auto [{', '.join(names)}] = fork(w, levels,",
            *indented([*(text + "," for text in texts[:-1]), texts[-1] + ");"]),
        ]

    def branch(self, it: Asked) -> str:
        """One of the calls, or the plain one below all levels."""
        shared, plain = self.asked(it), Plain(self.program, self.owner).asked(it)
        return shared if shared == plain else f"levels == PLAIN ? {plain} : {shared}"

    def asked(self, it: Asked) -> str:
        for at, (call, name) in enumerate(self.answers):
            if call is it:
                return name
        if not self.forks.shares(it, self.owner):
            return super().asked(it)
        return f"{self.expression(it.receiver)}->{it.method}_shared({self.list(it.arguments, ['w', 'levels'])})"
