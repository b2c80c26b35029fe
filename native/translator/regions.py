"""Not proved: where regions begin: at marked calls and loops, and at calls of value methods that share their work."""

from __future__ import annotations

from .apart import may_be_apart
from .forks import Forks
from .kinds import Extent
from .options import Options
from .plain import Lines, Plain, braced, indented, of_type
from .sharing import Sharing
from .tree import Asked, Block, Call, Class, Declare, For, If, Method, Program, Statement, calls, counted, listed
from .walks import walk_of
from .weights import FEW, Weights


class Regions:
    """Makes regions, and keeps the extents that they lead to."""

    def __init__(self, program: Program, options: Options, apart: set[str]):
        self.program, self.options, self.apart = program, options, apart
        self.weights = Weights(program)
        self.few = -1 if options.is_forced else FEW
        self.forks = Forks(program, self.weights, options.is_forced)
        self.extents: list[Sharing] = []

    def extent(self, roots: list[Method]) -> Sharing:
        found = Extent(self.program, roots)
        for known in self.extents:
            if known.extent.members == found.members:
                return known
        self.extents.append(Sharing(self.program, self.weights, found, len(self.extents), self.options.is_forced))
        return self.extents[-1]

    def of_call(self, it: Call, owner: str) -> Lines | None:
        method = self.program.called(it, owner)
        if not it.is_parallel or self.options.is_plain or self.weights.method(method) <= self.few:
            return None
        sharing = self.extent([method])
        handed, alone, many = sharing.begun_by_call(it, owner)
        lines = [site(self.begins_with_loop([method.body], method.owner, sharing.extent)), *handed]
        return braced("", [*lines, *region("1", alone, many)])

    def of_loop(self, it: For, owner: str) -> Lines | None:
        if self.options.is_plain or self.weights.statement(it, owner) <= self.few:
            return None
        if counter_of(it) in self.apart:
            return self.of_loop_apart(it, owner)
        if not it.is_parallel:
            return None
        sharing = self.extent([self.program.called(call, owner) for call in calls(it.body)])
        plain = Plain(self.program, owner)
        found = counted(it)
        if found is not None and self.may_be_apart(it, owner, sharing):
            names = ("from", "to")
            head = f"[&](Worker &w, long {names[0]}, long {names[1]})"
            many = self.where_apart(it, owner, sharing, braced(head, sharing.begun_by_loop(it, owner, names), "});"))
        else:
            many = sharing.begun_by_loop(it, owner)
        size = "1" if found is None else f"{plain.expression(found[2])} - {plain.expression(found[1])}"
        return braced("", [site(found is not None), *region(size, plain.loop(it), many)])

    def may_be_apart(self, it: For, owner: str, sharing: Sharing) -> bool:
        """Whether to look for an object that comes twice: not where that spares nothing."""
        return self.options.shares_apart and not sharing.extent.is_free() and may_be_apart(it, owner, self.program)

    def of_loop_apart(self, it: For, owner: str) -> Lines:
        plain, found = Plain(self.program, owner), counted(it)
        assert found is not None
        size = f"{plain.expression(found[2])} - {plain.expression(found[1])}"
        return braced("", [site(True), *region(size, plain.loop(it), self.where_apart(it, owner))])

    def where_apart(self, it: For, owner: str, sharing: Sharing | None = None, marked: Lines | None = None) -> Lines:
        """A loop whose receivers are looked at when it runs: its turns are as they stand. If an object comes twice it is
        `marked`, what a marked loop does."""
        plain, found = Plain(self.program, owner), counted(it)
        assert found is not None
        counter, first, bound = found[0].name, plain.expression(found[1]), plain.expression(found[2])
        size = 1 if sharing is None else sharing.batch(it)
        body = plain.statements(listed(it.body))
        whose = plain.expression(calls(it.body)[0].receiver)
        receiver = f"[=]([[maybe_unused]] long {counter}) -> Object * {{ return {whose}; }}"
        called = f"loop_{'apart' if marked is None else 'where_apart'}<{size}>"
        lines = braced(f"{called}(w, {first}, {bound}, [=](Worker &, [[maybe_unused]] long {counter})", body, "},")
        turns = braced(f"[=](long {counter}, long end)", braced(f"for (; {counter} < end; {counter}++)", body), "},")
        end = [receiver + ");"] if marked is None else [receiver + ",", *marked]
        return [*lines, *indented([*turns, *end])]

    def of_value(self, it: Asked, owner: str) -> str | None:
        """A call of a value method as a region: an expression of C++."""
        if self.options.is_plain or not self.options.shares_values or not self.forks.shares(it, owner):
            return None
        plain, method = Plain(self.program, owner), self.program.called(it, owner)
        names = [f"value{at}" for at in range(len(it.arguments))]
        lines = [site(False), f"auto to = {plain.expression(it.receiver)};"]
        lines += [
            f"{of_type(p.type)}{name} = {plain.expression(e)};"
            for name, p, e in zip(names, method.parameters, it.arguments)
        ]
        lines.append(f"{of_type(method.result)}answer;")
        alone = f"answer = to->{it.method}_({', '.join(names)});"
        many = f"answer = to->{it.method}_shared({', '.join(['w', 'LEVELS', *names])});"
        lines += [*region("1", [alone], [many]), "return answer;"]
        return f"[&]() -> {of_type(method.result).strip()} {{ {' '.join(lines)} }}()"

    def begins_with_loop(
        self, items: list[Statement] | tuple[Statement, ...], owner: str, extent: Extent, depth: int = 0
    ) -> bool:
        """Whether the first calls stand in a loop of which turns can be tried alone."""
        for item in items:
            if not calls(item):
                continue
            if isinstance(item, Block):
                return self.begins_with_loop(item.items, owner, extent, depth)
            if isinstance(item, If):
                return self.begins_with_loop(listed(item.yes), owner, extent, depth)
            if isinstance(item, Call) and depth < 5:
                method = self.program.called(item, owner)
                return walk_of(method, extent) is None and self.begins_with_loop(
                    [method.body], method.owner, extent, depth + 1
                )
            return isinstance(item, For) and counted(item) is not None
        return False

    def methods(self) -> list[tuple[Class, str, Lines]]:
        """Of the bodies that share: their classes, what declares them there, and their lines."""
        found = [body for sharing in self.extents for body in sharing.methods()]
        return found if self.options.is_plain or not self.options.shares_values else found + self.forks.methods()

    def kinds(self) -> set[str]:
        """The names of the kinds that have copies."""
        return {kind.name for sharing in self.extents for kind in sharing.extent.kinds.values() if kind.has_copies()}


def counter_of(it: For) -> str:
    """The name of a loop's counter, which no other has."""
    return it.first.local.name if isinstance(it.first, Declare) else ""


def site(begins_with_loop: bool) -> str:
    return f"static Site site({'true' if begins_with_loop else 'false'});"


def region(size: str, alone: Lines, many: Lines) -> Lines:
    head = f"region(site, {size}, [&]"
    return [*braced(head, alone, "},"), *indented(braced("[&]([[maybe_unused]] Worker &w)", many, "});"))]
