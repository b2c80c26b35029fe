"""Not proved: value methods that go in step and differ in what they add up become one function with several sums. So
`ax += b->pull_x(c); ay += b->pull_y(c);` walks once where the text walks twice. Value methods change nothing, so only
what they and their arguments read must not be a sum that is updated on the way."""

from __future__ import annotations

from dataclasses import replace
from typing import Sequence

from .kinds import closure
from .tree import Asked, Binary, Block, Declare, Expression, Fill, For, Foreign, If, Item, Local, Method
from .tree import Number, Own, Pick, Program, Put, Return, Statement, Unary, While, all_inside, asked, inside, listed

Lists = Sequence[Sequence[Statement]]


class Step:
    """Bodies that go in step: the first decides, the locals of the others are known by its names."""

    def __init__(self, fuser: Fuser, methods: Sequence[Method], sums: Sequence[Local]):
        self.fuser, self.sums = fuser, sums
        self.names = [dict(zip(each.parameters, methods[0].parameters)) for each in methods]
        self.own = [accumulator(each) for each in methods]

    def renamed(self, it: Expression, at: int) -> Expression:
        return renamed(it, self.names[at])

    def same(self, each: Sequence[Expression | None]) -> bool:
        """Whether expressions are the same, and read none of the sums."""
        first = each[0]
        if first is None or any(it is None for it in each):
            return all(it is None for it in each)
        return all(
            it is not None and self.renamed(it, at) == first and self.own[at] not in inside(it)
            for at, it in enumerate(each)
        )

    def lists(self, lists: Lists) -> list[Statement] | None:
        if len({len(each) for each in lists}) != 1:
            return None
        found: list[Statement] = []
        for items in zip(*lists):
            one = self.statement(items)
            if one is None:
                return None
            found += one
        return found

    def statement(self, items: Sequence[Statement]) -> list[Statement] | None:
        first = items[0]
        if any(type(it) is not type(first) for it in items):
            return None
        if isinstance(first, Put):
            return self.put([it for it in items if isinstance(it, Put)])
        if isinstance(first, Declare):
            return self.declare([it for it in items if isinstance(it, Declare)])
        if isinstance(first, Block):
            inner = self.lists([listed(it) for it in items])
            return None if inner is None else [Block(tuple(inner))]
        if isinstance(first, If):
            return self.branch([it for it in items if isinstance(it, If)])
        if isinstance(first, (While, For)):
            return self.loop([it for it in items if isinstance(it, (While, For))])
        return None

    def put(self, items: Sequence[Put]) -> list[Statement] | None:
        values = [added(it, own) for it, own in zip(items, self.own)]
        if all(value is None for value in values):
            is_same = all(replace(it, target=items[0].target, value=items[0].value) == items[0] for it in items)
            targets = [it.target for it in items]
            return [items[0]] if is_same and self.same(targets) and self.same([it.value for it in items]) else None
        found = [value for value in values if value is not None]
        if len(found) < len(values):
            return None
        fill = self.fill(found)
        if fill is not None:
            return [fill]
        return [Put(total, "+=", self.renamed(value, at)) for at, (total, value) in enumerate(zip(self.sums, found))]

    def fill(self, values: Sequence[Expression]) -> Fill | None:
        """Calls of methods that are one function, too."""
        calls = [it for it in values if isinstance(it, Asked)]
        if len(calls) < len(values) or not self.same([it.receiver for it in calls]):
            return None
        if any(len(it.arguments) != len(calls[0].arguments) for it in calls):
            return None
        if not all(self.same(each) for each in zip(*(it.arguments for it in calls))):
            return None
        methods = [self.fuser.program.called(it, self.fuser.owner) for it in calls]
        name = self.fuser.family(methods)
        return None if name is None else Fill(calls[0].receiver, name, calls[0].arguments, tuple(self.sums))

    def declare(self, items: Sequence[Declare]) -> list[Statement] | None:
        if any(it.local.type != items[0].local.type for it in items) or not self.same([it.value for it in items]):
            return None
        for names, it in zip(self.names, items):
            names[it.local] = items[0].local
        return [items[0]]

    def branch(self, items: Sequence[If]) -> list[Statement] | None:
        yes, no = self.lists([listed(it.yes) for it in items]), self.lists([listed(it.no) for it in items])
        if yes is None or no is None or not self.same([it.test for it in items]):
            return None
        return [If(items[0].test, Block(tuple(yes)), Block(tuple(no)) if no else None)]

    def loop(self, items: Sequence[While | For]) -> list[Statement] | None:
        loops = [it for it in items if isinstance(it, For)]
        heads = [self.statement([it.first for it in loops])] if loops else []
        heads += [self.statement([it.after for it in loops])] if loops else []
        if None in heads or not self.same([it.test for it in items]):
            return None
        body = self.lists([listed(it.body) for it in items])
        return None if body is None else [replace(items[0], body=Block(tuple(body)))]


def renamed(it: Expression, names: dict[Local, Local]) -> Expression:
    if isinstance(it, Local):
        return names.get(it, it)
    if isinstance(it, Foreign):
        return Foreign(renamed(it.of, names), it.name)
    if isinstance(it, Unary):
        return Unary(it.operator, renamed(it.of, names))
    if isinstance(it, Item):
        of = renamed(it.of, names)
        assert isinstance(of, (Own, Foreign))
        return Item(of, renamed(it.at, names))
    if isinstance(it, Asked):
        return Asked(renamed(it.receiver, names), it.method, tuple(renamed(each, names) for each in it.arguments))
    if isinstance(it, (Binary, Pick)):
        return replace(it, left=renamed(it.left, names), right=renamed(it.right, names))
    return it


def added(it: Put, own: Local) -> Expression | None:
    """What a put adds to the sum of its method, if it does only that."""
    value = it.value
    if it.target != own:
        return None
    if it.operator == "=" and isinstance(value, Binary) and value.operator == "+" and value.left == own:
        value = value.right
    elif it.operator != "+=":
        return None
    return None if own in inside(value) else value


def accumulator(method: Method) -> Local:
    first = method.body.items[0]
    assert isinstance(first, Declare)
    return first.local


def is_sum(method: Method) -> bool:
    """Whether a body is `long s = 0; .. return s;`."""
    items = method.body.items
    if method.result != "long" or len(items) < 2 or not isinstance(items[0], Declare) or items[0].local.type != "long":
        return False
    return items[0].value in (None, Number("0")) and items[-1] == Return(items[0].local)


class Fuser:
    """Fuses what operations call."""

    def __init__(self, program: Program):
        self.program, self.owner = program, ""
        self.made: dict[tuple[str, ...], str | None] = {}
        self.count = 0

    def family(self, methods: Sequence[Method]) -> str | None:
        """The name of one function for these value methods, if they are one."""
        key = tuple(repr(each) for each in methods)
        first = methods[0]
        types = [[each.type for each in method.parameters] for method in methods]
        if key in self.made:
            return self.made[key]
        if (
            len(set(key)) < len(key)
            or any(each.owner != first.owner for each in methods)
            or types.count(types[0]) < len(types)
        ):
            return None
        if not all(is_sum(each) for each in methods):
            return None
        self.count += 1
        name = self.made[key] = f"{first.name}_sums{self.count}"  # while it is made: it may call itself
        owner, self.owner = self.owner, first.owner
        sums = [Local(f"sum{at}", "long&") for at in range(len(methods))]
        body = Step(self, methods, sums).lists([each.body.items[1:-1] for each in methods])
        self.owner = owner
        if body is None:
            self.made[key] = None
            return None
        made = Method(first.owner, name, "void", [*first.parameters, *sums], Block(tuple(body)), True)
        self.program.classes[first.owner].methods[name] = made
        return name

    def operation(self, method: Method) -> None:
        self.owner = method.owner
        method.body = Block(tuple(self.statements(method.body.items)))

    def statements(self, items: Sequence[Statement]) -> list[Statement]:
        found: list[Statement] = []
        at = 0
        while at < len(items):
            run = self.run(items[at:])
            while len(run) > 1 and (fused := self.fused(run)) is None:
                run.pop()
            found += fused if len(run) > 1 and fused is not None else [self.within(items[at])]
            at += max(1, len(run))
        return found

    def within(self, it: Statement) -> Statement:
        if isinstance(it, Block):
            return Block(tuple(self.statements(it.items)))
        if isinstance(it, If):
            return replace(it, yes=self.within(it.yes), no=None if it.no is None else self.within(it.no))
        return replace(it, body=self.within(it.body)) if isinstance(it, (While, For)) else it

    @staticmethod
    def run(items: Sequence[Statement]) -> list[tuple[Own, Asked]]:
        """The updates of own fields, from the first statement on, by calls that differ in their method alone."""
        found: list[tuple[Own, Asked]] = []
        for it in items:
            if (
                not isinstance(it, Put)
                or not isinstance(it.target, Own)
                or it.operator != "+="
                or not isinstance(it.value, Asked)
            ):
                break
            like = found[0][1] if found else it.value
            if (it.value.receiver, it.value.arguments) != (like.receiver, like.arguments) or it.target in [
                field for field, _ in found
            ]:
                break
            found.append((it.target, it.value))
        return found

    def fused(self, run: Sequence[tuple[Own, Asked]]) -> list[Statement] | None:
        if self.reads([call for _, call in run], {(self.owner, field.name) for field, _ in run}):
            return None
        call = run[0][1]
        name = self.family([self.program.called(each, self.owner) for _, each in run])
        if name is None:
            return None
        self.count += 1
        parts = [Local(f"part{self.count}_{at}p", "long") for at in range(len(run))]
        found: list[Statement] = [Declare(part, Number("0")) for part in parts]
        found.append(Fill(call.receiver, name, call.arguments, tuple(parts)))
        return found + [Put(field, "+=", part) for (field, _), part in zip(run, parts)]

    def reads(self, calls: Sequence[Asked], fields: set[tuple[str, str]]) -> bool:
        """Whether calls, with what their receivers and arguments ask, read one of these fields."""
        own = [part for call in calls for part in inside(call)]
        first = [self.program.called(part, self.owner) for part in own if isinstance(part, Asked)]
        led = closure(first, lambda each: asked(each.body, each.owner, self.program))
        read = [(part, self.owner) for part in own] + [
            (part, each.owner) for each in led for part in all_inside(each.body)
        ]
        return any(place_of(part, owner, self.program) in fields for part, owner in read)


def place_of(it: Expression, owner: str, program: Program) -> tuple[str, str] | None:
    if isinstance(it, Own):
        return owner, it.name
    return (program.class_of(it.of, owner), it.name) if isinstance(it, Foreign) else None


def fuse(program: Program) -> None:
    """Changes the bodies of operations, and adds the functions that they call to their classes."""
    fuser = Fuser(program)
    for method in [each for each in program.methods() if each.result == "void"]:
        fuser.operation(method)
