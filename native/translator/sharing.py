"""Not proved: the bodies of operations that share their work, in one extent: fields by their kinds, calls and loops
from which others can be given some.

A call is followed by the rest of its body, which becomes a function of its own, so that it can be given away while the
call runs. As nothing that the extent writes is read behind a call, the rest needs only the values that locals have
then."""

from __future__ import annotations

from itertools import groupby, takewhile
from typing import Sequence

from .kinds import Extent, Kind, flag, moved, taken
from .plain import Lines, Plain, braced, indented, of_type, parameters
from .tree import Block, Call, Class, Declare, Expression, For, If, Item, Local, Method, Own, Program, Put
from .tree import Statement, calls, counted, listed, puts, within
from .walks import walk_of
from .weights import FEW, Weights

# Bytes with the head: longer objects may lie over the border of a page (runtime/objects.h).
LONG_OBJECT = 1024
# Of turns that are run without a look at who asks: how much they take together, and how many there are.
BATCH, LONGEST = 512, 64


class Sharing:
    """Writes the bodies of one extent, whose number is a part of their names. `owner` is the class in whose body a loop
    stands."""

    def __init__(self, program: Program, weights: Weights, extent: Extent, number: int, is_forced: bool):
        self.program, self.weights, self.extent, self.number, self.is_forced = (
            program,
            weights,
            extent,
            number,
            is_forced,
        )
        self.owner = ""
        self.plain = Plain(program, "")
        self.method: Method | None = None
        self.rests = self.values = 0

    def name(self, method: str) -> str:
        return f"{method}_shared{self.number}"

    # Where a region begins, in a body of `owner`

    def begun_by_call(self, it: Call, owner: str) -> tuple[Lines, Lines, Lines]:
        """What the call is handed, and it alone and by many."""
        self.begin(owner)
        handed, text = self.handed(it)
        names = ", ".join(f"value{at}" for at in range(len(it.arguments)))
        return [f"auto {each};" for each in handed], [f"to->{it.method}_({names});"], [text.format(levels="LEVELS")]

    def begun_by_loop(self, it: For, owner: str, bounds: tuple[str, str] | None = None) -> Lines:
        """Of a loop by its counter the turns between `bounds`, if they are told."""
        self.begin(owner)
        found = counted(it)
        if bounds is None or found is None:
            return self.loop(it, False)
        return self.counted_loop(it, found[0], *bounds)

    def begin(self, owner: str) -> None:
        self.method, self.owner, self.rests, self.values = None, owner, 0, 0
        self.plain = Plain(self.program, owner)

    # Methods

    def methods(self) -> list[tuple[Class, str, Lines]]:
        """Of each body its class, what declares it in it, and its lines behind all classes."""
        found: list[tuple[Class, str, Lines]] = []
        for method in self.extent.members:
            self.begin(method.owner)
            self.method = method
            found += self.bodies(method)
        return found

    def bodies(self, method: Method) -> list[tuple[Class, str, Lines]]:
        walk = walk_of(method, self.extent)
        if walk is None:
            return [self.body(method, self.name(method.name), self.whole(method, method.body))]
        turn = f"{method.name}_turn{self.number}"
        arguments = ", ".join(["w", "0", *(each.name for each in method.parameters)])
        one = f"[=](Worker &w, {method.owner}_class *it) {{ it->{turn}({arguments}); }}"
        along = f"walk<&{method.owner}_class::{walk.next}_>(w, this, {one});"
        return [
            self.body(method, turn, self.whole(method, walk.turn)),
            self.body(method, self.name(method.name), [along]),
        ]

    def body(self, method: Method, name: str, lines: Lines) -> tuple[Class, str, Lines]:
        declared = parameters(method, ["[[maybe_unused]] Worker &w", "[[maybe_unused]] int levels"])
        head = f"inline void {method.owner}_class::{name}({declared})"
        return self.program.classes[method.owner], f"void {name}({declared});", braced(head, lines)

    def whole(self, method: Method, body: Block) -> Lines:
        kinds = sorted(kind.name for kind in self.extent.used(method) if kind.has_copies())
        held = self.extent.has_lock(method)
        lines = ["Locked held(this);"] if held else []
        if not self.is_long(method.owner):
            lines += [f"w.touch<{kind}>(this);" for kind in kinds]
        return lines + self.list(body.items, None, held)

    def is_long(self, owner: str) -> bool:
        return self.program.classes[owner].words() * 8 + 16 > LONG_OBJECT

    # Lists of statements, behind which the function `rest` comes, if there is one. Where `held` the lock may still be
    # held.

    def list(self, items: Sequence[Statement], rest: str | None, held: bool) -> Lines:
        lines: Lines = []
        for at, item in enumerate(items):
            if not calls(item):
                if at == 0 or calls(items[at - 1]):
                    lines += self.simples(list(takewhile(lambda each: not calls(each), items[at:])))
                continue
            if isinstance(item, Call) and at + 1 < len(items) and self.is_light(item):
                lines += self.call(item, None, held)
                held = False
                continue
            following = items[at + 1 :]
            if not any(calls(each) for each in following):
                following = ()  # what stands behind the last call is of no use to anybody
            inner = rest
            if following and self.changes(item, following):
                return lines + self.unshared(items[at:], rest, held)
            if following:
                self.rests += 1
                inner = f"rest{self.rests}"
                lines += braced(
                    f"auto {inner} = [=](Worker &w, int levels) mutable", self.list(following, rest, False), "};"
                )
            return lines + self.calling(item, inner, held)
        return lines + self.end(rest, held)

    @staticmethod
    def end(rest: str | None, held: bool) -> Lines:
        return [] if rest is None else [*(["held.give();"] if held else []), f"{rest}(w, levels);"]

    @staticmethod
    def changes(item: Statement, following: Sequence[Statement]) -> bool:
        """Whether a statement that calls puts to a local that stands before it and is seen behind it."""
        own = {each.local.name for each in within(item) if isinstance(each, Declare)}
        return any(isinstance(put.target, Local) and put.target.name not in own for put in puts(item))

    def is_light(self, it: Call) -> bool:
        """Whether neither a call nor what comes behind it is worth other workers while it runs."""
        return not self.is_forced and self.weights.method(self.program.called(it, self.owner)) <= FEW

    def calling(self, item: Statement, rest: str | None, held: bool) -> Lines:
        """A statement that has calls, and then the rest."""
        if isinstance(item, Block):
            return braced("", self.list(item.items, rest, held))
        if isinstance(item, Call):
            return self.call(item, rest, held)
        if isinstance(item, For):
            return self.loop(item, held) + self.end(rest, False)
        assert isinstance(item, If)
        field = flag(item)
        if field is not None and self.kind(field) is Kind.ONCE:
            return self.branches(f"(once({field.name}_))", listed(item.yes)[1:], (), rest, held)
        return self.branches(self.plain.condition(item.test), listed(item.yes), listed(item.no), rest, held)

    def branches(
        self, test: str, yes: Sequence[Statement], no: Sequence[Statement], rest: str | None, held: bool
    ) -> Lines:
        lines = braced(f"if {test}", self.list(yes, rest, held))
        other = self.list(no, rest, held)
        return lines + (braced("else", other) if other else [])

    def call(self, it: Call, rest: str | None, held: bool) -> Lines:
        """Receiver and arguments are taken before the lock is given back."""
        taken_, text = self.handed(it)
        give = ["held.give();"] if held else []
        if rest is None:
            return braced("", [f"auto {each};" for each in taken_] + give + [text.format(levels="below(levels)")])
        call = f"auto call = [{', '.join(taken_)}](Worker &w, int levels) {{ {text.format(levels='levels')} }};"
        return braced("", [call, *give, f"call_then(w, levels, call, {rest});"])

    def handed(self, it: Call) -> tuple[Lines, str]:
        """What a call is handed, as captures, and its text."""
        method = self.program.called(it, self.owner)
        names = [f"value{at}" for at in range(len(it.arguments))]
        found = [f"to = {self.plain.expression(it.receiver)}"]
        found += [
            f"{name} = ({of_type(p.type)})({self.plain.expression(value)})"
            for name, value, p in zip(names, it.arguments, method.parameters)
        ]
        return found, f"to->{self.name(it.method)}({', '.join(['w', '{levels}', *names])});"

    def unshared(self, items: Sequence[Statement], rest: str | None, held: bool) -> Lines:
        """Calls whose rest isn't a function of its own, since locals change on the way."""
        give = ["held.give();"] if held else []
        lines: Lines = []
        for item in items:
            lines += self.unshared_one(item, give)
        return lines + self.end(rest, held)

    def unshared_one(self, item: Statement, give: Lines) -> Lines:
        if not calls(item):
            return self.simple(item)
        if isinstance(item, Block):
            return braced("", [line for each in item.items for line in self.unshared_one(each, give)])
        if isinstance(item, For):
            return give + self.loop(item, False)
        if isinstance(item, Call):
            taken_, text = self.handed(item)
            return braced(
                "", [f"auto {each};" for each in taken_] + give + [text.format(levels="below(levels)"), "look(w);"]
            )
        assert isinstance(item, If)
        field = flag(item)
        is_once = field is not None and self.kind(field) is Kind.ONCE
        test = f"(once({field.name}_))" if field is not None and is_once else self.plain.condition(item.test)
        yes = listed(item.yes)[1:] if is_once else listed(item.yes)
        lines = braced(f"if {test}", [line for each in yes for line in self.unshared_one(each, give)])
        no = [line for each in listed(item.no) for line in self.unshared_one(each, give)]
        return lines + (braced("else", no) if no else [])

    # Loops

    def loop(self, it: For, held: bool) -> Lines:
        give = ["held.give();"] if held else []
        found = counted(it)
        if found is None:  # its bound looks at the counter
            return give + braced(self.plain.head(it), self.turn(it))
        counter, first, bound = found
        return give + self.counted_loop(it, counter, self.plain.expression(first), self.plain.expression(bound))

    def turn(self, it: For) -> Lines:
        """In a turn no lock is held, and nothing that is written is read. Its calls begin without frames: the loop has
        turns to give."""
        lines = self.list(listed(it.body), None, False)
        return ["const int levels = 0;", *lines] if any("levels" in line for line in lines) else lines

    def counted_loop(self, it: For, counter: Local, first: str, bound: str) -> Lines:
        """A loop's turns among others, and some of them alone."""
        size = self.batch(it)
        name = counter.name
        head = f"loop<{size}>(w, {first}, {bound}, [=]([[maybe_unused]] Worker &w, [[maybe_unused]] long {name})"
        alone = braced(f"for (; {name} < end; {name}++)", self.plain.statements(listed(it.body)))
        return [*braced(head, self.turn(it), "},"), *indented(braced(f"[=](long {name}, long end)", alone, "});"))]

    def batch(self, it: For) -> int:
        """How many turns take a quarter of a microsecond or so, by what the text says that one takes at most."""
        most = int(BATCH / (1 + self.weights.statement(it.body, self.owner)))
        return 1 if self.is_forced else max(1, min(LONGEST, most))

    # Statements without calls

    def kind(self, target: Own | Item) -> Kind:
        return Kind.OTHER if self.method is None else self.extent.kind(self.owner, target)

    def simples(self, items: Sequence[Statement]) -> Lines:
        """Updates of copies one behind the other are made together: nothing that they take is among what they change."""
        lines: Lines = []
        for is_update, group in groupby(items, self.is_update):
            run = list(group)
            updates = [it for it in run if isinstance(it, Put)]
            if is_update and len(updates) > 1:
                lines += self.updates(updates)
                continue
            for it in run:
                lines += self.simple(it)
        return lines

    def is_update(self, it: Statement) -> bool:
        return isinstance(it, Put) and not isinstance(it.target, Local) and self.kind(it.target).has_copies()

    def updates(self, items: Sequence[Put]) -> Lines:
        """First all values, then what they change: sums of one field in one step."""
        found: list[tuple[Own | Item, Kind, list[str]]] = []
        lines: Lines = []
        for it in items:
            value = taken(it)
            assert value is not None and not isinstance(it.target, Local)
            self.values += 1
            lines.append(f"const long added{self.values} = {self.plain.expression(value.value)};")
            known = next((each for each in found if each[0] == it.target and value.kind is Kind.SUM), None)
            if known is None:
                found.append((it.target, value.kind, [f"added{self.values}"]))
            else:
                known[2].append(f"added{self.values}")
        return lines + [self.accumulated(kind, target, " + ".join(names)) for target, kind, names in found]

    def simple(self, it: Statement) -> Lines:
        if isinstance(it, Block):
            return braced("", self.simples(it.items))
        if isinstance(it, If):
            return self.simple_if(it)
        if isinstance(it, For):
            return braced(self.plain.head(it), self.simples(listed(it.body)))
        if not isinstance(it, Put) or isinstance(it.target, Local):
            return self.plain.statement(it)
        kind = self.kind(it.target)
        found = taken(it)
        if kind.has_copies() and found is not None:
            return [self.accumulated(kind, it.target, self.plain.expression(found.value))]
        if kind is Kind.PUT:
            return [f"put({self.plain.expression(it.target)}, {self.plain.expression(it.value)});"]
        return self.plain.statement(it)

    def simple_if(self, it: If) -> Lines:
        move, field = moved(it), flag(it)
        if move is not None and self.kind(move[0]) is move[1].kind:
            return [self.accumulated(move[1].kind, move[0], self.plain.expression(move[1].value))]
        if field is not None and self.kind(field) is Kind.ONCE:
            return braced(f"if (once({field.name}_))", self.simples(listed(it.yes)[1:]))
        lines = braced(f"if {self.plain.condition(it.test)}", self.simples(listed(it.yes)))
        no = self.simples(listed(it.no))
        return lines + (braced("else", no) if no else [])

    def accumulated(self, kind: Kind, target: Own | Item, value: str) -> str:
        field = self.plain.expression(target)
        touch = f"w.touch<{kind.name}>(&{field}); " if self.is_long(self.owner) else ""
        return f"{touch}accumulate<{kind.name}>(w, {field}, {value});"
