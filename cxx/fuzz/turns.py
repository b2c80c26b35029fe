# Not proved: a part of the fuzzer of cxx/, which compares the rewrites with g++ by tests alone.
"""Random bodies of loops, functions and recursions over linked items, of the kinds that the rewrites take, and nearly so."""

from __future__ import annotations

from dataclasses import dataclass, field, replace
from random import Random

Lines = list[str]
NUMBERS = ("a", "b", "c")


def indented(lines: Lines) -> Lines:
    """The lines one step further in."""
    return ["  " + line for line in lines]


@dataclass
class Scene:
    """What a body may name: numbers to read, locals to change, items that aren't null, and what it may call."""

    numbers: list[str] = field(default_factory=list)
    locals: list[str] = field(default_factory=list)
    flags: list[str] = field(default_factory=list)
    items: list[str] = field(default_factory=list)
    tally: str = "tally"
    in_loop: bool = False
    calls: bool = True
    # Whether an item's flag may be written, by which recursions end.
    marks: bool = True

    def inner(self, **more: list[str]) -> Scene:
        """The same with more to read."""
        made = replace(self)
        for name in ("numbers", "locals", "flags", "items"):
            setattr(made, name, [*getattr(self, name), *more.get(name, [])])
        return made


class Turns:
    """Writes bodies from one source of random numbers."""

    def __init__(self, random: Random) -> None:
        self.random = random
        self.made = 0
        # Whether items have a spot, a struct of numbers.
        self.spots = False

    def fresh(self, stem: str) -> str:
        self.made += 1
        return f"{stem}{self.made}"

    def chance(self, share: float) -> bool:
        return self.random.random() < share

    # Expressions ------------------------------------------------------------------------------------------------------

    def number(self, scene: Scene, depth: int = 1) -> str:
        """A small number."""
        random = self.random
        if depth == 0 or self.chance(0.3):
            able = [str(random.randint(0, 9)), *scene.numbers]
            able += [f"{it}->{random.choice(NUMBERS)}" for it in scene.items] * 2
            if self.chance(0.08):
                able = [f"{scene.tally}->{random.choice(('sum', 'most', 'count'))}", "shared"]
            return random.choice(able)
        first, second = self.number(scene, depth - 1), self.number(scene, depth - 1)
        ways = [
            f"{first} + {second}",
            f"({first} - {second})",
            f"{first} % 7 * ({second})",
            f"({first}) / {random.randint(2, 5)}",
        ]
        ways += [
            f"({first}) % ({second} % 5 + 9)",
            f"({first} > {second} ? {first} : {second})",
            f"std::max<long>({first}, {second})",
        ]
        ways += [f"({first} ^ {second}) % 64"]
        if self.spots and scene.items and self.chance(0.15):
            one, other = random.choice(scene.items), random.choice(scene.items)
            return random.choice(
                (
                    f"{one}->spot.x",
                    f"{one}->spot.y",
                    f"{one}->spot.dot({other}->spot) % 83",
                    f"apart({one}->spot, {other}->spot) % 59",
                )
            )
        if scene.items and scene.calls and self.chance(0.4):
            return f"{random.choice(scene.items)}->value{random.randint(0, 1)}({first})"
        return f"({random.choice(ways)})"

    def condition(self, scene: Scene) -> str:
        random = self.random
        first, second = self.number(scene), self.number(scene, 0)
        ways = [f"{first} {random.choice(('<', '>', '<=', '!=', '=='))} {second}"] * 3
        ways += [f"{it}->on" for it in scene.items] + [f"!{it}->on" for it in scene.items]
        return random.choice(ways)

    # Statements -------------------------------------------------------------------------------------------------------

    def body(self, scene: Scene, most: int, depth: int = 1) -> Lines:
        lines: Lines = []
        inner = scene.inner()
        for _ in range(self.random.randint(1, most)):
            lines += self.statement(inner, depth)
        return lines

    def statement(self, scene: Scene, depth: int) -> Lines:
        ways = [self.own, self.own, self.own, self.tallied, self.tallied, self.carried, self.local]
        if depth > 0:
            ways += [self.guarded, self.neighbours, self.counted]
            ways += [self.mate] if scene.items else []
        if scene.calls:
            ways += [self.called, self.called]
        if scene.in_loop and self.chance(0.1):
            return [f"if ({self.condition(scene)}) {'continue' if self.chance(0.8) else 'break'};"]
        return self.random.choice(ways)(scene, depth)

    def own(self, scene: Scene, depth: int) -> Lines:
        """An update of an item."""
        if not scene.items:
            return self.tallied(scene, depth)
        random, it = self.random, self.random.choice(scene.items)
        place, value = f"{it}->{random.choice(NUMBERS)}", self.number(scene)
        if self.spots and self.chance(0.25):
            return [self._moved(it, random.choice(scene.items), value, scene)]
        ways = [
            f"{place} += {value};",
            f"{place} -= {value};",
            f"{place} = {value};",
            f"{place} = {place} * 3 % 101 + {value};",
        ]
        ways += [f"if ({value} {random.choice(('>', '<'))} {place}) {place} = {value};"]
        ways += [f"{it}->on = {random.choice(('true', self.condition(scene)))};"] if scene.marks else []
        ways += [
            f"{it}->slot[({value}) & 3] += {self.number(scene, 0)};",
            f"{place}++;",
            f"{it}->one = {it}->two = {value};",
        ]
        return [random.choice(ways)]

    def _moved(self, it: str, other: str, value: str, scene: Scene) -> str:
        """An update of an item's spot."""
        made = f"Spot({value} % 50, {self.number(scene, 0)})"
        ways = [
            f"{it}->spot = {it}->spot + {made};",
            f"{it}->spot = {made};",
            f"{it}->spot.x += {value};",
            f"{it}->spot.turn();",
        ]
        ways += [f"{it}->spot = {other}->spot;", f"{it}->spot.add({made});", f"{it}->spot.add({other}->spot);"]
        if scene.calls and self.chance(0.3):
            ways = [f"{it}->shift({made});", f"{it}->shift({other}->spot);"]
        return self.random.choice(ways)

    def tallied(self, scene: Scene, depth: int) -> Lines:
        """An update of what all items share."""
        random, t = self.random, scene.tally
        value = self.number(scene)
        ways = [
            f"{t}->sum += {value};",
            f"{t}->count++;",
            f"if ({value} > {t}->most) {t}->most = {value};",
            f"if ({value} < {t}->least) {t}->least = {value};",
        ]
        ways += [f"{t}->bin[({value}) & 7]++;", f"{t}->flag = true;", f"{t}->add({value});", f"shared += {value};"]
        if self.chance(0.1):
            ways = [f"shared = {value};", f"{t}->sum = {t}->sum % 97 + {value};"]
        line = random.choice(ways)
        return [f"if ({self.condition(scene)}) {line}"] if self.chance(0.3) and not line.startswith("if") else [line]

    def carried(self, scene: Scene, depth: int) -> Lines:
        """An update of a local of outside."""
        if not scene.locals:
            return self.own(scene, depth)
        local, value = self.random.choice(scene.locals), self.number(scene)
        ways = [
            f"{local} += {value};",
            f"{local} += {value};",
            f"if ({value} > {local}) {local} = {value};",
            f"{local} = {local} * 3 % 1009 + {value};",
        ]
        if scene.flags:
            ways.append(f"if ({self.condition(scene)}) {self.random.choice(scene.flags)} = true;")
        return [self.random.choice(ways)]

    def local(self, scene: Scene, depth: int) -> Lines:
        name = self.fresh("d")
        line = f"long {name} = {self.number(scene, 2)};"
        scene.numbers.append(name)
        return [line, *self.statement(scene, 0)]

    def guarded(self, scene: Scene, depth: int) -> Lines:
        lines = [f"if ({self.condition(scene)}) {{", *indented(self.body(scene, 3, depth - 1)), "}"]
        if self.chance(0.3):
            lines += ["else {", *indented(self.body(scene, 2, depth - 1)), "}"]
        return lines

    def mate(self, scene: Scene, depth: int) -> Lines:
        """Work on the item that another points to, if there is one."""
        it, name = self.random.choice(scene.items), self.fresh("q")
        inner = scene.inner(items=[name])
        return [
            f"if (Item *{name} = {it}->{self.random.choice(('mate', 'next'))}) {{",
            *indented(self.body(inner, 2, depth - 1)),
            "}",
        ]

    def neighbours(self, scene: Scene, depth: int) -> Lines:
        """A loop over an item's neighbours."""
        if not scene.items:
            return self.guarded(scene, depth)
        name, it = self.fresh("o"), self.random.choice(scene.items)
        inner = scene.inner(items=[name])
        inner.in_loop = True
        return [f"for (Item *{name} : {it}->near) {{", *indented(self.body(inner, 2, depth - 1)), "}"]

    def counted(self, scene: Scene, depth: int) -> Lines:
        """A small loop that counts, with a local of its own before it now and then."""
        name, local = self.fresh("i"), self.fresh("s")
        inner = scene.inner(numbers=[name, local], locals=[local])
        inner.in_loop = True
        head = f"for (long {name} = {self.random.randint(0, 1)}; {name} {self.random.choice(('<', '<='))} {self.random.randint(2, 4)}; {name}++) {{"
        lines = [f"long {local} = {self.number(scene, 0)};", head, *indented(self.body(inner, 2, depth - 1)), "}"]
        scene.numbers.append(local)
        return lines

    def called(self, scene: Scene, depth: int) -> Lines:
        """A call of a method of an item, or of a function on it."""
        if not scene.items:
            return self.tallied(scene, depth)
        random, it, value = self.random, self.random.choice(scene.items), self.number(scene)
        other = random.choice([*scene.items, f"{it}->mate", "nullptr"])
        ways = [
            f"{it}->change{random.randint(0, 2)}({value});",
            f"{it}->report({scene.tally}, {value});",
            f"meet({it}, {other}, {value});",
            f"touch({other}, {value});",
        ]
        return [random.choice(ways)]
