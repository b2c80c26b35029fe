# Not proved: a part of the fuzzer of cxx/, which compares the rewrites with g++ by tests alone.
"""Random phases of kinds of their own: the least with its owner, tables, what is pulled back, what is asked for, lists that read each other."""

from __future__ import annotations

from turns import NUMBERS, Lines, Scene, Turns, indented

# Cells of two lists, each of which has a partner in the other.
CELLS = """
struct Cell {
  long v;
  Cell *next = nullptr, *from = nullptr;
  explicit Cell(long v) : v(v) {}
};
static Cell *cells(long n) {
  Cell *list = nullptr;
  for (long i = 0; i < n; i++) {
    Cell *c = new Cell(rnd(90));
    c->next = list;
    list = c;
  }
  return list;
}
""".strip().split(
    "\n"
)
LINKED = """
  Cell *red = cells(%d), *black = cells(%d);
  for (Cell *r = red, *b = black; r && b; r = r->next, b = b->next) {
    r->from = b;
    b->from = r;
  }
""".strip(
    "\n"
).split(
    "\n"
)


class Phases(Turns):
    """Writes such phases: members of `World` and their calls."""

    def special(self, at: int) -> tuple[Lines, str]:
        ways = [
            self.nearest,
            self.nearest,
            self.nearest_of_list,
            self.table,
            self.pulled,
            self.found,
            self.shared_first,
            self.named,
        ]
        ways += [self.put_first, self.guarded_pair]
        return self.random.choice(ways)(at)

    def _value(self, scene: Scene) -> str:
        """What is compared: often equal, and now and then too large to be one number with an index."""
        value = self.number(scene)
        return self.random.choice((value, f"({value}) % 5", f"({value}) * 2000000000000"))

    def nearest(self, at: int) -> tuple[Lines, str]:
        """The least or greatest of a vector, with its owner."""
        scene = Scene(numbers=["k"], items=["p"], in_loop=False)
        more = self.body(scene, 2, 0) if self.chance(0.4) else []
        sign, field = self.random.choice(("<", "<", ">", ">", "<=", ">=")), self.random.choice(NUMBERS)
        guard = f"{self.condition(scene)} && " if self.chance(0.3) else ""
        used = ["if (who) shared += who->c * 3 + who->a;"]
        way = self.random.randint(0, 3)
        if way == 0:
            start = self.random.choice(("items[0]", "items[0]", "list"))
            before, test, puts = [f"Item *who = {start};"], f"p->{field} {sign} who->{field}", "who = p;"
        elif way == 1:
            before, test, puts = ["Item *who = nullptr;"], f"(!who || p->{field} {sign} who->{field})", "who = p;"
        elif way == 2:
            worst = "1000" if sign[0] == "<" else "-1000"
            before = [f"long best = {worst};", "Item *who = nullptr;"]
            more.append(f"long d = {self._value(scene)};")
            test, puts = f"d {sign} best", "{ best = d; who = p; }"
            used.append("tally->sum += best;")
        else:
            before = ["Item *who = nullptr;", "long where = -1;"]
            test, puts = f"(where < 0 || items[i]->{field} {sign} items[where]->{field})", "where = i;"
            used = ["if (where >= 0) shared += items[where]->c + where;"]
        more.append(f"if ({guard}{test}) {puts}")
        if way == 3:
            loop = ["for (int i = 0; i < (int)items.size(); i++) {", "  Item *p = items[i];", *indented(more), "}"]
        else:
            loop = ["for (Item *p : items) {", *indented(more), "}"]
        return [f"void phase{at}(long k) {{", *indented(before + loop + used), "}"], f"w.phase{at}(t);"

    def nearest_of_list(self, at: int) -> tuple[Lines, str]:
        """The least of a list with its owner, and with the item before that."""
        scene = Scene(numbers=["k"], items=["p"])
        field, sign = self.random.choice(NUMBERS), self.random.choice(("<", ">", "<="))
        own = (
            [f"long d = {self.number(scene)};", f"if (d {sign} p->{field}) p->{field} = d;"] if self.chance(0.6) else []
        )
        more = self.body(scene, 1, 0) if self.chance(0.3) else []
        if self.chance(0.5):
            head, puts, step = (
                "Item *who = nullptr, *left = nullptr, *before = nullptr;",
                "{ who = p; left = before; }",
                "before = p, p = p->next",
            )
        else:
            head, puts, step = "Item *who = nullptr, *left = nullptr;", "who = p;", "p = p->next"
        test = f"!who || p->{field} {sign} who->{field}"
        loop = [f"for (Item *p = list; p; {step}) {{", *indented(own + more + [f"if ({test}) {puts}"]), "}"]
        used = ["if (who) shared += who->c;", "if (left) shared += left->c * 5;"]
        return [f"void phase{at}(long k) {{", *indented([head, *loop, *used]), "}"], f"w.phase{at}(t);"

    def table(self, at: int) -> tuple[Lines, str]:
        """Items that are put at the loop's own index."""
        scene = Scene(numbers=["k", "i"], items=["p"])
        wild = self.chance(0.2)
        value = self.number(scene) + (" + table[(i + 1) % 12]" if wild else "")
        index = self.random.choice(("i", "i", "i", "i", "(i + 1) % 12"))
        more = self.body(scene, 2, 0) if self.chance(0.4) else []
        put = [f"table[{index}] = {value};"]
        if self.chance(0.2):
            put = [f"if ({self.condition(scene)}) {put[0]}"]
        loop = ["for (int i = 0; i < (int)items.size(); i++) {", "  Item *p = items[i];", *indented(more + put), "}"]
        used = ["for (int i = 0; i < 12; i++) shared += table[i] * (i + 1);"]
        return [f"void phase{at}(long k) {{", *indented(loop + used), "}"], f"w.phase{at}(t);"

    def pulled(self, at: int) -> tuple[Lines, str]:
        """What one item adds to each of the others."""
        other = self.random.choice(("items[0]", "root"))
        body = [f"{other}->pull(p, {self.random.choice(('k', 'p->c', '3'))});"]
        if self.chance(0.6):
            body.insert(0, "p->one = p->two = 0;")
        if self.chance(0.4):
            body.append("p->a += 1;")
        loop = ["for (Item *p : items) {", *indented(body), "}"]
        return [f"void phase{at}(long k) {{", *indented(loop), "}"], f"w.phase{at}(t);"

    def pull(self) -> Lines:
        """The method of items that adds to another."""
        scene = Scene(numbers=["x"], items=["this"], calls=False, marks=False)
        first, second = self.number(scene), self.number(scene)
        lines = [f"if (p != this) p->one += {first};", f"p->two -= {second};"]
        if self.chance(0.6):
            lines.append(f"for (Item *o : near) p->one += o->{self.random.choice(NUMBERS)};")
        if self.chance(0.5):
            lines.append(f"if (right) right->pull(p, {self.random.choice(('x', 'x + 1', 'a % 7'))});")
        return ["void pull(Item *p, long x) const {", *indented(lines), "}"]

    def found(self, at: int) -> tuple[Lines, str]:
        """A function that only computes over all items, whose value is asked for."""
        scene = Scene(numbers=["k"], items=["p"], calls=False)
        value = self.number(scene)
        ways = [
            [f"if ({value} > r) r = {value};"],
            [f"if ({self.condition(scene)}) r += {value};"],
            [f"long d = {value};", "if (d < r) r = d;"],
        ]
        loop = ["for (const Item *p : items) {", *indented(self.random.choice(ways)), "}"]
        lines = [f"long phase{at}(long k) const {{", *indented(["long r = 0;", *loop, "return r;"]), "}"]
        return lines, self.random.choice((f"shared += w.phase{at}(t);", f"if (w.phase{at}(t) > 20) tally->count++;"))

    def shared_first(self, at: int) -> tuple[Lines, str]:
        """What a turn computes first, and then uses for several fields."""
        scene = Scene(numbers=["k"], items=["p"], calls=False, marks=False)
        first, second = self.number(scene, 2), self.number(scene, 2)
        one, two = self.random.sample(NUMBERS, 2)
        body = [f"long d = {first}, e = {second};"]
        body.append(f"if (d > e) p->{one} = p->{one} * 2 % 1009 + d; else p->{two} = (p->{two} + e) % 503;")
        if self.chance(0.5):
            body.append(f"p->{two} = p->{two} % 211 + d * e % 97;")
        return [
            f"void phase{at}(long k) {{",
            "  for (Item *p : items) {",
            *indented(indented(body)),
            "  }",
            "}",
        ], f"w.phase{at}(t);"

    def named(self, at: int) -> tuple[Lines, str]:
        """A second name of an item or tally."""
        scene = Scene(numbers=["k"], items=["q"], tally="t")
        body = ["Item *q = p;", "Tally *t = mine;", *self.body(scene, 3, 1)]
        return [
            f"void phase{at}(long k) {{",
            "  for (Item *p : items) {",
            *indented(indented(body)),
            "  }",
            "}",
        ], f"w.phase{at}(t);"

    def put_first(self, at: int) -> tuple[Lines, str]:
        """A local of outside that each turn puts before it asks for it."""
        scene = Scene(numbers=["k"], items=["p"])
        value = self.number(scene)
        inner = scene.inner(numbers=["d"])
        body = [f"d = {value};", *self.body(inner, 2, 1), f"p->{self.random.choice(NUMBERS)} += d;"]
        behind = ["shared += d;"] if self.chance(0.15) else []
        lines = ["long d = k;", "for (Item *p : items) {", *indented(body), "}", *behind]
        return [f"void phase{at}(long k) {{", *indented(lines), "}"], f"w.phase{at}(t);"

    def guarded_pair(self, at: int) -> tuple[Lines, str]:
        """Updates of an item under a condition on another."""
        other, (one, two) = self.random.choice(("mate", "next")), self.random.sample(NUMBERS, 2)
        body = [f"p->one += {self.random.choice(('2', 'k', f'p->{one}'))};", f"p->two += p->{other}->{two};"]
        lines = [f"if (p->{other} && p->{other}->{one} > {self.random.randint(0, 20)}) {{", *indented(body), "}"]
        head = self.random.choice(("for (Item *p : items) {", "for (Item *p = list; p; p = p->next) {"))
        return [f"void phase{at}(long k) {{", *indented([head, *indented(lines), "}"]), "}"], f"w.phase{at}(t);"

    def listed(self) -> tuple[Lines, Lines, list[str], Lines]:
        """Two lists of cells, of which each reads the other: classes, building, calls, and what is shown."""
        way = self.random.choice(
            ("c->v += 3 * c->from->v;", "c->v = c->v % 50 - c->from->v;", "if (c->from->v > 40) c->v -= c->from->v;")
        )
        turn = ["static void mix(Cell *list) {", f"  for (Cell *c = list; c; c = c->next) {way}", "}"]
        count = self.random.randint(1, 6)
        build = "\n".join(LINKED) % (count, count)
        calls = ["mix(red);", "for (Cell *c = black; c; c = c->next) c->v -= c->from->v % 9;"]
        shown = ['for (Cell *c = red; c; c = c->next) printf("%ld %ld\\n", c->v, c->from->v);']
        return [*CELLS, *turn], build.split("\n"), calls, indented(shown)
