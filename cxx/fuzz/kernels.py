# Not proved: a part of the fuzzer of cxx/, which compares the rewrites with g++ by tests alone.
"""Whole random programs of the kinds that the rewrites take: phases of loops and recursions over items that are linked as an array,
a list, a tree and a graph, from one seed."""

from __future__ import annotations

from random import Random

from phases import Phases
from turns import NUMBERS, Lines, Scene, indented

HEAD = """
#include <algorithm>
#include <cstdio>
#include <vector>
static long seed = %d, shared = 0;
static long rnd(long n) { seed = (seed * 1103515245 + 12345) %% 2147483648L; return seed / 65536 %% n; }
struct Tally {
  long sum = 0, most = 0, least = 1000000, count = 0, bin[8] = {};
  bool flag = false;
  void add(long v) { sum += v; count++; }
};
static Tally *tally;
""".strip()
FIELDS = """
  long a, b, c, one = 0, two = 0, slot[4] = {};
  bool on = false;
  Item *next = nullptr, *left = nullptr, *right = nullptr, *mate = nullptr;
  std::vector<Item *> near;
  explicit Item(long k) : a(rnd(50)), b(rnd(20)), c(k) {}
""".strip(
    "\n"
).split(
    "\n"
)
SPOT = """
struct Spot {
  long x, y;
  Spot(long x, long y) : x(x), y(y) {}
  Spot operator+(const Spot &o) const { return Spot((x + o.x) % 1009, (y + o.y) % 1009); }
  long dot(const Spot &o) const { return x % 90 * o.x + y * o.y % 90; }
  void turn() { long old = x; x = -y; y = old; }
  void add(const Spot &o) { x += o.y % 40; y -= o.x % 40; }
};
static long apart(const Spot &p, const Spot &q) { return p.x < q.x ? q.x - p.x + p.y % 9 : p.x - q.x + q.y % 9; }
""".strip().split(
    "\n"
)
BUILD = """
  const int n = %d;
  tally = new Tally;
  Tally *other = new Tally;
  World w;
  w.mine = other;
  for (int i = 0; i < n; i++) { Item *p = new Item(i); p->next = w.list; w.list = p; w.items.push_back(p); }
  for (int i = 0; i < n; i++) {
    if (2 * i + 1 < n) w.items[i]->left = w.items[2 * i + 1];
    if (2 * i + 2 < n) w.items[i]->right = w.items[2 * i + 2];
    if (rnd(3)) w.items[i]->mate = w.items[rnd(n)];
    for (long k = rnd(4); k > 0; k--) w.items[i]->near.push_back(w.items[rnd(n)]);
  }
  w.root = w.items[0];
""".strip(
    "\n"
).split(
    "\n"
)
SHOWN = """
  for (Item *p : w.items) {
    printf("%ld %ld %ld %ld %ld %d", p->a, p->b, p->c, p->one, p->two, p->on);
    for (long s : p->slot) printf(" %ld", s);
    printf("\\n");
  }
  for (Tally *t : {tally, other}) {
    printf("%ld %ld %ld %ld %d", t->sum, t->most, t->least, t->count, t->flag);
    for (long b : t->bin) printf(" %ld", b);
    printf("\\n");
  }
  printf("%ld\\n", shared);
""".strip(
    "\n"
).split(
    "\n"
)


class Kernels(Phases):
    """One program; `text` writes it."""

    def __init__(self, seed: int) -> None:
        super().__init__(Random(seed))
        self.seed = seed
        self.spots = self.chance(0.3)

    def text(self) -> str:
        """The program's text, the same for the same seed."""
        shown = "\n".join(SHOWN)
        if self.spots:
            shown = shown.replace(
                "  for (Item *p : w.items) {",
                '  for (Item *p : w.items) {\n    printf("%ld %ld\\n", p->spot.x, p->spot.y);',
            )
        shown = shown.replace(
            "for (Tally *t : {tally, other})", "Tally *both[2] = {tally, other};\n  for (Tally *t : both)"
        )
        phases = [self.special(at) if self.chance(0.4) else self.phase(at) for at in range(self.random.randint(2, 4))]
        recursions = [self.recursion(at) for at in range(self.random.randint(0, 2))]
        lines = (HEAD % self.random.randint(1, 999)).split("\n") + SPOT * self.spots + self.item() + self.functions()
        for text, _ in recursions:
            lines += text
        classes, build, listed, printed = self.listed() if self.chance(0.2) else ([], [], [], [])
        lines += classes
        world = [
            "std::vector<Item *> items;",
            "Item *list = nullptr, *root = nullptr;",
            "Tally *mine = nullptr;",
            "long table[12] = {};",
        ]
        for text, _ in phases:
            world += text
        lines += [
            "struct World {",
            *indented(world),
            "};",
            "int main() {",
            *("\n".join(BUILD) % self.random.randint(1, 11)).split("\n"),
            *build,
        ]
        calls = [*(call for _, call in phases + recursions), *listed]
        self.random.shuffle(calls)
        if self.chance(0.6):
            calls = [f"for (int t = 0; t < {self.random.randint(1, 3)}; t++) {{", *indented(calls), "}"]
        else:
            calls = ["int t = 1;", *calls]
        return "\n".join(lines + indented(calls) + shown.split("\n") + printed + ["  return 0;", "}"]) + "\n"

    # Items and functions ----------------------------------------------------------------------------------------------

    def item(self) -> Lines:
        """The class of items, with methods that change it and methods that compute."""
        scene = Scene(numbers=["x"], items=["this"], calls=False, marks=False)
        lines = ["struct Item {", *FIELDS]
        if self.spots:
            lines[-1] = "  Spot spot;\n  explicit Item(long k) : a(rnd(50)), b(rnd(20)), c(k), spot(k % 7, 3) {}"
            lines.append("  void shift(const Spot &s) { spot.x += s.x % 70; a += s.y % 30 - s.x % 9; }")
        for at in range(3):
            lines += indented([f"void change{at}(long x) {{", *indented(self.body(scene, 3)), "}"])
        handed = Scene(numbers=["x"], items=["this"], tally="t", calls=False, marks=False)
        lines += indented(["void report(Tally *t, long x) {", *indented(self.body(handed, 3)), "}"])
        for at in range(2):
            lines += indented([f"long value{at}(long x) const {{", *indented(self.computing()), "}"])
        lines += indented(self.pull())
        return [line.replace("this->", "") if self.chance(0.5) else line for line in lines] + ["};"]

    def computing(self) -> Lines:
        """The body of a method that only computes, by a loop now and then."""
        scene = Scene(numbers=["x", "r"], items=["this"], calls=False, marks=False)
        value = self.number(scene)
        ways = [
            [f"long r = x % 9; return {value} % 50;"],
            [
                "long r = 0;",
                f"for (Item *o : near) if (o->{self.random.choice(NUMBERS)} > r) r = o->b % 90;",
                "return r;",
            ],
            ["long r = x % 60 + 60, z = (r + 1) / 2;", "while (z < r) { r = z; z = (r + 99 / r) / 2; }", "return r;"],
            ["long r = 1;", f"for (int i = 0; i < 3; i++) r = (r * 3 + {value}) % 41;", "return r;"],
        ]
        return self.random.choice(ways)

    def functions(self) -> Lines:
        """Free functions over items, one of which may be null."""
        one = Scene(numbers=["x"], items=["p"], calls=False, marks=False)
        two = Scene(numbers=["x"], items=["p", "q"], calls=False, marks=False)
        test = self.random.choice(
            ("if (!p) return;", "if (p == nullptr || p->a > 60) return;", "if (!p || p->on) return;")
        )
        touch = ["static void touch(Item *p, long x) {", f"  {test}", *indented(self.body(one, 3)), "}"]
        meet = [
            "static void meet(Item *p, Item *q, long x) {",
            *indented(self.body(one, 2)),
            *indented(["if (q) {", *indented(self.body(two, 2)), "}"]),
            "}",
        ]
        return touch + meet

    def recursion(self, at: int) -> tuple[Lines, str]:
        """A recursion over the tree or the graph, and a call of it."""
        name = self.fresh("visit")
        if self.chance(0.5):
            return self.summing(name)
        scene = Scene(numbers=["k"], items=["p"], tally="t" if self.chance(0.5) else "tally")
        scene.calls, scene.marks = self.chance(0.5), False
        handed = self.random.choice(("k", "k", "k + 1", "p->a % 5"))
        call = f"{name}({{}}, t, {handed});"
        test = "if (!p || p->on) return;\n  p->on = true;" if self.chance(0.6) else "if (!p) return;"
        tree = [call.format("p->left"), call.format("p->right")]
        # (only what is marked as seen may go along the graph, which has circles)
        if "on = true" in test and self.chance(0.5):
            tree = [f"for (Item *o : p->near) {call.format('o')}"]
        behind = self.body(scene, 2, 0) if self.chance(0.3) else []
        before = self.body(scene, 3, 1)
        lines = [
            f"static void {name}(Item *p, Tally *t, long k) {{",
            f"  {test}",
            *indented(before + tree + behind),
            "}",
        ]
        return lines, f"{name}(w.{self.random.choice(('root', 'list'))}, {self.random.choice(('tally', 'other'))}, t);"

    def summing(self, name: str) -> tuple[Lines, str]:
        """A recursion that gives back a sum."""
        scene = Scene(numbers=["k"], items=["p"], calls=self.chance(0.3), marks=False)
        value = self.number(scene)
        handed = self.random.choice(("k", "k + 1"))
        one, two = f"{name}(p->left, {handed})", f"{name}(p->right, {handed})"
        ways = [
            [f"return {one} + {two} + {value};"],
            [
                f"long s = {value};",
                f"if (p->left) s += {one};",
                f"if (p->right) s {self.random.choice(('+=', '+=', '-='))} {two};",
                "return s;",
            ],
            [f"if ({self.condition(scene)}) return {value};", f"return {value} + {two} + {one};"],
            [f"long x = {one}, y = {two};", f"return (x > y ? x : y) + {value};"],
        ]
        lines = [
            f"static long {name}(Item *p, long k) {{",
            "  if (!p) return 0;",
            *indented(self.random.choice(ways)),
            "}",
        ]
        return lines, f"shared += {name}(w.root, t);"

    # Phases -----------------------------------------------------------------------------------------------------------

    def phase(self, at: int) -> tuple[Lines, str]:
        """A method of the world that is a loop over items, and its call."""
        scene = Scene(numbers=["k"], items=["p"], in_loop=True, tally=self.random.choice(("tally", "mine")))
        before, behind = self.around(scene)
        body = self.body(scene, 4, 2)
        loops = [
            ["for (Item *p : items) {", *indented(body), "}"],
            ["for (size_t i = 0; i < items.size(); i++) {", "  Item *p = items[i];", *indented(body), "}"],
            ["for (Item *p = list; p; p = p->next) {", *indented(body), "}"],
            ["for (Item *p : items) {", *indented(body), "}"],
        ]
        if self.chance(0.25):
            pair = scene.inner(items=["q"])
            both = [
                "for (size_t j = i + 1; j < items.size(); j++) {",
                "  Item *p = items[i], *q = items[j];",
                *indented(self.body(pair, 4)),
                "}",
            ]
            loops = [["for (size_t i = 0; i < items.size(); i++)", *indented(both)]]
        elif not any(word in line for line in body for word in ("continue", "break")) and self.chance(0.2):
            loops = [["Item *p = list;", "while (p) {", *indented(body), "  p = p->next;", "}"]]
        lines = [f"void phase{at}(long k) {{", *indented(before + self.random.choice(loops) + behind), "}"]
        return lines, f"w.phase{at}(t);"

    def around(self, scene: Scene) -> tuple[Lines, Lines]:
        """Locals before a loop that it may change, and what is done with them behind it."""
        before: Lines = []
        behind: Lines = []
        for _ in range(self.random.randint(0, 2)):
            local = self.fresh("s")
            before.append(f"long {local} = {self.random.choice(('0', '0', '1', 'k'))};")
            behind.append(f"shared += {local};")
            scene.locals.append(local)
        if self.chance(0.2):
            flag = self.fresh("f")
            before.append(f"bool {flag} = false;")
            behind.append(f"if ({flag}) shared++;")
            scene.flags.append(flag)
        return before, behind
