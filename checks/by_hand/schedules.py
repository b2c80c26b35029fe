"""Sources with schedules behind them."""

from by_hand.forms import EMPTY, row

VISIT = """class Graph {
public:
  bool mark;
  long value;
  long sum;
  Graph *left;
  Graph *right;
  void init(long v, Graph *l, Graph *r) {
    value = v;
    left = l;
    right = r;
  }
  void visit(long p) {
    sum = sum + p;
    if (!mark) {
      mark = true;
      if (left != nullptr) left->visit(value);
      if (right != nullptr) right->visit(value);
    }
  }
};
int main() {
  Graph *a = new Graph();
  Graph *b = new Graph();
  a->init(3, b, b);
  b->init(5, a, nullptr);
  a->visit(1);
  return 0;
}
"""
# A marked loop, and then one that traps on its second object.
LOOPS = """class A { public: long n; long a[2]; void add(long v) { n += v; } void put(long i) { a[i] = a[i] + 1; } };
class R { public: A *b[2]; void fill() { for (long i = 0; i < 2; i++) b[i] = new A(); } };
int main() {
  R *r = new R();
  r->fill();
  for (long i = 0; i < 2; i++) r->b[i]->add(i + 7);
  for (long i = 1; i < 3; i++) r->b[i - 1]->put(i);
}
"""
ORDER = ["block", "#0 Graph::visit(1)", "#1 Graph::visit(3)", "#0 Graph::visit(5)", "#1 Graph::visit(3)", "end", "done 6", "*/"]
# An operation that calls another one.
ONE = "class A { public: long n; A *o; void add(long v, bool b, A *p) { n += v; } void one(long v) { add(v, v < 0, o); } };\nint main() { A *a = new A(); a->one(-3); }\n"
PAIR = ["block", "#1 A::add(7)", "#2 A::add(8)", "end", "declined", "trap 1 OutOfRange", "*/"]


def verified(label, source, lines, status, reply, budget=100):
    """Lines behind the first one of a schedule behind a source."""
    text = f"{source}\n/*schedule\n" + "".join(line + "\n" for line in lines)
    return row(f"verify: {label}", f"verify {budget}", text, status, reply + "\n")


def ill_formed(line, at=3):
    front = ORDER[: at - 2]
    return verified(f"`{line}`", VISIT, [*front, line], 1, f"error {at}:1 E61")


def traced(label, source, lines, status=0, budget=100):
    """A run that can have one order only, which is recorded by so many workers."""
    text = "\n/*schedule\n" + "".join(line + "\n" for line in lines)
    return [row(f"trace by {workers}: {label}", f"trace {workers} {budget}", source, status, text) for workers in (1, 2, 64)]


def untraced(label, source, status, line):
    return row(f"trace: {label}", "trace 2 100", source, status, line + "\n")


def with_line(at, line):
    """The order with another line, counted from the first line of the schedule, which is 1."""
    return [*ORDER[: at - 2], line, *ORDER[at - 1 :]]


ILL_FORMED = [
    "", " end", "end ", "End", "*", "*/ ", "done", "done ", "done 01", "done -1", "done 18446744073709551616", "spent 1 ",
    "trap 1", "trap 1 Null", "trap 4294967296 HeapFull", "trap  1 HeapFull", "#0 Graph::go(1)", "#0 graph::visit(1)",
    "#0 Graph:visit(1)", "#0 visit(1)", "#00 Graph::visit(1)", "#-1 Graph::visit(1)", "#4294967296 Graph::visit(1)",
    "# Graph::visit(1)", "#0  Graph::visit(1)", "#0 Graph::visit()", "#0 Graph::visit(1,1)", "#0 Graph::visit(1) ",
    "#0 Graph::visit(+1)", "#0 Graph::visit(-0)", "#0 Graph::visit(01)", "#0 Graph::visit(9223372036854775808)",
    "#0 Graph::visit(true)", "#0 Graph::visit(null)", "#0 Graph::init(1,null)", "#0 Graph::init(1,null,0)",
    "#0 Graph::init(1, null,null)", "#0 Graph::init(1,#4294967296,null)", "#0 Graph::init(1,#1,NULL)",
]
WELL_FORMED = [
    "end", "*/", "declined", "block", "done 18446744073709551615", "spent 0", "trap 4294967295 ZeroDivisor", "#4294967295 Graph::visit(1)",
    "#0 Graph::visit(-9223372036854775808)", "#0 Graph::init(1,#4294967295,null)", "#1 Graph::visit(1)", "#0 Graph::visit(3)",
]

ROWS = [
    verified("a run", VISIT, ORDER, 0, "yes"),
    verified("another order", VISIT, [*ORDER[:3], ORDER[4], ORDER[3], *ORDER[5:]], 0, "yes"),
    verified("the least budget", VISIT, ORDER, 0, "yes", 6),
    verified("a budget too small", VISIT, ORDER, 9, "no 2", 5),
    verified("not done", VISIT, ["declined", "spent 5", "*/"], 0, "yes", 5),
    verified("another budget", VISIT, ["declined", "spent 6", "*/"], 9, "no 3", 5),
    verified("no list", VISIT, ["spent 1", "*/"], 0, "yes", 1),
    verified("a line dropped", VISIT, [*ORDER[:4], *ORDER[5:]], 9, "no 6"),
    verified("two lines exchanged", VISIT, [ORDER[0], ORDER[2], ORDER[1], *ORDER[3:]], 9, "no 3"),
    verified("a line twice", VISIT, [*ORDER[:2], *ORDER[1:]], 9, "no 4"),
    verified("other steps", VISIT, with_line(8, "done 7"), 9, "no 8"),
    verified("declined", VISIT, ["declined", *ORDER[6:]], 9, "no 2"),
    verified("lines behind the last", VISIT, [*ORDER, "*/"], 9, "no 10"),
    verified("no last line", VISIT, ORDER[:-1], 9, "no 9"),
    verified("no lines", VISIT, [], 9, "no 2"),
    *[verified(f"{count} lines", VISIT, ORDER[:count], 9, f"no {count + 2}") for count in range(1, 8)],
    *[ill_formed(line) for line in ILL_FORMED],
    *[verified(f"`{line}` instead", VISIT, with_line(3, line), 9, "no 3") for line in WELL_FORMED],
    verified("an ill-formed line behind a bad one", VISIT, [*with_line(3, "end"), "x"], 1, "error 10:1 E61"),
    verified("two lists", LOOPS, PAIR, 0, "yes"),
    verified("two lists, the other order", LOOPS, [PAIR[0], PAIR[2], PAIR[1], *PAIR[3:]], 0, "yes"),
    verified("a block for a list that traps", LOOPS, [*PAIR[:4], "block", "#1 A::put(1)", "end", *PAIR[5:]], 9, "no 6"),
    verified("no word for it", LOOPS, [*PAIR[:4], *PAIR[5:]], 9, "no 6"),
    verified("another trap", LOOPS, [*PAIR[:5], "trap 1 NullPointer", "*/"], 9, "no 7"),
    verified("another line of the trap", LOOPS, [*PAIR[:5], "trap 2 OutOfRange", "*/"], 9, "no 7"),
    row("verify: no schedule", "verify 1", VISIT, 1, "error 0:0 E60\n"),
    row("verify: nothing", "verify 1", "", 1, "error 0:0 E60\n"),
    row("verify: no line feed before the first line", "verify 1", "/*schedule\n", 1, "error 0:0 E60\n"),
    row("verify: an empty source", "verify 1", "\n/*schedule\n", 1, "error 1:1 E10\n"),
    row("verify: a first line without its line feed", "verify 1", f"{VISIT}\n/*schedule", 1, "error 1:1 E61\n"),
    row("verify: more behind the first line", "verify 1", f"{VISIT}\n/*schedule x\n", 1, "error 0:0 E60\n"),
    row("verify: a last line without its line feed", "verify 1", "int main() { }\n/*schedule\ndone 0\n*/", 1, "error 3:1 E61\n"),
    row("verify: a wrong source", "verify 1", "int main() { x }\n/*schedule\nx\n", 1, "error 1:16 E10\n"),
    row("verify: a first line in a comment", "verify 1", "/*\n/*schedule\n*/ int main() { }\n/*schedule\ndone 0\n*/\n", 0, "yes\n"),
    row("verify: two first lines", "verify 1", "int main() { }\n/*schedule\n*/\n/*schedule\ndone 0\n*/\n", 0, "yes\n"),
    row("verify: a source at the limit", "verify 1", "int main() { }" + " " * 1048562 + "\n/*schedule\ndone 0\n*/\n", 0, "yes\n"),
    row("verify: a source past it", "verify 1", "int main() { }" + " " * 1048563 + "\n/*schedule\ndone 0\n*/\n", 8, "limit 0:0 E04\n"),
    row("verify: past it without a schedule", "verify 1", "#" * 1048577, 1, "error 0:0 E60\n"),
    *traced("no list", EMPTY, ["done 0", "*/"]),
    *traced("what is printed isn't written", "int main() { print(1); }", ["done 0", "*/"]),
    *traced("a block", ONE, ["block", "#0 A::one(-3)", "#0 A::add(-3,true,null)", "end", "done 2", "*/"]),
    *traced("a list that isn't done", VISIT, ["declined", "spent 5", "*/"], 4, 5),
    *traced("a budget that is spent before a list", VISIT, ["spent 1", "*/"], 4, 1),
    *traced("a trap without a list", "int main() {\nlong z; print(1); print(5 / z); }", ["trap 2 ZeroDivisor", "*/"], 3),
    untraced("a wrong source", "int main() { x }", 1, "error 1:16 E10"),
    untraced("an empty source", "", 1, "error 1:1 E10"),
    untraced("a source past its limit", "class A { public: long a[1000001]; }; int main() { }", 8, "limit 1:24 E56"),
    untraced("a source that is too long", "#" * 1048577, 8, "limit 0:0 E04"),
]
