"""Rows on the words of a command, and on `gen` and `load`."""

from by_hand.forms import EMPTY, ok, row, spent

USAGE = "usage: commute run WORKERS BUDGET | pairs | plan | emit | gen SEED SIZE | load SEED SIZE WORKERS | trace WORKERS BUDGET | verify BUDGET\n"
USAGE_FAULT = 2
# Standard input of commands that don't read it.
UNREAD = "$ not read"
# Words that are no command.
WRONG = [
    "", "run", "run 1", "run 1 1 1", "run 0 5", "run 65 5", "run 01 5", "run 1 0", "run 1 01", "run 1 1000000001",
    "run 18446744073709551617 1", "run 1 18446744073709551617", "run +1 5", "run -1 5", "run 1.0 5", "run 1 0x5",
    "run 1 5a", "Run 1 5", "--help", "pairs x", "plan 1", "emit 1", "gen", "gen 1", "gen 1 0", "gen 1 20001",
    "gen 01 1", "gen 00 1", "gen -1 1", "gen 18446744073709551616 1", "gen 1 1 1", "load 1 1", "load 1 1 0",
    "load 1 1 65", "load 1 1 1 1", "load 1 20001 1", "load 1 1 00", "load 99999999999999999999999999 1 1",
    "trace", "trace 1", "trace 0 1", "trace 65 1", "trace 1 0", "trace 1 1000000001", "trace 01 1", "trace 1 1 1", "Trace 1 1", "verify", "verify 0", "verify 01", "verify 1000000001", "verify 1 1", "verify +1", "Verify 1",
]
# Words with bytes that are no digits, and none at all.
WRONG_BYTES = [
    ("an empty budget", ["run", "1", ""]),
    ("a space before a number", ["run", " 1", "5"]),
    ("a space behind a number", ["run", "1", "5 "]),
    ("an empty word", [""]),
    ("a byte that is no text", ["run", "1", b"\xff"]),
    ("a digit of another script", ["run", "1", "\u0663"]),
]
# Seeds and sizes: the least, the greatest, and some round 2 to the 31st.
GENERATED = [
    (0, 1), (7, 3), (1, 2), (2**31 - 1, 10), (2**31, 10), (2**64 - 1, 1000), (123456789012345, 20000), (65536, 777),
]
# The size from which one worker is enough.
MANY = 1000

TEXT = """class Node {
public:
  bool mark;
  long value;
  long sum;
  Node *left;
  Node *right;
  void set(long v, Node *l, Node *r) {
    value = v;
    left = l;
    right = r;
  }
  void visit(long p) {
    sum += p;
    if (!mark) {
      mark = true;
      left->visit(value);
      right->visit(value);
    }
  }
};
class Table {
public:
  Node *at[SIZE];
  void fill() {
    for (long i = 0; i < SIZE; i++) at[i] = new Node();
  }
  void link(long i, long l, long r) {
    at[i]->set(i + 1, at[l], at[r]);
  }
};
int main() {
  Table *t = new Table();
  t->fill();
LINKS  t->at[0]->visit(1);
  return 0;
}
"""


def ends(seed, size):
    """The two nodes to which each node is linked."""
    numbers, number = [], seed % 2**31
    for _ in range(2 * size):
        number = (1103515245 * number + 12345) % 2**31
        numbers.append(number // 65536 % size)
    return list(zip(numbers[::2], numbers[1::2]))


def generated(seed, size):
    """The text of `gen`."""
    links = "".join(f"  t->link({i}, {left}, {right});\n" for i, (left, right) in enumerate(ends(seed, size)))
    return TEXT.replace("SIZE", str(size)).replace("LINKS", links)


def summary(seed, size):
    """The line of `load`: filling takes a step and one for each node, a link two, and a node that is visited first two
    visits more. The total is that of values and sums."""
    linked, seen, total, visits, due = ends(seed, size), set(), size * (size + 1) // 2, 0, [(0, 1)]
    while due:
        node, given = due.pop()
        visits += 1
        total += given
        if node not in seen:
            seen.add(node)
            due += [(end, node + 1) for end in linked[node]]
    return f"load objects={size + 1} steps={1 + size + 2 * size + visits} total={total}\n"


def of_generated(seed, size):
    yield row(f"gen {seed} {size}", f"gen {seed} {size}", UNREAD, 0, generated(seed, size))
    for workers in (1, 4) if size <= MANY else (1,):
        words = f"load {seed} {size} {workers}"
        yield row(words, words, UNREAD, 0, summary(seed, size))


ROWS = [
    *[row(f"usage: `{words}`", words, EMPTY, USAGE_FAULT, USAGE) for words in WRONG],
    *[row(f"usage: {name}", words, EMPTY, USAGE_FAULT, USAGE) for name, words in WRONG_BYTES],
    row("usage before a bad source", "run 0 5", "$", USAGE_FAULT, USAGE),
    ok("the greatest numbers", EMPTY, words="run 64 1000000000"),
    ok("the least numbers", EMPTY, words="run 1 1"),
    row("a node linked to itself", "load 18446744073709551615 1 1", "$", 0, "load objects=2 steps=7 total=4\n"),
    *[each for seed, size in GENERATED for each in of_generated(seed, size)],
    spent("a generated text, a step too few", generated(7, 3), 16, "", 3),
]
