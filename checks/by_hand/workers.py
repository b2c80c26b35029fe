"""Rows on runs by several workers: marked operations and loops end as one worker does, with the same steps."""

from by_hand.forms import TRAPPED, main_of, ok, row, spent

# A loop of 3 calls at receivers of which the first COUNT aren't null, with 0, 1 and 5: the second adds past its array.
THREE_CALLS = """class B { public: long n; long a[2]; void add(long i) {
a[i] += 1; } void both(long i) { add(i); add(i + 1); } };
class R { public: B *b[3]; long k[3]; void fill(long x) {
for (long i; i < x; i++) b[i] = new B(); k[1] = 1; k[2] = 5; } };
int main() { R *r = new R(); r->fill(COUNT);
for (long i = 0; i < 3; i++)
r->b[i]->both(r->k[i]);
}"""

# A loop of 2 calls, the first of an operation, the second at an index that is out of range.
TWO_CALLS = """class B { public: long n; B *x; void go() { n++; OF_BODY} };
class R { public: B *b[1]; void fill() { b[0] = new B(); } };
int main() { R *r = new R(); r->fill();
for (long i; i < 2; i++)
r->b[i]->go();
}"""

# A marked operation at a receiver that is null, with an argument that divides.
AT_NULL = """class B { public: long n; void add(long x) { n += x; } void two(long x) { add(x); add(x); } \
long f(long x) {
return 1 / x; } };
int main() { B *b; B *c = new B();
c->two(1);
b->two(
c->f(DIVISOR)); }"""

# Marked loops in an operation, with parameters in their heads and calls.
IN_OPERATION = """class B { public: long n; void add(long x) { n += x; } };
class R { public: B *b[3]; void fill() { for (long i; i < 3; i++) b[i] = new B(); }
void go(long f, long t) { print(f); for (long i = f; i < t; i++) { b[i % 3]->add(i * t); b[0]->add(f); } print(t);
for (long i; i < 1; i++) b[i]->add(100); } };
int main() { R *r = new R(); r->fill(); r->go(1, 4); r->go(4, 4); r->go(5, 4); }"""
LOOPED = "1\n4\n4\n4\n5\n4\n"
FILLED = LOOPED + "#0 R b=[#1,#2,#3]\n#1 B n=315\n#2 B n=4\n#3 B n=8\n"

# Marked operations and loops in an operation that prints between them.
BETWEEN_PRINTS = """class B { public: long n; void add(long x) { n += x; } void two(long x) { add(x); add(x); } };
class R { public: B *b; long s; void go() { b = new B(); print(1); b->two(5); print(b->n); s = b->n;
for (long i; i < s; i += 4) b->two(i); print(b->n); for (long i; i < 2; i++) b->two(s); print(b->n); } };
int main() { R *r = new R(); r->go(); print(2); }"""

# A counter that is named like a local round it.
SAME_NAME = "class B { public: long n; void add(long x) { n += x; } };\n" + main_of(
    "B *b = new B(); long i = 2; for (long i = i; i < 4; i++) { b->add(i); b->add(10 * i); } print(i); "
    "for (long i; i < 3; i++) b->add(i); print(b->n);"
)

# A bound that grows with its counter.
ENDLESS = "class B { public: void e() { } };\n" + main_of("B *b = new B(); for (long i; i < i + 1; i++) b->e();")

# A class whose operations trap in lines 2 and 3, and a `main` that goes on in line 5.
MIXED = """class B { public: long n; long c; long a[1]; void init(long x) { c = x; } long g() { return c; } \
long h(long x) {
return 1 / (1 - x); } void add(long v) { n += v; } void bad() {
a[1] += 1; } void spin() { n++; spin(); } };
int main() { B *b = new B(); B *z; b->init(2); print(b->c);
"""
ASKED = MIXED + "for (long i; i < b->g(); i++) b->add(b->g());\n}"
DIVIDED = MIXED + "for (long i; i < b->g(); i++) b->add(b->h(i));\n}"
BAD_FIRST = MIXED + "for (long i; i < 2; i++) { b->bad();\nz->add(1); }\n}"
NULL_FIRST = MIXED + "for (long i; i < 2; i++) { z->add(1);\nb->bad(); }\n}"
NULL_SECOND = MIXED + "for (long i; i < 2; i++) { b->add(1);\nz->add(1); }\n}"
SPINS = MIXED + "for (long i; i < 2; i++) { b->spin();\nz->add(1); }\n}"
BY_ZERO = MIXED + "for (long i; i < 2; i++) { b->add(1);\nb->add(1 / 0); }\n}"
PRINTS = MIXED + (
    "if (b->n == 0) for (long i; i < 1; i++) b->add(5); print(b->n); "
    "for (long i; i < 3; i++) { b->add(1); b->add(2); } print(b->n); b->bad(); print(0);\n}"
)


def three_calls(count):
    return THREE_CALLS.replace("COUNT", str(count))


def two_calls(of_body):
    return TWO_CALLS.replace("OF_BODY", of_body)


def at_null(divisor):
    return AT_NULL.replace("DIVISOR", str(divisor))


def by_each(workers):
    """Rows of one, two or four workers."""

    def trapped(label, source, budget, line, kind, prints=""):
        label, words = f"{label}, {workers} workers", f"run {workers} {budget}"
        return row(label, words, source, TRAPPED, f"{prints}trap {line} {kind}\n")

    def left(label, source, budget, prints=""):
        return spent(f"{label}, {workers} workers", source, budget, prints, workers)

    def done(label, source, budget, output):
        return ok(f"{label}, {workers} workers", source, output, f"run {workers} {budget}")

    return [
        # filling takes 4 steps, the first turn 4, the second 4 up to its trap
        trapped("a trap in the second turn", three_calls(3), 100, 2, "OutOfRange"),
        trapped("a trap in the last step", three_calls(3), 12, 2, "OutOfRange"),
        left("a step too few for a trap", three_calls(3), 11),
        trapped("a trap before a null check of a later turn", three_calls(2), 100, 2, "OutOfRange"),
        # filling takes 2 steps, the first turn 4, and the second 1 before its null check
        trapped("a null check in the second turn", three_calls(1), 100, 7, "NullPointer"),
        trapped("a null check behind the last step", three_calls(1), 7, 7, "NullPointer"),
        left("a step too few for a null check", three_calls(1), 6),
        # own expressions of the loop
        left("a recursion without end before an index check", two_calls("go(); "), 50),
        trapped("an index check of the loop", two_calls(""), 50, 5, "OutOfRange"),
        trapped("an index check behind the last step", two_calls(""), 4, 5, "OutOfRange"),
        left("a step too few for an index check", two_calls(""), 3),
        # arguments come before the null check, which takes no step
        trapped("a marked operation of null", at_null(1), 100, 5, "NullPointer"),
        trapped("an argument that traps, and null", at_null(0), 100, 2, "ZeroDivisor"),
        trapped("null behind the last step", at_null(1), 4, 5, "NullPointer"),
        left("a step too few for null", at_null(1), 3),
        # filling takes 4 steps, the first call 12, the others 3 each
        done("loops in an operation", IN_OPERATION, 100, FILLED),
        done("loops within their budget", IN_OPERATION, 22, FILLED),
        left("a step too few for loops", IN_OPERATION, 21, LOOPED),
        left("steps for the first print alone", IN_OPERATION, 5, "1\n"),
        left("a bound that grows", ENDLESS, 1001),
        # value methods in the loop's own expressions: 1 step, turns of 4 with both, and one for the last bound
        done("value methods of the loop", ASKED, 10, "2\n#0 B n=4 c=2 a=[0]\n"),
        left("a step too few for the last bound", ASKED, 9, "2\n"),
        trapped("a value method of the loop that traps", DIVIDED, 8, 2, "ZeroDivisor", "2\n"),
        left("a step too few for its trap", DIVIDED, 7, "2\n"),
        # the order of calls in a body
        trapped("a trap before null", BAD_FIRST, 100, 3, "OutOfRange", "2\n"),
        trapped("null before a trap", NULL_FIRST, 100, 5, "NullPointer", "2\n"),
        trapped("null in the second call", NULL_SECOND, 100, 6, "NullPointer", "2\n"),
        trapped("null in the second call behind the last step", NULL_SECOND, 3, 6, "NullPointer", "2\n"),
        left("a step too few for null in the second call", NULL_SECOND, 2, "2\n"),
        left("a recursion without end before null", SPINS, 777, "2\n"),
        trapped("a division by the literal 0", BY_ZERO, 100, 6, "ZeroDivisor", "2\n"),
        trapped("prints before a trap", PRINTS, 100, 3, "OutOfRange", "2\n5\n14\n"),
    ]


def between_prints(workers):
    """The operation takes 1 step, its marked call 3, the first loop 12, the second 8."""
    printed = [(23, "1\n10\n34\n"), (17, "1\n10\n34\n"), (16, "1\n10\n34\n"), (15, "1\n10\n"), (4, "1\n10\n")]
    yield ok(
        f"marks between prints, {workers} workers", BETWEEN_PRINTS, "1\n10\n34\n74\n2\n#0 R b=#1 s=10\n#1 B n=74\n",
        f"run {workers} 24",
    )
    for budget, prints in [*printed, (3, "1\n"), (1, "1\n")]:
        label = f"{budget} steps for marks between prints, {workers} workers"
        yield spent(label, BETWEEN_PRINTS, budget, prints, workers)


def same_name(workers):
    """The first loop takes 6 steps, the second as many."""
    yield ok(f"a counter of a local's name, {workers} workers", SAME_NAME, "2\n58\n#0 B n=58\n", f"run {workers} 12")
    yield spent(f"a step too few for a counter of a local's name, {workers} workers", SAME_NAME, 11, "2\n", workers)


PLAN = "op B::init serial\nop B::add serial\nop B::bad serial\nop B::spin parallel\nloop 5 parallel\n"

ROWS = [
    row("the plan of value methods of the loop", "plan", ASKED, 0, PLAN),
    *[each for workers in (1, 2, 4) for each in by_each(workers)],
    *[each for workers in (1, 2, 5) for each in between_prints(workers)],
    *[each for workers in (1, 3) for each in same_name(workers)],
]
