"""Rows on sweeps, which are loops that add one thing to a range of an array: what they are, and what changes places."""

from by_hand.forms import TRAPPED, class_of, k_and_m, offence, pairs, repeated, row, single, spent

WORKERS = (1, 2, 4)

RANGES = """class V { public: long a[10];
void add(long f, long t, long v) { for (long i = f; i < t; i++) a[i] += v; }
void one(long j) { a[j] = a[j] + 1; }
void two() { add(0, 10, 3); one(4); add(2, 5, 1); } };
int main() { V *x = new V(); x->two(); }"""

# Calls of a marked operation, of which the last goes past its array, before it, or nowhere.
PAST = """class V { public: long a[3]; void add(long f, long t) {
for (long i = f; i < t; i++) a[i] += t; } void go(long f, long t) { add(0, 3); add(1, 2); add(f, t); } };
int main() { V *x = new V(); x->go(FROM, TO); }"""

# Ten sweeps of each of three objects, from a marked loop.
LOOPED = """class B { public: long a[4]; void add(long f, long t, long v) {
for (long i = f; i < t; i += 1) { a[i] = a[i] - v; } } };
class R { public: B *b[3]; void make() { for (long i; i < 3; i++) b[i] = new B(); }
void go() { for (long i; i < 30; i++) b[i % 3]->add(i % 2, 2 + i % 3, i); } };
int main() { R *r = new R(); r->make(); r->go(); }"""

# A sweep may name `c` in its own extent alone, since `w` calls an operation that writes it.
TWO_EXTENTS = class_of(
    "long a[9]; long c; void k(long v) {\nfor (long i; i < c; i++) a[i] += v; } void s() { c += 1; } "
    "void w() { k(1); s(); }"
)

SIX = """extent A::k
A::k A::k commutes
extent A::s
A::s A::s commutes
extent A::w
A::k A::k unproved LoopForm 2
A::k A::s unproved LoopForm 2
A::k A::w unproved LoopForm 2
A::s A::s commutes
A::s A::w commutes
A::w A::w commutes
"""


def past(start, end):
    return PAST.replace("FROM", start).replace("TO", end)


def swept(loop):
    """A class with one operation, which is that loop behind a sum of `n`; its line is the second."""
    return ("long a[9]; long q[9]; long c; long n; bool b;", f"void m(long f, long t, long v) {{ n += 1;\n{loop} }}")


ROWS = [
    pairs("ranges and an item", RANGES, """extent V::add
V::add V::add commutes
extent V::one
V::one V::one commutes
extent V::two
V::add V::add commutes
V::add V::one commutes
V::add V::two commutes
V::one V::one commutes
V::one V::two commutes
V::two V::two commutes
"""),
    row("the plan of ranges", "plan", RANGES, 0, "op V::add serial\nop V::one serial\nop V::two parallel\n"),
    row("ranges with their marks", "emit", RANGES, 0, """class V {
public :
long a [ 10 ] ;
void add ( long f , long t , long v ) {
/*@lock*/ for ( long i = f ; i < t ; i += 1 ) a [ i ] += v ;
/*@unlock*/ }
void one ( long j ) {
/*@lock*/ a [ j ] = a [ j ] + 1 ;
/*@unlock*/ }
void two ( ) {
/*@spawn*/ add ( 0 , 10 , 3 ) ;
one ( 4 ) ;
add ( 2 , 5 , 1 ) ;
}
} ;
int main ( ) {
V * x = new V ( ) ;
/*@parallel*/ x -> two ( ) ;
}
"""),
    *[row(f"ranges by {count}", f"run {count} 17", RANGES, 0, "#0 V a=[3,3,4,4,5,3,3,3,3,3]\n") for count in WORKERS],
    *[spent(f"ranges by {count}, spent", RANGES, 16, workers=count) for count in WORKERS],
    # by several workers: bounds past the array trap, and those of nothing don't
    *[row(f"a range past its array, by {count}", f"run {count} 1000", past("2", "4"), TRAPPED, "trap 2 OutOfRange\n")
      for count in WORKERS],
    *[row(f"a range from before its array, by {count}", f"run {count} 1000", past("-1", "2"), TRAPPED,
          "trap 2 OutOfRange\n") for count in WORKERS],
    *[row(f"a range of nothing, by {count}", f"run {count} 8", past(start, end), 0, "#0 V a=[3,5,3]\n")
      for count in WORKERS for start, end in (("-1", "-1"), ("9", "9"), ("9", "-5"), ("-5", "-9"))],
    *[row(f"sweeps from a marked loop, by {count}", f"run {count} 1000", LOOPED, 0,
          "#0 R b=[#1,#2,#3]\n#1 B a=[-60,-135,0,0]\n#2 B a=[-80,-145,-145,0]\n#3 B a=[-70,-155,-155,-155]\n")
      for count in WORKERS],
    row("the plan of a marked loop over sweeps", "plan", LOOPED, 0,
        "op B::add serial\nop R::make serial\nop R::go parallel\nloop 4 parallel\n"),
    # a pair has a verdict in each extent
    pairs("a bound that another operation of the extent writes", TWO_EXTENTS, SIX),
    row("its plan", "plan", TWO_EXTENTS, 0, "op A::k serial\nop A::s serial\nop A::w serial\n"),
    # what is one
    *[single(f"a sweep: `{loop}`", *swept(loop), "commutes") for loop in (
        "for (long i; i < t; i++) a[i] += v;", "for (long i = 0; i < 9; i += 1) { a[i] -= 1; }",
        "for (long i = f; i < t; i = i + 1) this->a[i] = a[i] + v;",
        "for (long i = f; (i) < (t); i++) a[(i)] = a[i] - v;",
        "for (long i = f * t + 2 * c; i < c; i++) a[i] += v * (v * c) + (v + 1);",
        "if (f < t) for (long i = f; i < t; i++) a[i] += v; else a[t] -= 1;",
        "for (long i = f; i < t; i++) a[i] += v; for (long j; j < c; j++) q[j] -= v;",
        "long i = 5; for (long i = f; i < t; i++) a[i] += v;",
    )],
    # and what is none
    *[single(f"no sweep: `{loop}`", *swept(loop), "LoopForm 2") for loop in (
        "for (long i = f; i <= t; i++) a[i] += v;", "for (long i = f; t > i; i++) a[i] += v;",
        "for (long i = f; i < t - 1; i++) a[i] += v;", "for (long i = -1; i < t; i++) a[i] += v;",
        "for (long i = f; i < t; i++) a[i] += -1;", "for (long i = f; i < t; i++) a[i] += -v;",
        "for (long i = f; i < t; i++) a[i] += (v + f) * t;", "for (long i = f; i < t; i++) a[i] += v / 2;",
        "for (long i = f; i < t; i++) a[i] += i;", "for (long i = f; i < t; i++) a[i] += q[i];",
        "for (long i = f; i < t; i++) a[i] += q[0];", "for (long i = f; i < t; i++) a[i] += n;",
        "for (long i = f; i < n; i++) a[i] += v;", "for (long i = n; i < t; i++) a[i] += v;",
        "long x = v; for (long i = f; i < t; i++) a[i] += x;", "for (long i = f; i < t; i++) a[i] += a[i];",
        "for (long i = f; i < t; i++) a[i] = v;", "for (long i = f; i < t; i++) a[i] = v + a[i];",
        "for (long i = f; i < t; i++) a[i] = q[i] + v;", "for (long i = f; i < t; i++) a[i] = a[i] + v + 1;",
        "for (long i = f; i < t; i++) a[i] *= v;", "for (long i = f; i < t; i++) a[i] ^= v;",
        "for (long i = f; i < t; i++) a[i + 1] += v;", "for (long i = f; i < t; i++) a[f] += v;",
        "for (long i = f; i < t; i++) n += v;", "for (long i = f; i < t; i++) { a[i] += v; a[i] += v; }",
        "for (long i = f; i < t; i++) { a[i] += v; ; }", "for (long i = f; i < t; i++) { { a[i] += v; } }",
        "for (long i = f; i < t; i++) if (b) a[i] += v;", "for (long i = f; i < t; i += 2) a[i] += v;",
        "for (long i = f; i < t; i = 1 + i) a[i] += v;", "for (long i = t; i < t; i--) a[i] += v;",
        "long i; for (i = f; i < t; i++) a[i] += v;", "for (f = 0; f < t; f++) a[f] += v;",
        "for (long i = f; i < t; i++) for (long j = f; j < t; j++) a[j] += v;",
    )],
    # what changes places with what
    single("a range that ends before an item that is read", "long a[9]; long s;",
           "void m(long v) { s += a[5] - a[1]; for (long i = 2; i < 5; i++) a[i] += v; }", "commutes"),
    single("a range that has an item that is read", "long a[9]; long s;",
           "void m(long v) { s += a[4]; for (long i = 2; i < 5; i++) a[i] += v; }", "FieldDiffers s"),
    single("a range of nothing, and an item that is read", "long a[9]; long s;",
           "void m(long v) { s += a[4]; for (long i = 5; i < 2; i++) a[i] += v; }", "commutes"),
    single("a range under a condition that is written", "long a[9]; long n;",
           "void m(long t) { n += t; if (n > 3) for (long i; i < t; i++) a[i] += 1; }", "FieldDiffers a"),
    single("nothing added under a condition that is written", "long a[9]; long n;",
           "void m(long t) { n += t; if (n > 3) for (long i; i < t; i++) a[i] += 0; }", "DemandsDiffer"),
    single("an item put behind a range", "long a[9];",
           "void m(long t) { for (long i; i < t; i++) a[i] += 1; a[0] = 2; }", "FieldDiffers a"),
    single("an item put before a range", "long a[9];",
           "void m(long t) { a[0] = 2; for (long i; i < t; i++) a[i] += 1; }", "FieldDiffers a"),
    single("a range behind a call", "long a[9]; A *o;",
           "void m(long t) { o->m(t);\nfor (long i; i < t; i++) a[i] += 1; }", offence(2, "AccessAfterCall")),
    pairs(
        "a range before calls, and before a loop of them",
        class_of(
            "long a[9]; A *o; void k() { } void m(long t) { for (long i; i < t; i++) a[i] += 1; o->k();\n"
            "for (long i; i < t; i++) k(); }"
        ),
        k_and_m("commutes", loops=[2]),
    ),
    # as many sweeps as an operation of one parameter has locals for their counters
    repeated("255 sweeps", "long a[9];", "for (long i; i < p; i++) a[i] += p; ", 255, "commutes"),
]
