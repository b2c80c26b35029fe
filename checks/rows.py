#!/usr/bin/env python3
"""Texts with what `pairs`, `plan` and `emit` write of them, told by hand: the reference has to say the same.

So it has to of the samples, whose texts `samples/NAME.pairs` and `samples/NAME.plan` were read by people; it made
`samples/NAME.emit`. It runs those that have a `.run`, and follows the schedules that stand beside them.
"""

import pathlib
import sys

from reference.analysis import Plan
from reference.annotated import BadMark, annotated, canonical, erase
from reference.reader import tree_of
from reference.schedules import ENOUGH, HEADER, Schedules
from reference.written import Written

GRAPH = """class Graph {
public:
  bool mark;
  long value;
  long sum;
  Graph *left;
  Graph *right;
  void init(long v, Graph *l, Graph *r) {
    value = v;
    left = l;
    right = r;
  }
  void visit(long p) {
    sum = sum + p;
    if (!mark) {
      mark = true;
      if (left != nullptr) left->visit(value);
      if (right != nullptr) right->visit(value);
    }
  }
};
int main() {
  Graph *a = new Graph();
  Graph *b = new Graph();
  a->init(3, b, b);
  b->init(5, a, nullptr);
  a->visit(1);
  return 0;
}
"""

ACCOUNT = """class Acc {
public:
  long sum;
  void add(long p) { sum = sum + p; }
  void sub(long p) { sum = sum - p; }
  void mul(long p) { sum = sum * p; }
  void mix(long p) { add(p); mul(p); }
  void par(long p) { add(p); sub(p); }
};
int main() { Acc *a = new Acc(); a->mix(2); a->par(3); }
"""

STACK = """class Stack { public: long buf[8]; long n; void put(long v) { buf[n] = v; n = n + 1; } }; int main() { }"""

BINS = """class Bins {
public:
  long a[3];
  void add(long i, long v) { a[i] = a[i] + v; }
};
class Set {
public:
  Bins *b[1000];
  void fill() {
    for (long i = 0; i < 1000; i++) b[i] = new Bins();
  }
  void all(long v) {
    for (long i = 0; i < 1000; i++) b[i]->add(i % 3, v);
  }
};
int main() {
  Set *s = new Set();
  s->fill();
  s->all(7);
  s->all(8);
}
"""

CELL = """class Cell {
public:
  long sum;
  long base;
  long last;
  Cell *next;
  void late(long p) {
    sum = sum + p;
    if (next != nullptr) next->late(p);
    last = sum;
  }
  void early(long p) {
    sum = sum + p;
    if (next != nullptr) next->early(base);
  }
};
int main() { }
"""

PAIR = """class Bin {
public:
  long n;
  void add(long v) { n = n + v; }
};
class Pair {
public:
  Bin *b[2];
  void fill() { b[0] = new Bin(); b[1] = new Bin(); }
};
int main() {
  Pair *s = new Pair();
  s->fill();
  for (long i = 0; i < 2; i++) s->b[i]->add(i + 1);
}
"""

GREATEST = """class M { public: long x; void up(long v) { if (x < v) x = v; } }; int main() { }"""

BOUNDS = (
    "class M { public: long x; void up(long v) { x = max(x, v); } void lo(long v) { x = min(x, v); } "
    "void both(long v) { up(v); lo(v); } }; int main() { }"
)

TWO = (
    "class A { public: long n; void add(long v) { n += v; } void two(long v) { add(v); add(v + 1); } }; "
    "int main() { A *a = new A(); a->two(3); }"
)

FIRST = """class Acc {
public:
  long sum;
  Acc *peer;
  void add(long p) { sum = sum + p; }
  void tie(Acc *q) { peer = q; }
};
int main() { }
"""

PAIRS = [
    (GRAPH, """extent Graph::init
Graph::init Graph::init unproved FieldDiffers value
extent Graph::visit
Graph::visit Graph::visit commutes
"""),
    (ACCOUNT, """extent Acc::add
Acc::add Acc::add commutes
extent Acc::sub
Acc::sub Acc::sub commutes
extent Acc::mul
Acc::mul Acc::mul commutes
extent Acc::mix
Acc::add Acc::add commutes
Acc::add Acc::mul unproved FieldDiffers sum
Acc::add Acc::mix commutes
Acc::mul Acc::mul commutes
Acc::mul Acc::mix commutes
Acc::mix Acc::mix commutes
extent Acc::par
Acc::add Acc::add commutes
Acc::add Acc::sub commutes
Acc::add Acc::par commutes
Acc::sub Acc::sub commutes
Acc::sub Acc::par commutes
Acc::par Acc::par commutes
"""),
    (STACK, """extent Stack::put
Stack::put Stack::put unproved FieldDiffers buf
"""),
    (BINS, """extent Bins::add
Bins::add Bins::add commutes
extent Set::fill
Set::fill Set::fill unproved NotSeparable Set::fill 10 Creates
extent Set::all
Bins::add Bins::add commutes
Set::all Set::all commutes
loop 13
Bins::add Bins::add commutes
"""),
    (CELL, """extent Cell::late
Cell::late Cell::late unproved NotSeparable Cell::late 10 AccessAfterCall
extent Cell::early
Cell::early Cell::early commutes
"""),
    (PAIR, """extent Bin::add
Bin::add Bin::add commutes
extent Pair::fill
Pair::fill Pair::fill unproved NotSeparable Pair::fill 9 Creates
loop 14
Bin::add Bin::add commutes
"""),
    (GREATEST, """extent M::up
M::up M::up commutes
"""),
    (BOUNDS, """extent M::up
M::up M::up commutes
extent M::lo
M::lo M::lo commutes
extent M::both
M::up M::up commutes
M::up M::lo unproved FieldDiffers x
M::up M::both commutes
M::lo M::lo commutes
M::lo M::both commutes
M::both M::both commutes
"""),
    (FIRST, """extent Acc::add
Acc::add Acc::add commutes
extent Acc::tie
Acc::tie Acc::tie unproved FieldDiffers peer
"""),
]

PLANS = [
    (GRAPH, "op Graph::init serial\nop Graph::visit parallel\n"),
    (PAIR, "op Bin::add serial\nop Pair::fill serial\nloop 14 parallel\n"),
]

EMITTED = [
    (TWO, """class A {
public :
long n ;
void add ( long v ) {
/*@lock*/ n += v ;
/*@unlock*/ }
void two ( long v ) {
/*@spawn*/ add ( v ) ;
add ( v + 1 ) ;
}
} ;
int main ( ) {
A * a = new A ( ) ;
/*@parallel*/ a -> two ( 3 ) ;
}
"""),
    # a follower stands directly behind a call of its list on an equal receiver; a bare call has the receiver `this`
    ("""class A { public: long n; A *q; A *b[2]; void add(long v) { n += v; }
 void go(long v) { n += v; add(v); this->add(1); q->add(v); this->q->add(v); this->q->add(1);
 b[v]->add(v); b[v]->add(1); b[1]->add(v); { b[1]->add(2); add(3); } add(4); if (v < 3) add(5); add(6);
 for (long i = 0; i < v; i++) { add(i); add(7); } } };
 int main() { A *a = new A(); a->go(1); }""", """class A {
public :
long n ;
A * q ;
A * b [ 2 ] ;
void add ( long v ) {
/*@lock*/ n += v ;
/*@unlock*/ }
void go ( long v ) {
/*@lock*/ n += v ;
/*@unlock*/ /*@spawn*/ add ( v ) ;
this -> add ( 1 ) ;
/*@unlock*/ /*@spawn*/ q -> add ( v ) ;
/*@unlock*/ /*@spawn*/ this -> q -> add ( v ) ;
this -> q -> add ( 1 ) ;
/*@unlock*/ /*@spawn*/ b [ v ] -> add ( v ) ;
b [ v ] -> add ( 1 ) ;
/*@unlock*/ /*@spawn*/ b [ 1 ] -> add ( v ) ;
{
/*@unlock*/ /*@spawn*/ b [ 1 ] -> add ( 2 ) ;
/*@unlock*/ /*@spawn*/ add ( 3 ) ;
}
/*@unlock*/ /*@spawn*/ add ( 4 ) ;
if ( v < 3 ) /*@unlock*/ /*@spawn*/ add ( 5 ) ;
/*@unlock*/ /*@spawn*/ add ( 6 ) ;
for ( long i = 0 ; i < v ; i += 1 ) {
/*@unlock*/ /*@spawn*/ add ( i ) ;
add ( 7 ) ;
}
/*@unlock*/ }
} ;
int main ( ) {
A * a = new A ( ) ;
/*@parallel*/ a -> go ( 1 ) ;
}
"""),
    # levels of operators on bits, and operators that are written as calls
    ("""class A { public: long n; bool b; void m(long v) { n = (n & v) | (v ^ 1); n = n & (v | 1) ^ (2 ^ v);
 n |= (max((n), (v + 1))); b = ((n & 1) == (1 & v)) && ((n | 2) < max(n, 2)); n ^= -(min(1, 2)) * (max(v, 2) - 1);
 n &= (v); n = (1 + n) & (2 * 3); } };
 int main() { }""", """class A {
public :
long n ;
bool b ;
void m ( long v ) {
n = n & v | v ^ 1 ;
n = n & ( v | 1 ) ^ ( 2 ^ v ) ;
n |= max ( n , v + 1 ) ;
b = ( n & 1 ) == ( 1 & v ) && ( n | 2 ) < max ( n , 2 ) ;
n ^= - min ( 1 , 2 ) * ( max ( v , 2 ) - 1 ) ;
n &= v ;
n = 1 + n & 2 * 3 ;
}
} ;
int main ( ) {
}
"""),
    # free in one extent of a marked call or loop and not in another
    ("""class A { public: long n; long k; A *q; void add(long v) { n += v; } void up(long v) { k += v; }
 void ask(long v) { long t = k; q->add(v); } };
 int main() { A *a = new A(); for (long i = 0; i < 2; i++) { a->ask(i); a->up(i); } a->ask(1); }""", """class A {
public :
long n ;
long k ;
A * q ;
void add ( long v ) {
/*@lock*/ n += v ;
/*@unlock*/ }
void up ( long v ) {
/*@lock*/ k += v ;
/*@unlock*/ }
void ask ( long v ) {
/*@lock*/ long t = k ;
/*@unlock*/ /*@spawn*/ q -> add ( v ) ;
/*@unlock*/ }
} ;
int main ( ) {
A * a = new A ( ) ;
/*@parallel*/ for ( long i = 0 ; i < 2 ; i += 1 ) {
a -> ask ( i ) ;
a -> up ( i ) ;
}
/*@parallel*/ a -> ask ( 1 ) ;
}
"""),
]



def swept(start, end, added):
    """A sweep of an array `a`."""
    return f"for (long i = {start}; i < {end}; i++) a[i] += {added};"


# Verdicts on operations m and n of a class A with these members, where a choice or a soundness trap stands behind them.
VERDICTS = [
    # the counter of a call loop is declared in it
    ("A *q; long n; void a(long i) { } void m() { long i = 0; for (i = 0; i < 3; i++) q->a(i); }", "LoopForm 1"),
    ("A *q; void a(long i) { } void m() { for (long i; i < 3; i += 1) q->a(i); }", None),
    ("A *q; void a(long i) { } void m() { for (long i; i < 3; i = i + 1) { q->a(i); q->a(1); } }", None),
    ("A *q; void a(long i) { } void m() { for (long i; i < 3; i++) { { q->a(i); } } }", "LoopForm 1"),
    ("A *q; void a(long i) { } void m() { for (long i; i < 3; i++) { } }", "LoopForm 1"),
    # sums at items
    ("long a[2]; void m(long i, long x, long y) { a[i] = a[i] + x + y; }", "FieldDiffers a"),
    ("long a[2]; void m(long i, long x, long y) { a[i] += x + y; }", None),
    ("long a[2]; void m(long i, long x) { this->a[i] = a[i] - x; }", None),
    ("long a[2]; void m(long i, long x) { a[i] = x + a[i]; }", "FieldDiffers a"),
    ("long a[2]; void m(long i) { a[i] += 1; a[i] -= 1; } void n(long v) { a[0] = v; }", None),
    # a product by 2 and a sum, a literal
    ("long f; void m(long x) { f = 2 * f + x; }", "FieldDiffers f"),
    ("bool f; void m() { f = true; }", None),
    # offences, in the order of the text
    ("long f; A *q; void m() { f = f + q->f; }", "NotSeparable A::m 1 ForeignRead"),
    ("long f; long k; A *q; void m() { f = f + q->k + (this)->f; }", None),
    ("long f; long g() { return f; } long h() { return g(); } void m() {\nf = h(); }",
     "NotSeparable A::m 2 FunctionRead"),
    ("long f; long k; long g() { return k; } void m() { f = f + g(); }", None),
    ("long f; A *q; void m(long p) { f = q->f / p; }", "NotSeparable A::m 1 ForeignRead"),
    ("long f; A *q; void m(long p) { f = p / p + q->f; }", "NotSeparable A::m 1 DividesByVariable"),
    ("long f; void m() {\nf = f / 0; }", "NotSeparable A::m 2 DividesByVariable"),
    ("long f; void m() { f = f / - -2; }", "NotSeparable A::m 1 DividesByVariable"),
    ("long f; void m() { print(1 / (1 - 1)); }", "NotSeparable A::m 1 Prints"),
    ("A *q; void m() { if (true)\nq = new A(); }", "NotSeparable A::m 2 Creates"),
    ("A *q[2]; long f; void m(long p) { q[p / p] = new A(); }", "NotSeparable A::m 1 DividesByVariable"),
    ("long f; A *q; void t() { } void m() { if (f < 1) q->t(); f = 1; }", "NotSeparable A::m 1 AccessAfterCall"),
    ("long f; A *q; void t() { } void m() { f = 1;\nfor (long i = f; i < 3; i++) q->t(); }",
     "NotSeparable A::m 2 AccessAfterCall"),
    ("long f; A *q; void t(long x) { } void m() { f += 1; q->t(f); }", None),
    ("long f; A *q; void t(long x) { } void m() { f += 1; q->t(1); q->t(f); }", "NotSeparable A::m 1 AccessAfterCall"),
    ("void m() { while (false) { } } void n() { print(1); }", "NotSeparable A::n 1 Prints"),
    ("void m() { } void n() { while (false) { } }", "LoopForm 1"),
    # conditions and truth values
    ("long f; bool k; void m(long x) { if (k) f += x; else f -= x; }", None),
    ("long f; void m(long x) { if (f < 3) f += x; }", "FieldDiffers f"),
    ("long f; long g; void m(long x) { if (g < 3) f += x; if (!(g < 3)) f += x; } void n(long y) { g += y; }", None),
    ("long f; void m() { if (1 < 2) f += 1; else f = 5; } void n() { f += 2; }", None),
    ("long f; void m(A *p) { if (this == nullptr || p != p) f = 7; else f += 1; } void n(long x) { f += x; }", None),
    ("bool b; void m(bool x) { b = b && x; }", None),
    ("bool b; void m(bool x) { b = b || x; }", None),
    ("bool b; void m(bool x) { b = b == x; }", None),
    ("bool b; void m(bool x) { b = x; }", "FieldDiffers b"),
    ("bool b; void m() { b = b && b; } void n() { b = !!b || b; }", None),
    ("bool d; A *q; void t() { } void m() { if (!d) { d = true; q->t(); } } void n() { d = true; }", "DemandsDiffer"),
    # the greatest and the least, whatever the order
    ("long f; void m(long x) { if (f < x) f = x; }", None),
    ("long f; void m(long x) { if (x >= f) { f = x; } } void n(long y) { if (y > f) { { f = y; } } }", None),
    ("long f; void m(long x) { if (f < 7) f = 7; } void n(long x) { if (f <= x) f = x; }", None),
    ("long f; void m(long x) { if (x < f) f = x; } void n() { if (f >= 5) f = 5; }", None),
    ("long f; void m(long x) { if (x < 9 && f < x) f = x; }", None),
    ("long f; void m(long x) { if (2 < x && x < 9 && f < x) f = x; }", None),
    ("long f; void m(long x) { if (2 < x && x < 9 && x != 5 && f < x) f = x; }", "FieldDiffers f"),
    ("long f; void m(long x, long y) { if (f < x) f = x; if (f < y) f = y; }", "Large"),
    ("long f; void m(long x) { if (x < 3) f |= x; }", None),
    ("long f; void m(long x, long y) { if (x < 3) f |= y; }", "FieldDiffers f"),
    ("long f; void m(long x) { long s = f; if (s < x) s = x; else s = f; f = s; }", None),
    ("long f; void m(long x) { if (f < x) f = x; } void n(long x) { if (x < f) f = x; }", "FieldDiffers f"),
    ("long f; void m(long x) { if (f < x) f = x; } void n(long x) { f = max(f, x); }", "FieldDiffers f"),
    ("long f; A *o; void m(long x, A *p) { if (f < x) { f = x; o = p; } }", "FieldDiffers o"),
    ("long f; void m(long x) { f = f + x; if (9 < f) f = 9; }", "FieldDiffers f"),
    ("long f; void m(long x) { if (f < x + 1) f = x + 1; }", "FieldDiffers f"),
    ("long a[2]; void m(long i, long x) { if (a[i] < x) a[i] = x; }", "FieldDiffers a"),
    ("long f; A *q; void t() { } void m(long x) { if (f < x) { f = x; q->t(); } }", "DemandsDiffer"),
    ("long f; bool b; void m(long x) { if (f < x) f = x; b = f < 3; }", None),
    # items
    ("long a[2]; long s; void m() { s += a[0]; } void n(long i, long v) { a[i] += v; }", "FieldDiffers s"),
    ("long a[2]; long s; void m() { s += a[0] - a[0]; } void n(long v) { a[1] += v; }", None),
    ("long a[2]; long s; void m() { s += a[0]; } void n(long v) { a[1] += v; }", None),
    ("long a[2]; bool k; void m(long i) { if (k) a[i] += 1; else a[i] += 2; }", None),
    ("long a[2]; void m() { a[0] = 5; }", None),
    ("long a[2]; void m(long i) { a[i] = 5; }", "FieldDiffers a"),
    ("long a[2]; void m(long i) { a[i] *= 2; }", "FieldDiffers a"),
    # quotients of numbers
    ("long f; void m(long x) { f += x / -3; }", None),
    ("long f; void m() { f = -9 / 2; } void n() { f = -4; }", None),
    ("long f; void m() { f = -9 % 2; } void n() { f = -1; }", None),
    ("long f; void m() { f = (-9223372036854775807 - 1) / -1; } void n() { f = -9223372036854775807 - 1; }", None),
    # what is called with, and what is checked, depends on what is written
    ("long f; A *q; void t(long x) { } void m(long x) { f += x; q->t(f); }", "DemandsDiffer"),
    ("long f; A *q; void t() { } void m(long p) { f += p; long s = f; for (long i; i < s; i++) q->t(); }",
     "DemandsDiffer"),
    ("long f; A *q; void t() { } void m(long p) { f += p; for (long i; i < p; i++) q->t(); }", None),
    ("long f; long a[9]; void m() { a[f] += 1; f = f + 1; }", None),
    ("long f; long a[9]; void m() { a[f] += 1; } void n() { f = f + 1; }", "FieldDiffers a"),
    ("long f; long a[9]; long g; void m() { g += a[f] - a[f]; } void n() { f = f + 1; }", "DemandsDiffer"),
    ("long f; void m() { f = f % 7; }", None),
    ("long f; " + "void m() { f = f + 1; } void n() { " + "f = f + f; " * 17 + "}", "Large"),
    # a sweep in each of its forms, beside another and beside a sum at an item
    *[(f"long a[9]; void m(long f, long t, long v) {{ for (long i = f; i < t; {step}) {body} }}", None)
      for step, body in (
        ("i++", "a[i] += v;"), ("i += 1", "a[i] -= v;"), ("i = i + 1", "a[i] = a[i] + v;"),
        ("i++", "{ a[i] = a[i] - v; }"), ("i++", "{ this->a[i] += v; }"),
    )],
    *[(f"long a[9]; long c; void m(long f, long v) {{ {swept('f', 'c', 'v')} }} void n(long j) {{ {body} }}", due)
      for body, due in (
        (swept("j * 2 + c", 7, "j * j + 1"), None), ("a[j] = a[j] + 1;", None),
        ("for (long i; i < j; i++) a[i] -= 1;", None), ("a[3] = 7;", "FieldDiffers a"), ("c = c;", None),
        ("a[j] *= 2;", "FieldDiffers a"), ("if (c > j) for (long i; i < j; i++) a[i] += 1; else a[j] -= 1;", None),
        ("for (long i; i < j; i++) c += 1;", "LoopForm 1"),
    )],
    (f"long a[9]; void m(long f, long t) {{ {swept('f', 't', 1)} for (long i = f; i < t; i++) a[i] -= 1; }} "
     "void n(long v) { a[0] = v; }", None),
    (f"long a[9]; void m(long f, long v) {{ {swept('f', 'f', 'v')} }} void n(long x) {{ a[0] = x; }}", None),
    (f"long a[9]; void m(long f, long v) {{ {swept('f', 0, 'v')} }} void n(long x) {{ a[0] = x; }}",
     "FieldDiffers a"),
    # what a range leaves of an item
    ("long a[9]; long s; void m(long v) { for (long i = 2; i < 5; i++) a[i] += v; } void n() { s += a[1] + a[5]; }",
     None),
    ("long a[9]; long s; void m(long v) { for (long i = 2; i < 5; i++) a[i] += v; } void n() { s += a[2]; }",
     "FieldDiffers s"),
    ("long a[9]; long s; void m(long v) { for (long i = 2; i < 5; i++) a[i] += v; } void n() { s += a[4]; }",
     "FieldDiffers s"),
    ("long a[9]; long s; void m(long v) { for (long i = 5; i < 2; i++) a[i] += v; } void n() { s += a[3]; }", None),
    # what a sweep checks stands under its conditions
    ("long a[9]; long s; void m(long t) { s += t; if (s > 3) for (long i; i < t; i++) a[i] += 1; }", "FieldDiffers a"),
    ("long a[9]; long s; void m(long t) { s += t; if (s > 3) for (long i; i < t; i++) a[i] += 0; }", "DemandsDiffer"),
    ("long a[9]; long s; void m(long t) { s += t; if (t > 3) for (long i; i < t; i++) a[i] += 1; }", None),
    # bounds and what is added: numbers, parameters, and own fields that the extent doesn't write
    *[(f"long a[9]; long b[9]; long c; long s; bool k; A *q; void m(long f, long t, long v) {{ s += 1; {body} }}", due)
      for body, due in (
        (swept("c", "c * 2 * t + f", "c * v + 3 * v * v"), None),
        (swept("f", "s", "v"), "LoopForm 1"), (swept("s", "t", "v"), "LoopForm 1"),
        (swept("f", "t", "s"), "LoopForm 1"), (swept("f", "t", "i"), "LoopForm 1"),
        (swept("f", "t", "2 * i + v"), "LoopForm 1"),
        (swept("f", "i + 1", "v"), "LoopForm 1"),
        ("long x = v; for (long i = f; i < t; i++) a[i] += x;", "LoopForm 1"),
        ("for (long i = f; i <= t; i++) a[i] += v;", "LoopForm 1"),
        (swept("f", "t - 1", "v"), "LoopForm 1"),
        (swept("-1", "t", "v"), "LoopForm 1"),
        (swept("f", "t", "-1"), "LoopForm 1"), ("for (long i = f; i < t; i++) a[i] -= 1;", None),
        (swept("f", "t", "(v + f) * t"), "LoopForm 1"),
        (swept("f", "t", "v * (f * t) + (v + (f + 1))"), None),
        (swept("f", "t", "b[i]"), "LoopForm 1"),
        (swept("f", "t", "b[0]"), "LoopForm 1"),
        (swept("f", "t", "max(v, 1)"), "LoopForm 1"),
        (swept("f", "t", "q->c"), "LoopForm 1"),
        (swept("f", "this->c", "v"), None),
    )],
    # its statement, its counter, and its step
    *[(f"long a[9]; long b[9]; long c; void m(long f, long t, long v) {{ {body} }}", "LoopForm 1") for body in (
        "for (long i = f; i < t; i++) a[i] = v;", "for (long i = f; i < t; i++) a[i] = v + a[i];",
        "for (long i = f; i < t; i++) a[i] = b[i] + v;", "for (long i = f; i < t; i++) a[i] = a[f] + v;",
        "for (long i = f; i < t; i++) a[i] = a[i] + v + t;", "for (long i = f; i < t; i++) a[i] *= v;",
        "for (long i = f; i < t; i++) a[i] |= v;", "for (long i = f; i < t; i++) a[i] = a[i] * v;",
        "for (long i = f; i < t; i++) a[f] += v;",
        "for (long i = f; i < t; i++) a[i + 1] += v;", "for (long i = f; i < t; i++) { a[i] += v; a[i] += v; }",
        "for (long i = f; i < t; i++) { a[i] += v; ; }", "for (long i = f; i < t; i++) { { a[i] += v; } }",
        "for (long i = f; i < t; i++) if (f < i) a[i] += v;", "for (long i = f; i < t; i++) { long x = v; a[i] += v; }",
        "for (long i = f; i < t; i++) for (long j = f; j < t; j++) a[j] += v;",
        "long i; for (i = f; i < t; i++) a[i] += v;",
        "for (long i = f; i < t; i += 2) a[i] += v;", "for (long i = f; t > i; i++) a[i] += v;",
        "for (long i = f; i < t; i--) a[i] += v;", "for (long i = f; i < t; i = 1 + i) a[i] += v;",
        "for (long i = f; i < t; f++) a[i] += v;", "while (f < t) { a[f] += v; f++; }",
    )],
    # sweeps beside call loops, and behind calls
    ("A *q; long a[9]; void t() { } "
     "void m(long v) { for (long i; i < 3; i++) a[i] += v; for (long i; i < v; i++) q->t(); }", None),
    ("A *q; long a[9]; void t() { } void m(long v) { q->t();\nfor (long i; i < 3; i++) a[i] += v; }",
     "NotSeparable A::m 2 AccessAfterCall"),
    # operators whose operands may stand in any order
    *[(f"long f; void m(long x) {{ {body} }}", None) for body in (
        "f = max(f, x);", "f = max(x, f);", "f = min(f, x + 1);", "f = min(2 * x, f);", "f &= x;", "f |= x;", "f ^= x;",
        "f = x & f;", "f = f | x | 6;", "f = f ^ (x ^ 6);", "f = max(3, max(x, f));", "f = max(max(f, x), min(x, 7));",
        "f &= x; f &= 6;", "f = f | x & 3;", "f = max(f, -x);",
    )],
    *[(f"long f; void m(long x) {{ {body} }}", "FieldDiffers f") for body in (
        "f = max(f, x) + 1;", "f = max(f + 1, x);", "f = max(min(f, x), x);", "f = (f | x) & 7 ^ x;", "f = f & x | x;",
        "f = 2 * min(f, x);", "f |= x; f &= 6;", "f = max(f, x); f += x;", "f = max(x, x);",
    )],
    ("long a[2]; void m(long x) { a[0] |= x; }", "FieldDiffers a"),
    ("long a[2]; void m() { a[0] |= 6; }", None),
    # one operator and another, or a sum
    *[(f"long f; void m(long x) {{ {one} }} void n(long x) {{ {other} }}", "FieldDiffers f") for one, other in (
        ("f = max(f, x);", "f = min(f, x);"), ("f |= x;", "f &= x;"), ("f ^= x;", "f |= x;"), ("f &= x;", "f ^= x;"),
        ("f = max(f, x);", "f += x;"), ("f |= x;", "f = 6;"),
    )],
    # what numbers come to: `&` binds more than `^`, `^` more than `|`, and all less than a comparison
    *[(f"long f; void m() {{ f = {text}; }} void n() {{ f = {value}; }}", None) for text, value in (
        ("6 & 3", "2"), ("6 | 3", "7"), ("6 ^ 3", "5"), ("max(-1, 2)", "2"), ("min(-1, 2)", "-1"), ("-4 & 7", "4"),
        ("-4 | 3", "-1"), ("-4 ^ 3", "-1"), ("1 | 6 & 3", "3"), ("6 ^ 3 & 5", "7"), ("1 | 3 ^ 3", "1"),
        ("6 & 1 + 1", "2"),
    )],
    ("bool f; void m() { f = (6 & 3) == 2; } void n() { f = true; }", None),
    # no number, an absorbing one, a neutral one; operands that are there twice
    *[(f"long f; void m(long x) {{ f = {text}; }} void n(long x) {{ f = {value}; }}", None) for text, value in (
        ("max(x, 9223372036854775807)", "9223372036854775807"), ("x & 0 & f", "0"), ("x | -1", "-1"), ("x ^ x", "0"),
        ("min(f, -9223372036854775807 - 1)", "-9223372036854775807 - 1"), ("x ^ f ^ (x ^ f ^ 5)", "5"),
    )],
    *[(f"long f; void m(long x) {{ {body} }} void n(long x) {{ f = x; }}", None) for body in (
        "f |= 0;", "f ^= 0;", "f &= -1;", "f = max(f, -9223372036854775807 - 1);", "f = min(9223372036854775807, f);",
        "f ^= x; f ^= x;", "f = f & f;", "f = max(f, f);", "f = f | f | f;", "f = f ^ f ^ f;",
    )],
    ("long f; void m(long x) { f |= 1; } void n(long x) { f = x; }", "FieldDiffers f"),
    # a power and a product of one, and one with a factor, stay operands
    ("long f; void m(long x) { f = max(f * f, x) ^ max(f * f, x); } void n() { f = 0; }", None),
    ("long f; long g; void m(long x) { g += 2 * max(f, x) - max(x, f) - max(f, x); } void n(long x) { f = x; }", None),
    ("long f; long g; void m(long x) { g += max(2 * max(f, x), x) - max(max(f, x), x); } void n(long x) { f = x; }",
     "FieldDiffers g"),
    ("long f; A *q; void t(long x) { } void m(long x) { f = max(f, x); q->t(f); }", "DemandsDiffer"),
    ("long f; A *q; void t(long x) { } void m(long x) { f = max(f, x); q->t(x & 7); }", None),
    ("long f; A *q; long g; void t(long x) { } void m(long x) { f ^= x; q->t(g ^ f ^ f); } void n(long x) { f ^= 5; }",
     None),
]


POWER = " * ".join(["(f + h)"] * 16)
DOUBLED = "void m(long p) { long v = p; " + "v = v + v; " * 15

# The same at the limit on weights: 65,536 nodes, products, and 4,096 levels, and one more each.
LIMITS = [
    (f"long g; {DOUBLED} g = -v; }}", "FieldDiffers g"),
    (f"long g; {DOUBLED} g = - -v; }}", "Large"),
    (f"long f; long h; long g; void m(long p) {{ g = {POWER}; }}", None),
    (f"long f; long h; long g; void m(long p) {{ g = {POWER} + 1; }}", "Large"),
    ("long f; long g; void m() { " + "f = f % 7; " * 2047 + "g = -f; }", None),
    ("long f; long g; void m() { " + "f = f % 7; " * 2047 + "g = - -f; }", "Large"),
    ("bool f; bool g; void m() { " + "f = !f; " * 2047 + "g = !f; }", None),
    (f"long g; {DOUBLED.replace('+', '|')} g = -v; }}", "FieldDiffers g"),
    (f"long g; {DOUBLED.replace('+', '|')} g = - -v; }}", "Large"),
    ("long f; long g; void m() { " + "f = max(f, 7); " * 2047 + "g = -f; }", None),
    ("long f; long g; void m() { " + "f = max(f, 7); " * 2047 + "g = - -f; }", "Large"),
    (f"long h; long g; void m() {{ long s = h; {'s |= 3; ' * 255} g = s * s; }}", None),
    (f"long h; long g; void m() {{ long s = h; {'s |= 3; ' * 255} g = s * s + 1; }}", "Large"),
]


SAMPLES = pathlib.Path(__file__).parent.parent / "samples"


def samples():
    """The plan of each sample, its run and its schedules, and what they are said to be."""
    for path in sorted(SAMPLES.rglob("*.pairs")):
        tree = tree_of(path.with_suffix(".cc").read_text())
        plan = Plan(tree)
        yield plan.pairs_text(), path.read_text()
        yield plan.plan_text(), path.with_suffix(".plan").read_text()
        yield annotated(tree, plan), path.with_suffix(".emit").read_text()
        if path.parent == SAMPLES:
            yield from runs(plan, path)


def runs(plan, path):
    """What `run` writes of a sample, and `verify` of each schedule of it."""
    run = Written(plan)
    yield run.text(), path.with_suffix(".run").read_text()
    if path.with_suffix(".schedule").exists():
        schedules = Schedules(plan, ENOUGH, 0, "", run.steps())
        for ending, due in (".schedule", "yes\n"), (".trace", "yes\n"), (".strays", path.with_suffix(".verify").read_text()):
            yield schedules.reply(path.with_suffix(ending).read_text().removeprefix("\n" + HEADER))[1], due


def small_text(members):
    return f"class A {{ public: {members} }}; int main() {{ }}"


def texts():
    """All texts of the rows, and the samples but those in C++ that wants a port."""
    files = [path for path in SAMPLES.rglob("*.cc") if "cxx" not in path.relative_to(SAMPLES).parts]
    shown = [text for text, _ in PAIRS + PLANS + EMITTED] + [path.read_text() for path in files]
    return shown + [small_text(members) for members, _ in VERDICTS + LIMITS]


def differences():
    """What the reference says otherwise."""
    for text, due in PAIRS:
        yield from told(Plan(tree_of(text)).pairs_text(), due)
    for text, due in PLANS:
        yield from told(Plan(tree_of(text)).plan_text(), due)
    for found, due in samples():
        yield from told(found, due)
    for text, due in EMITTED:
        tree = tree_of(text)
        yield from told(annotated(tree, Plan(tree)), due)
        yield from told(erase(due.encode()).decode(), canonical(tree))
    for members, due in VERDICTS + LIMITS:
        plan = Plan(tree_of(small_text(members)))
        a = next(op for op in plan.program.ops if op.name == "m")
        b = next((op for op in plan.program.ops if op.name == "n"), a)
        yield from told(dict(plan.ops)[a].reason(a, b), due)
    try:
        erase(b"int main() { /*@hold*/ }")
    except BadMark as bad:
        yield from told(bad.args, (1, 14))


def told(found, due):
    if found != due:
        yield f"the reference: {found}\ndue: {due}"


if __name__ == "__main__":
    sys.setrecursionlimit(100000)
    found = list(differences())
    print("\n".join(found) or "all rows alike")
    raise SystemExit(len(found) > 0)
