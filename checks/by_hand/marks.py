"""Rows on `plan` and `emit`: what is parallel, where marks stand, and how a program is written."""

from by_hand.forms import pairs, row

# Operations and loops that commute or don't, for each reason.
MIXED = """class B { public: long n; void add(long v) { n += v; } };
class S { public: B *b[4]; long w; long d;
void all(long v) { for (long i = 0; i < 4; i++) b[i]->add(v); }
void put(long v) { w = v; b[0]->add(v); }
void half() { for (long i = 0; i < 4 / d; i++) b[i]->add(1); }
void seq(long v) { w = w + v; for (long i = 0; i < w; i++) b[i]->add(w); }
void two() { all(1); all(2); }
};
int main() {
S *s = new S();
for (long i = 0; i < 4; i++) s->b[i]->add(i);
long z = 2;
for (long i = 0; i < 4 / z; i++) s->b[i]->add(i);
for (long i = 0; i < s->b[0]->n; i++) s->b[i]->add(i);
for (long i = 0; i < 4; i++) s->put(i);
for (long i = 0; i < 4; i++) { s->b[i]->add(i); s->two(); }
for (long j = 0; j < z; j = j + 1) s->b[j % 3]->add(j / 2);
for (long j = 0; j < z; j = 1 + j) s->all(1);
}
"""

# Each form of the language, with parentheses that are needed and that aren't.
FORMS = (
    "class A; class A { public: long n, m; bool b[2]; A *p, *q[3]; void e() { } "
    "long f(long x, bool y) { return (((x))) - (x - (1 + x) * 2) - -(x + 1) - (-x); } "
    "void g() { ; { } ; { ; } if (b[0]) { n++; } else if ((!b[1]) && (b[0] || !(b[1] && b[0]))) m--; else { } "
    "while ((1 < 2) == (true == false)) q[(1)] = new A; "
    "for (long i; (i) < (2 * (3 * 4)) / 5; i -= (-1)) this->q[i + 1]->p->g(); if (true) if (false) ; else e(); "
    "n = f((1 + 2), ((n < m) || b[0])) * (p->f(1, true) % (7)); } }; class A; "
    "int main() { A *x; x = new A; x->g(); return 0; }"
)

# Calls of operations that are parallel, as branches, in blocks and in loops.
POSITIONS = """class A { public: A *p; long n; void e() { } void m(long x) { if (x > 0) p->m(x - 1); else e(); } \
void w() { m(1); } void v() { { m(2); } } void s() { n = 1; print(n); m(3); } void t() { } };
int main() { A *a; if (true) a->m(1); else { a->w(); } while (false) a->t(); a->s(); \
for (long i; i < 3; i++) { a->m(i); a->e(); } for (long i; i < 3; i += 2) a->m(i); }"""

# Loops whose own expressions read constants, fields that the body writes, or divide.
OWN_EXPRESSIONS = """class B { public: long n; long c; long f() { return n; } long g() { return c / c; } \
void add(long v) { n += v; } };
class S { public: B *b; long w; B *q[2];
void m1() { for (long i; i < b->f(); i++) b->add(1); }
void m2() { for (long i; i < b->g(); i++) b->add(b->g()); }
void m3() { for (long i; i < 3; i++) b->add(w / -2 % 5); }
void m4() { for (long i; i < 3; i++) b->add(w / 0); }
void m5() { for (long i = b->n; i < 3; i++) b->add(1); }
void m6() { w = 1; for (long i; i < w; i++) { b->add(1); q[i]->add(w); } print(w); }
void m7() { for (long i; i < 3; i++) { m3(); m2(); } }
};
int main() { B *b; S *s; for (long i; i < 2; i++) { b->add(1); s->m3(); }
for (long i; i < s->w; i++) s->m2();
for (long i; i < 2; i++) s->m6();
for (long i; i < 2; i++) { s->m3(); s->m1(); } }
"""

ROWS = [
    # the plan
    row("a plan", "plan", MIXED, 0, """op B::add serial
op S::all parallel
op S::put serial
op S::half serial
op S::seq serial
op S::two parallel
loop 3 parallel
loop 5 serial
loop 6 parallel
loop 11 parallel
loop 13 serial
loop 14 serial
loop 15 serial
loop 16 parallel
loop 17 parallel
"""),
    pairs("the pairs of a plan", MIXED, """extent B::add
B::add B::add commutes
extent S::all
B::add B::add commutes
S::all S::all commutes
extent S::put
B::add B::add commutes
S::put S::put unproved FieldDiffers w
extent S::half
B::add B::add commutes
S::half S::half unproved NotSeparable S::half 5 DividesByVariable
extent S::seq
B::add B::add commutes
S::seq S::seq unproved NotSeparable S::seq 6 AccessAfterCall
extent S::two
B::add B::add commutes
S::all S::all commutes
S::all S::two commutes
S::two S::two commutes
loop 3
B::add B::add commutes
loop 5
B::add B::add commutes
loop 6
B::add B::add commutes
loop 11
B::add B::add commutes
loop 13
B::add B::add commutes
loop 14
B::add B::add commutes
loop 15
B::add B::add commutes
S::put S::put unproved FieldDiffers w
loop 16
B::add B::add commutes
S::all S::all commutes
S::all S::two commutes
S::two S::two commutes
loop 17
B::add B::add commutes
"""),
    row("the marks of a plan", "emit", MIXED, 0, """class B {
public :
long n ;
void add ( long v ) {
/*@lock*/ n += v ;
/*@unlock*/ }
} ;
class S {
public :
B * b [ 4 ] ;
long w ;
long d ;
void all ( long v ) {
for ( long i = 0 ; i < 4 ; i += 1 ) /*@spawn*/ b [ i ] -> add ( v ) ;
}
void put ( long v ) {
w = v ;
b [ 0 ] -> add ( v ) ;
}
void half ( ) {
for ( long i = 0 ; i < 4 / d ; i += 1 ) b [ i ] -> add ( 1 ) ;
}
void seq ( long v ) {
w = w + v ;
/*@parallel*/ for ( long i = 0 ; i < w ; i += 1 ) b [ i ] -> add ( w ) ;
}
void two ( ) {
/*@spawn*/ all ( 1 ) ;
all ( 2 ) ;
}
} ;
int main ( ) {
S * s = new S ( ) ;
/*@parallel*/ for ( long i = 0 ; i < 4 ; i += 1 ) s -> b [ i ] -> add ( i ) ;
long z = 2 ;
for ( long i = 0 ; i < 4 / z ; i += 1 ) s -> b [ i ] -> add ( i ) ;
for ( long i = 0 ; i < s -> b [ 0 ] -> n ; i += 1 ) s -> b [ i ] -> add ( i ) ;
for ( long i = 0 ; i < 4 ; i += 1 ) s -> put ( i ) ;
/*@parallel*/ for ( long i = 0 ; i < 4 ; i += 1 ) {
s -> b [ i ] -> add ( i ) ;
s -> two ( ) ;
}
/*@parallel*/ for ( long j = 0 ; j < z ; j = j + 1 ) s -> b [ j % 3 ] -> add ( j / 2 ) ;
for ( long j = 0 ; j < z ; j = 1 + j ) /*@parallel*/ s -> all ( 1 ) ;
}
"""),
    row("a plan with calls as branches", "plan", POSITIONS, 0, """op A::e serial
op A::m parallel
op A::w parallel
op A::v parallel
op A::s serial
op A::t serial
loop 2 parallel
"""),
    row("marks of calls as branches", "emit", POSITIONS, 0, """class A {
public :
A * p ;
long n ;
void e ( ) {
}
void m ( long x ) {
if ( x > 0 ) /*@spawn*/ p -> m ( x - 1 ) ;
else /*@spawn*/ e ( ) ;
}
void w ( ) {
/*@spawn*/ m ( 1 ) ;
}
void v ( ) {
{
/*@spawn*/ m ( 2 ) ;
}
}
void s ( ) {
n = 1 ;
print ( n ) ;
/*@parallel*/ m ( 3 ) ;
}
void t ( ) {
}
} ;
int main ( ) {
A * a ;
if ( true ) /*@parallel*/ a -> m ( 1 ) ;
else {
/*@parallel*/ a -> w ( ) ;
}
while ( false ) a -> t ( ) ;
a -> s ( ) ;
/*@parallel*/ for ( long i ; i < 3 ; i += 1 ) {
a -> m ( i ) ;
a -> e ( ) ;
}
for ( long i ; i < 3 ; i += 2 ) /*@parallel*/ a -> m ( i ) ;
}
"""),
    row("loops with expressions of their own", "plan", OWN_EXPRESSIONS, 0, """op B::add serial
op S::m1 serial
op S::m2 parallel
op S::m3 parallel
op S::m4 serial
op S::m5 serial
op S::m6 serial
op S::m7 parallel
loop 3 serial
loop 4 parallel
loop 5 parallel
loop 6 serial
loop 7 serial
loop 8 parallel
loop 9 parallel
loop 11 parallel
loop 12 parallel
loop 13 serial
loop 14 serial
"""),
    row("a plan without operations", "plan", "int main() { for (long i; i < 3; i++) print(i); }", 0, ""),
    row("pairs of an empty program", "pairs", "int main() { }", 0, ""),
    # how a program is written
    row("each form of the language", "emit", FORMS, 0, """class A {
public :
long n ;
long m ;
bool b [ 2 ] ;
A * p ;
A * q [ 3 ] ;
void e ( ) {
}
long f ( long x , bool y ) {
return x - ( x - ( 1 + x ) * 2 ) - - ( x + 1 ) - - x ;
}
void g ( ) {
;
{
} ;
{
;
}
if ( b [ 0 ] ) {
n += 1 ;
}
else if ( ! b [ 1 ] && ( b [ 0 ] || ! ( b [ 1 ] && b [ 0 ] ) ) ) m -= 1 ;
else {
}
while ( 1 < 2 == ( true == false ) ) q [ 1 ] = new A ( ) ;
for ( long i ; i < 2 * ( 3 * 4 ) / 5 ; i -= - 1 ) this -> q [ i + 1 ] -> p -> g ( ) ;
if ( true ) if ( false ) ;
else e ( ) ;
n = f ( 1 + 2 , n < m || b [ 0 ] ) * ( p -> f ( 1 , true ) % 7 ) ;
}
} ;
int main ( ) {
A * x ;
x = new A ( ) ;
x -> g ( ) ;
}
"""),
    row("an empty main", "emit", "int main() { /*@lock*/ return 0; }", 0, "int main ( ) {\n}\n"),
    row("blocks, and `;` behind them", "emit", "int main() { { } ; { { } } ; }", 0, """int main ( ) {
{
} ;
{
{
}
} ;
}
"""),
    row("an empty class", "emit", "class T{public:};class U;int main(){}", 0, """class T {
public :
} ;
int main ( ) {
}
"""),
    # refusals
    row("an unknown name", "emit", "int main() { x = 1; }", 1, "error 1:14 E24\n"),
    row("no end of main, asked for pairs", "pairs", "int main() { ", 1, "error 1:14 E10\n"),
    row("a bad byte, asked for a plan", "plan", "$", 1, "error 1:1 E01\n"),
]
