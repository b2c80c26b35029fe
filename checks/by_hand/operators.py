"""Rows on operators on bits, `max` and `min`: tokens, levels, types, values, and what changes places with what."""

from by_hand.forms import class_and_main, class_of, doubled, main_of, ok, pairs, refused, refused_at, repeated, row
from by_hand.forms import single, spent, trapped

LEAST = "-9223372036854775807 - 1"
MEMBERS = "long a[2]; A *o; long n; long z;\n"
CALL = "A *x = new A(); x->f();\n"
FACTORS = "*".join(["max(c, p)"] * 16)

# A parity that three calls change; two of them cancel.
PARITY = (
    "class X { public: long x; void f(long v) { x ^= v; } void g() { f(5); f(5); f(3); } }; "
    "int main() { X *a = new X(); a->g(); }"
)

# Ten calls to each of three objects, whose fields start at 0; `low` counts down from there.
GATHERED = """class B { public: long any; long odd; long top; long low;
void add(long v) { any |= v; odd ^= v; top = max(top, v); low = min(-v, low); } };
class R { public: B *b[3]; void make() { for (long i; i < 3; i++) b[i] = new B(); }
void go() { for (long i; i < 30; i++) b[i % 3]->add(i); } };
int main() { R *r = new R(); r->make(); r->go(); }"""

# Two calls of a value method as the sides of an operator.
STEPS = class_and_main("long g(long x) { return x; } void f() { print(max(g(1), g(2))); }\n", CALL)

BOUNDS = (
    "class M { public: long x; void up(long v) { x = max(x, v); } void lo(long v) { x = min(x, v); } "
    "void both(long v) { up(v); lo(v); } }; int main() { }"
)

# Each operator, with parentheses that are needed and that aren't.
WRITTEN = (
    "class A { public: long n; bool b; void m(long v) { n = (n & v) | (v ^ 1); n = (n & (v | 1)) ^ (2 ^ v); "
    "n = n & (v & 3) & 1; n |= (max((n), (v + 1))); b = ((n & 1) == (1 & v)) && ((n | 2) < max(n, 2)) || b; "
    "n ^= -(min(1, 2)) * (max(v, 2) - 1); n&=v; n = (1 + n) & (2 * 3); n = -(n ^ -n); } }; int main() { }"
)

ROWS = [
    # tokens
    ok(
        "operators without spaces",
        main_of("print(6&3);print(6|3);print(6^3);print(6&-1);print(max(1,2)^min(1,2));"), "2\n7\n5\n6\n3\n",
    ),
    ok("assignments without spaces", main_of("long x=6;x&=3;print(x);x|=5;print(x);x^=2;print(x);"), "2\n7\n5\n"),
    refused("`& =` in two", main_of("long x; x & = 1;"), "1:24", "E10"),
    refused("`| =` in two", main_of("long x; x | = 1;"), "1:24", "E10"),
    refused("`^ =` in two", main_of("long x; x ^ = 1;"), "1:24", "E10"),
    refused("`&&` and then `=`", main_of("bool b; b &&= true;"), "1:24", "E10"),
    refused("`||` and then `=`", main_of("bool b; b ||= true;"), "1:24", "E10"),
    refused("`&&` and then `=` in an expression", main_of("bool b = true &&= true;"), "1:30", "E10"),
    refused("`|=` and then `=`", main_of("long x; x |== 1;"), "1:26", "E10"),
    refused("`&&` and then `&=`", main_of("long x; x &&&= 1;"), "1:24", "E10"),
    refused("`^` twice", main_of("print(1 ^^ 2);"), "1:23", "E10"),
    refused("there is no `max=`", main_of("long x; x max= 1;"), "1:24", "E10"),
    refused("there is no `~`", main_of("print(~1);"), "1:20", "E01"),
    refused("there is no `<<`", main_of("print(1 << 2);"), "1:23", "E10"),
    # key words
    ok(
        "names that begin like `max` and `min`",
        main_of("long maxx = 1; long Max = 2; long min_ = 3; print(maxx+Max+min_);"), "6\n",
    ),
    refused("a local `max`", main_of("long max = 1;"), "1:19", "E10"),
    refused_at("a field `min`", "class A { public: long n, @min; };", "E10"),
    refused_at("an operation `max`", "class A { public: void @max(long x) { } };", "E10"),
    refused_at("a value method `min`", "class A { public: long @min(long x) { return x; } };", "E10"),
    refused_at("a parameter `max`", "class A { public: void f(long @max) { } };", "E10"),
    refused_at("a class `min`", "class @min { public: };", "E10"),
    refused_at("a field `max` behind an arrow", main_of("A *a; print(a->@max);"), "E10"),
    refused_at("a value method `max` of `this`", class_of("void f() { print(this->@max(1, 2)); }"), "E10"),
    refused_at("a method that is called like `max`, alone", main_of("@max(1, 2);"), "E10"),
    # the two expressions in round brackets
    refused_at("`max` of nothing", main_of("print(max(@));"), "E10"),
    refused_at("`max` of one", main_of("print(max(1@));"), "E10"),
    refused_at("`min` of three", main_of("print(min(1, 2@, 3));"), "E10"),
    refused_at("`max` without brackets", main_of("print(max @1, 2);"), "E10"),
    refused_at("`max` alone", main_of("print(max@);"), "E10"),
    refused_at("`max` as a target", main_of("long x; @max(x, x) = 1;"), "E10"),
    refused_at("new in `max`", main_of("long x = max(@new A(), 1);"), "E10"),
    refused_at("an arrow behind `max`", main_of("print(max(1, 2)@->f);"), "E10"),
    refused_at("an index behind `min`", main_of("print(min(1, 2)@[0]);"), "E10"),
    refused_at("an arrow behind `max` in brackets", main_of("print((max(1, 2))@->f);"), "E25"),
    refused_at("an index behind `min` in brackets", main_of("print((min(1, 2))@[0]);"), "E31"),
    refused_at("`&` before an operand", main_of("print(@&1);"), "E10"),
    refused_at("`|` without right side", main_of("print(1 |@);"), "E10"),
    refused_at("an assignment in an assignment", main_of("long x; x = x @|= 1;"), "E10"),
    refused_at("new behind `|=`", main_of("long x; x |= @new A();"), "E10"),
    ok("1,000 tokens of `max`", main_of("print(- - - -" + "max(1," * 199 + "2" + ")" * 199 + ");"), "2\n"),
    refused_at("1,001 tokens of `max`", main_of("print(- - - - -" + "max(1," * 199 + "2" + ")" * 198 + "@));"), "E11"),
    # types
    refused("a truth value and a number", "int main() { print(true & 1); }", "1:25", "E25"),
    refused_at("a number and a truth value", main_of("print(1 @| true);"), "E25"),
    refused_at("two truth values", main_of("print(true @^ false);"), "E25"),
    refused_at("nullptr", main_of("print(nullptr @& 1);"), "E25"),
    refused_at("pointers", class_of("A *o; void f() { print(o @| this); }"), "E25"),
    refused_at("a truth value on the left of `max`", main_of("print(@max(true, 1));"), "E25"),
    refused_at("a truth value on the right of `min`", main_of("print(1 + @min(1, true));"), "E25"),
    refused_at("truth values in a sum in `max`", main_of("print(max(1, true @+ 1));"), "E25"),
    refused_at("an unknown name in `max`", main_of("print(max(true, @y));"), "E24"),
    refused_at("bits as a truth value", main_of("bool b = 1 @& 1;"), "E25"),
    refused_at("the greater as a truth value", main_of("bool b = @max(1, 2);"), "E25"),
    refused_at("bits as a condition", main_of("if (2 @& 2) ;"), "E25"),
    refused_at("`!` of the greater", main_of("print(@!max(1, 2));"), "E25"),
    refused_at("a truth value as the target of `&=`", main_of("bool b; @b &= true;"), "E25"),
    refused_at("a pointer as the target of `^=`", "class A { public: };\nint main() { A *a; @a ^= 1; }", "E25"),
    refused_at("a truth value on the right of `|=`", main_of("long x; x |= @true;"), "E25"),
    refused_at("`|=` in a value method", class_of("long n; long f() { @n |= 1; return n; }"), "E29"),
    refused_at("`&=` of a field of another object", class_of("long n; A *o; void f() { o@->n &= 1; }"), "E27"),
    refused_at("`^=` of an array", class_of("long a[2]; void f() { @a ^= 1; }"), "E27"),
    # levels
    refused_at("`==` binds more than `&`", main_of("print(1 @& 2 == 2);"), "E25"),
    refused_at("`<` binds more than `|`", main_of("print(5 @| 3 < 4);"), "E25"),
    ok(
        "`&` binds more than `|` and `^`",
        main_of("print(1 | 6 & 3); print(6 & 3 | 1); print(6 ^ 3 & 5); print(5 & 3 ^ 6);"), "3\n3\n7\n7\n",
    ),
    ok("`^` binds more than `|`", main_of("print(1 | 3 ^ 3); print(3 ^ 3 | 1);"), "1\n1\n"),
    ok(
        "sums and products bind more",
        main_of("print(6 & 1 + 1); print(4 | 1 * 2); print(1 ^ 1 - 1); print(6 & 9 % 5);"), "2\n6\n1\n4\n",
    ),
    ok(
        "a prefix binds more",
        main_of("print(-6 & 3); print(- -6 & 3); print(-max(1, 2)); print(!((1 & 1) == 1));"), "2\n2\n-2\nfalse\n",
    ),
    ok(
        "`&&` and `||` bind less",
        main_of("print((1 | 2) == 3 && (6 & 3) < 3); print((6 ^ 3) == 3 || (6 ^ 3) == 5);"), "true\ntrue\n",
    ),
    ok(
        "`max` and `min` are operands",
        main_of(
            "print(max(1, 2) * 3); print(max(1, 2) - min(3, 4) * 2); print(max(1 | 2, 2)); "
            "print(max(min(5, 3), max(-1, 2))); print(max((1), ((2))));"
        ),
        "6\n-4\n3\n3\n2\n",
    ),
    # values
    ok(
        "the five operators",
        main_of("print(6 & 3); print(6 | 3); print(6 ^ 3); print(max(-1, 2)); print(min(-1, 2)); print(1 | 6 & 3);"),
        "2\n7\n5\n2\n-1\n3\n",
    ),
    ok(
        "negative numbers",
        main_of(
            "print(-4 & 7); print(-4 | 3); print(-4 ^ 3); print(-1 ^ 0); print(max(-1, 0)); print(min(-1, 0));"
        ),
        "4\n-1\n-1\n-1\n0\n-1\n",
    ),
    ok(
        "the least and the greatest number",
        main_of(
            f"long l = {LEAST}; long g = 9223372036854775807; print(l & g); print(l | g); print(l ^ g); "
            "print(max(l, g)); print(min(l, g)); print(max(l, l)); print(-1 & g); print(l ^ -1); print(l & -1); "
            "print(min(l, -g));"
        ),
        "0\n-1\n-1\n9223372036854775807\n-9223372036854775808\n-9223372036854775808\n9223372036854775807\n"
        "9223372036854775807\n-9223372036854775808\n-9223372036854775808\n",
    ),
    ok(
        "bits above the 32nd",
        main_of("print(4294967296 | 1); print(12884901888 & 8589934593); print(4294967297 ^ 1);"),
        "4294967297\n8589934592\n4294967296\n",
    ),
    ok(
        "assignments to a field and an item",
        class_and_main(
            MEMBERS + "void f() { n |= 6; print(n); n &= 3; print(n); n ^= 7; print(n); a[1] |= 6; a[1] &= 3; "
            "a[1] ^= 7; this->a[n - 5] |= 8; }\n", CALL,
        ),
        "6\n2\n5\n#0 A a=[8,5] o=null n=5 z=0\n",
    ),
    ok(
        "assignments as the parts of a for",
        main_of("long i; for (i |= 1; i < 9; i ^= i + i) print(i);"), "1\n3\n5\n",
    ),
    # what is checked, and when
    trapped("the right side of `&` is asked", "int main() {\nlong z;\n@print(0 & 1 / z);\n}", "ZeroDivisor"),
    trapped("the right side of `|` is asked", "int main() {\nlong z;\n@print(-1 | 1 / z);\n}", "ZeroDivisor"),
    ok("that of `&&` isn't", main_of("long z; print(false && (0 & 1 / z) == 0);"), "false\n"),
    trapped(
        "the left of `max` before the right",
        class_and_main(MEMBERS + "void f() {\n@n = max(a[2], 1 / z); }\n", CALL), "OutOfRange",
    ),
    trapped(
        "the right of `max` behind the left",
        class_and_main(MEMBERS + "void f() {\n@n = max(1 / z, a[2]); }\n", CALL), "ZeroDivisor",
    ),
    trapped(
        "the index of `|=` before the right side",
        class_and_main(MEMBERS + "void f() {\n@a[2] |= 1 / z; }\n", CALL), "OutOfRange",
    ),
    trapped(
        "the right side of `^=`", class_and_main(MEMBERS + "void f() {\n@a[1] ^= 1 / z; }\n", CALL), "ZeroDivisor",
    ),
    ok("each side of `max` takes its steps once", STEPS, "2\n#0 A\n", "run 1 3"),
    spent("each side of `max` takes a step", STEPS, 2),
    # by several workers
    *[row(f"a parity by {count}", f"run {count} 4", PARITY, 0, "#0 X x=3\n") for count in (1, 2, 4)],
    *[spent(f"a parity by {count}, spent", PARITY, 3, workers=count) for count in (1, 2, 4)],
    *[row(f"gathered bits by {count}", f"run {count} 1000", GATHERED, 0,
          "#0 R b=[#1,#2,#3]\n#1 B any=31 odd=11 top=27 low=-27\n#2 B any=31 odd=21 top=28 low=-28\n"
          "#3 B any=31 odd=31 top=29 low=-29\n") for count in (1, 2, 4)],
    row("the marks of gathered bits", "plan", GATHERED, 0,
        "op B::add serial\nop R::make serial\nop R::go parallel\nloop 4 parallel\n"),
    # what changes places with itself
    *[single(f"`{body}`", "long n; long c;", f"void m(long p) {{ {body} }}", "commutes") for body in (
        "n = max(n, p);", "n = min(p, n);", "n &= p;", "n |= p;", "n ^= p;", "n = c & n;", "n = n | p | c;",
        "n = max(3, max(p, n));", "n = p ^ (n ^ p * c);", "n |= p & c;", "n &= p; n &= 7;",
        "n = max(n, p); if (p > 3) c += p; n = max(n, p + 1);", "if (p > 3) n |= p;",
        "if (p > 3) n |= p + 1; if (p > 5) n |= p;",
    )],
    *[single(f"`{body}`", "long n;", f"void m(long p) {{ {body} }}", "FieldDiffers n") for body in (
        "n = max(n, p) + 1;", "n = max(n + 1, p);", "n = n & p | p;", "n = max(p, p);", "n |= p; n &= 6;",
        "n = 2 * min(n, p);", "n ^= n & p;",
    )],
    single(
        "bits that a value method chooses", "long n;",
        "long f(long x) { if (x > 3) return x; return 0; } void m(long p) { n |= f(p); }", "commutes",
    ),
    single("bits of an item", "long a[4];", "void m(long i) { a[i] |= 1; }", "FieldDiffers a"),
    single("the greatest item", "long a[4];", "void m(long p) { a[0] = max(a[0], p); }", "FieldDiffers a"),
    single(
        "a condition on bits that changes nothing", "long n; A *o;",
        "void m(long p) { n |= p; if ((n & 4) == 4) n = n; A *t = o->o; }", "commutes",
    ),
    single(
        "a null check under a condition on bits", "long n; A *o;",
        "void m(long p) { n |= p; if ((n & 4) == 4) { A *t = o->o; } }", "DemandsDiffer",
    ),
    pairs("the greatest and the least", BOUNDS, """extent M::up
M::up M::up commutes
extent M::lo
M::lo M::lo commutes
extent M::both
M::up M::up commutes
M::up M::lo unproved FieldDiffers x
M::up M::both commutes
M::lo M::lo commutes
M::lo M::both commutes
M::both M::both commutes
"""),
    row(
        "the plan of the greatest and the least", "plan", BOUNDS, 0,
        "op M::up serial\nop M::lo serial\nop M::both serial\n",
    ),
    # beside an operation that doubles the field
    doubled("a parity twice", "", "n ^= p; n ^= p;", "commutes"),
    doubled("the greatest of a number and itself", "", "n = max(n, n);", "commutes"),
    doubled("or with 0", "", "n |= 0;", "commutes"),
    doubled("and with -1", "", "n &= -1;", "commutes"),
    doubled("the greatest with the least number", "", f"n = max({LEAST}, n);", "commutes"),
    doubled("the least with the greatest number", "", "n = min(n, 9223372036854775807);", "commutes"),
    doubled("and with 0", "", "n &= 0;", "commutes"),
    doubled("exclusive or of a number and itself", "", "n = n ^ n;", "commutes"),
    doubled("or with -1", "", "n |= -1;", "FieldDiffers n"),
    doubled("or with a parameter", "", "n |= p;", "FieldDiffers n"),
    doubled("the greatest of 0", "", "n = max(n, 0);", "FieldDiffers n"),
    doubled("an operand there and back", "long c;", "c = n | p; c = c ^ (p | n);", "commutes"),
    # weights
    repeated("2,047 times `|=`", "long n;", "n |= p; ", 2047, "commutes"),
    repeated("2,048 times `|=`", "long n;", "n |= p; ", 2048, "Large"),
    repeated("2,047 times `max`", "long n;", "n = max(p, n); ", 2047, "commutes"),
    single("16 factors of `max`", "long r; long c;", f"void m(long p) {{ r = {FACTORS}; }}", "FieldDiffers r"),
    single("16 factors of `max`, and a sum", "long r; long c;", f"void m(long p) {{ r = {FACTORS} + 1; }}", "Large"),
    # how they are written
    row("each operator", "emit", WRITTEN, 0, """class A {
public :
long n ;
bool b ;
void m ( long v ) {
n = n & v | v ^ 1 ;
n = n & ( v | 1 ) ^ ( 2 ^ v ) ;
n = n & ( v & 3 ) & 1 ;
n |= max ( n , v + 1 ) ;
b = ( n & 1 ) == ( 1 & v ) && ( n | 2 ) < max ( n , 2 ) || b ;
n ^= - min ( 1 , 2 ) * ( max ( v , 2 ) - 1 ) ;
n &= v ;
n = 1 + n & 2 * 3 ;
n = - ( n ^ - n ) ;
}
} ;
int main ( ) {
}
"""),
    row("a parity with its marks", "emit", PARITY, 0, """class X {
public :
long x ;
void f ( long v ) {
/*@lock*/ x ^= v ;
/*@unlock*/ }
void g ( ) {
/*@spawn*/ f ( 5 ) ;
f ( 5 ) ;
f ( 3 ) ;
}
} ;
int main ( ) {
X * a = new X ( ) ;
/*@parallel*/ a -> g ( ) ;
}
"""),
]
