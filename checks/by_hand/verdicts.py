"""Rows on verdicts of separable operations: fields, demands, and what normal forms show."""

from by_hand.forms import class_of, doubled, k_and_m, pairs, single

ROWS = [
    # the first field that differs, in the order of the class
    single("the first of two fields", "long a; long b;", "void m(long p) { b = p; a = p; }", "FieldDiffers a"),
    single("the second of two fields", "long a; long b;", "void m(long p) { a += p; b = p; }", "FieldDiffers b"),
    single("an array before a field", "long a[2]; long b;", "void m(long p) { b = p; a[0] = p; }", "FieldDiffers a"),
    single(
        "an array whose index is written", "long z[3]; long b;", "void m(long p) { b = b + p; z[b] += 1; b = p; }",
        "FieldDiffers z",
    ),
    single(
        "a field before an index check", "long z[3]; long b;", "void m(long p) { b = b + p; long t = z[b]; b = p; }",
        "FieldDiffers b",
    ),
    # what is checked and called
    single(
        "an index that is written", "long n; long a[4];", "void m(long p) { n = n + p; long t = a[n]; }",
        "DemandsDiffer",
    ),
    single(
        "an index under `false`", "long n; long a[4];", "void m(long p) { n = n + p; if (false) { long t = a[n]; } }",
        "commutes",
    ),
    single(
        "a null check under a condition that is written", "long n; A *o;",
        "void m(long p) { n = n + p; if (n > 3) { A *t = o->o; } }", "DemandsDiffer",
    ),
    single(
        "a null check on the right of `||`", "long n; A *o;",
        "void m(long p) { n = n + p; bool t = n > 3 || o->o == nullptr; }", "DemandsDiffer",
    ),
    single(
        "a null check under a parameter", "long n; A *o;",
        "void m(long p) { n = n + p; if (p > 3) { A *t = o->o; } }", "commutes",
    ),
    single(
        "a value method of a written field that divides", "long n; long c;",
        "long f(long x) { return x / c; } void m(long p) { n = n + p; long t = f(n); }", "DemandsDiffer",
    ),
    single(
        "a value method of a parameter that divides", "long n; long c;",
        "long f(long x) { return x / c; } void m(long p) { n = n + f(p); }", "commutes",
    ),
    single(
        "a value method on the right of `&&`", "long n;",
        "long f() { return 1; } void m(long p) { n = n + p; if (n > 0 && f() == 1) ; }", "DemandsDiffer",
    ),
    single("a null check of a parameter", "long n; A *o;", "void m(A *p) { A *t = p->o; n += 1; }", "commutes"),
    single("an index that is always wrong", "long a[2];", "void m(long x) { a[5] += x; }", "commutes"),
    pairs(
        "a loop up to a written field",
        class_of(
            "long n; long c; A *o; void k() { } void m(long p) { n += p; long t = n;\nfor (long i; i < t; "
            "i++) o->k(); }"
        ),
        k_and_m("commutes", "DemandsDiffer", loops=[2]),
    ),
    pairs(
        "a loop up to a parameter",
        class_of(
            "long n; long c; A *o; void k() { } void m(long p) { n += p; long t = n;\nfor (long i; i < p; "
            "i++) o->k(); }"
        ),
        k_and_m("commutes", loops=[2]),
    ),
    pairs(
        "a loop under a written field",
        class_of(
            "long n; long c; A *o; void k() { } void m(long p) { n += p; if (n > 0)\nfor (long i; i < p; "
            "i++) o->k(); }"
        ),
        k_and_m("commutes", "DemandsDiffer", loops=[2]),
    ),
    pairs(
        "calls in two orders",
        class_of(
            "long n; A *o; void k(long x) { } void m(long p) { o->k(p); o->k(p + 1); } void r(long p) { o->k(p + 1); "
            "o->k(p); } void w() { m(1); r(1); }"
        ),
        """extent A::k
A::k A::k commutes
extent A::m
A::k A::k commutes
A::k A::m commutes
A::m A::m commutes
extent A::r
A::k A::k commutes
A::k A::r commutes
A::r A::r commutes
extent A::w
A::k A::k commutes
A::k A::m commutes
A::k A::r commutes
A::k A::w commutes
A::m A::m commutes
A::m A::r commutes
A::m A::w commutes
A::r A::r commutes
A::r A::w commutes
A::w A::w commutes
""",
    ),
    pairs(
        "the same call in both branches",
        class_of("long n; A *o; void k(long x) { } void m(long p) { n += p; if (n > 0) o->k(1); else o->k(1); }"),
        k_and_m("commutes"),
    ),
    pairs(
        "another call in each branch",
        class_of("long n; A *o; void k(long x) { } void m(long p) { n += p; if (n > 0) o->k(1); else o->k(2); }"),
        k_and_m("commutes", "DemandsDiffer"),
    ),
    pairs(
        "items as arguments",
        class_of(
            "long a[2]; A *o; void k(long x) { } void m(long p) { a[0] += p; o->k(a[1]); } void r(long p) { "
            "a[0] += p; o->k(a[0]); }"
        ),
        """extent A::k
A::k A::k commutes
extent A::m
A::k A::k commutes
A::k A::m commutes
A::m A::m commutes
extent A::r
A::k A::k commutes
A::k A::r commutes
A::r A::r unproved DemandsDiffer
""",
    ),
    pairs(
        "a receiver this, and none",
        class_of(
            "long n; void k(long x) { } void m(long p) { k(p); } void r(long p) { this->k(p); } void w() { m(1); "
            "r(1); }"
        ),
        """extent A::k
A::k A::k commutes
extent A::m
A::k A::k commutes
A::k A::m commutes
A::m A::m commutes
extent A::r
A::k A::k commutes
A::k A::r commutes
A::r A::r commutes
extent A::w
A::k A::k commutes
A::k A::m commutes
A::k A::r commutes
A::k A::w commutes
A::m A::m commutes
A::m A::r commutes
A::m A::w commutes
A::r A::r commutes
A::r A::w commutes
A::w A::w commutes
""",
    ),
    pairs(
        "a call under 199 conditions that are true",
        class_of("long n; void k() { } void m(long x) { " + "if(true)" * 199 + "k(); }"), k_and_m("commutes"),
    ),
    # truth values
    single("`b || q`", "bool b;", "void m(bool q) { b = b || q; }", "commutes"),
    single("`q && b`", "bool b;", "void m(bool q) { b = q && b; }", "commutes"),
    single("`b != q`", "bool b;", "void m(bool q) { b = b != q; }", "commutes"),
    single("`b == q`", "bool b;", "void m(bool q) { b = b == q; }", "commutes"),
    single("true under a condition", "bool b;", "void m(bool q) { if (q) b = true; }", "commutes"),
    single("`!b` under a condition", "bool b;", "void m(bool q) { if (q) b = !b; }", "commutes"),
    single("a truth value put", "bool b;", "void m(bool q) { b = q; }", "FieldDiffers b"),
    single("`!b || q`", "bool b;", "void m(bool q) { b = !b || q; }", "FieldDiffers b"),
    single("an item `b[i] || q`", "bool b[2];", "void m(long i, bool q) { b[i] = b[i] || q; }", "FieldDiffers b"),
    # numbers
    single("the greater of two", "long n;", "void m(long p) { if (n < p) n = p; }", "commutes"),
    single("the greater of two, with equal ones", "long n;", "void m(long p) { if (p >= n) { n = p; } }", "commutes"),
    single("the lesser of two", "long n;", "void m(long p) { if (n > p) n = p; }", "commutes"),
    single("the greater of two by `else`", "long n;", "void m(long p) { if (p < n) ; else n = p; }", "commutes"),
    single("the greater of a field and a sum", "long n;", "void m(long p) { if (n < p + 1) n = p + 1; }", "FieldDiffers n"),
    single("the greater of a field and 0 less a number", "long n;", "void m(long p) { if (n < -1) n = -1; if (n < p) n = p; }", "Large"),
    single("the greater of two under a bound", "long n;", "void m(long p) { if (p < 9 && n < p) n = p; }", "commutes"),
    single("the same between two bounds", "long n;", "void m(long p) { if (2 < p && p < 9 && n < p) n = p; }", "commutes"),
    single("the same, with a sixth number", "long n;", "void m(long p) { if (2 < p && p < 9 && p != 5 && n < p) n = p; }", "FieldDiffers n"),
    single("the greater of two, and whose it is", "long n; A *o;", "void m(long p, A *x) { if (n < p) { n = p; o = x; } }", "FieldDiffers o"),
    single("a sum that stops at a bound", "long n;", "void m(long p) { n += p; if (9 < n) n = 9; }", "FieldDiffers n"),
    single("the greater item of two", "long a[2];", "void m(long p) { if (a[0] < p) a[0] = p; }", "FieldDiffers a"),
    single("a check at each new greatest one", "long n; A *o;", "void m(long p) { if (n < p) { n = p; A *t = o->o; } }", "DemandsDiffer"),
    single("a product by 2, and a sum", "long n;", "void m(long p) { n = 2 * n + p; }", "FieldDiffers n"),
    single("a product by a parameter", "long n;", "void m(long p) { n = n * p + 0; }", "commutes"),
    single(
        "a sum with products of a parameter", "long n;", "void m(long p) { n = n + p * p - 2 * p * (p - 1); }",
        "commutes",
    ),
    single(
        "a product that is 0, and a sum of a parameter", "long n;",
        "void m(long p) { n = 4294967296 * (4294967296 * n) + p; }", "FieldDiffers n",
    ),
    single(
        "products that are 0, and a sum of a literal", "long n;",
        "void m(long p) { n = 4294967296 * (4294967296 * n + 4294967296 * p) + 7; }", "commutes",
    ),
    single("a sum of 500", "long n;", "void m(long p) { n = n" + " + p" * 499 + "; }", "commutes"),
    single("a factor in two products", "long n;", "void m(long p) { n = n * p + n * 2; }", "commutes"),
    single(
        "a product and sum that are one product of n + 1", "long n;", "void m(long p) { n = (n + 1) * p - 1; }",
        "commutes",
    ),
    single("a product and sum that are none", "long n;", "void m(long p) { n = (n + 2) * p - 1; }", "FieldDiffers n"),
    single(
        "the sum of a value without its sign", "long n;", "void m(long p) { if (p < 0) n -= p; else n += p; }",
        "commutes",
    ),
    single(
        "a sum in one of two branches", "long n;", "void m(long p) { if (p <= 3) n += p; if (3 < p) n += p; }",
        "commutes",
    ),
    single("a remainder of a sum", "long n;", "void m(long p) { n = (n + p) % 7; }", "FieldDiffers n"),
    pairs(
        "products, sums and differences",
        class_of(
            "long n; void m(long p) { n *= p; } void r(long p) { n += p; } void s(long p) { n -= p; } void w(A *o) { "
            "o->m(1); o->s(2); r(3); }"
        ),
        """extent A::m
A::m A::m commutes
extent A::r
A::r A::r commutes
extent A::s
A::s A::s commutes
extent A::w
A::m A::m commutes
A::m A::r unproved FieldDiffers n
A::m A::s unproved FieldDiffers n
A::m A::w commutes
A::r A::r commutes
A::r A::s commutes
A::r A::w commutes
A::s A::s commutes
A::s A::w commutes
A::w A::w commutes
""",
    ),
    # conditions that are known
    single("`p < p`", "long n;", "void m(long p) { if (p < p) n = p; }", "commutes"),
    single("literals compared", "long n;", "void m(long p) { if (2 < 1 || 3 == 4) n = p; else n += p; }", "commutes"),
    single("equal sums", "long n;", "void m(long p) { if (p + 1 == 1 + p) n += p; else n = p; }", "commutes"),
    single("sums that differ by 1", "long n;", "void m(long p) { if (p + 1 != p) n += p; else n = p; }", "commutes"),
    single(
        "this isn't nullptr", "long n;", "void m(long p) { if (this == nullptr) n = p; else n += p; }", "commutes",
    ),
    # items
    single("an item and a sum", "long a[3];", "void m(long i, long x) { a[i] = a[i] + x; }", "commutes"),
    single("an item and a difference", "long a[3];", "void m(long i, long x) { a[i] = a[i] - x; }", "commutes"),
    single(
        "`+=`, `-=` and `++` of items", "long a[3];",
        "void m(long i, long x) { a[i] += x + x * i; a[i + 1] -= x; a[0]++; }", "commutes",
    ),
    single(
        "an item on the right of a sum", "long a[3];", "void m(long i, long x) { a[i] = x + a[i]; }",
        "FieldDiffers a",
    ),
    single(
        "an item and a sum of three", "long a[3];", "void m(long i, long x) { a[i] = a[i] + x + x; }",
        "FieldDiffers a",
    ),
    single(
        "an item and a sum in parentheses", "long a[3];", "void m(long i, long x) { a[i] = a[i] + (x + x); }",
        "commutes",
    ),
    single(
        "an item and another index", "long a[3];", "void m(long i, long x) { a[i + 1] = a[1 + i] + x; }",
        "FieldDiffers a",
    ),
    single(
        "an item and the same index in parentheses", "long a[3];",
        "void m(long i, long x) { a[(i + 1)] = a[i + 1] + x; }", "commutes",
    ),
    single(
        "an item of this", "long a[3];", "void m(long i, long x) { this->a[i] = a[i] + x; a[i] = (this)->a[i] - i; }",
        "commutes",
    ),
    single("an item and a product", "long a[3];", "void m(long x) { a[0] *= x; }", "FieldDiffers a"),
    single("a literal put at a literal", "long a[3];", "void m(long i) { a[0] = 5; }", "commutes"),
    single("a literal put at a parameter", "long a[3];", "void m(long i) { a[i] = 5; }", "FieldDiffers a"),
    single(
        "sums at items in two branches", "long a[3]; long c;",
        "void m(long i, long x) { if (x > c) a[i] += x; else a[0] -= x; }", "commutes",
    ),
    single(
        "a sum of an item at a literal that another may be", "long a[3]; long n;",
        "void m(long i, long x) { a[i] += x; n += a[2]; }", "FieldDiffers n",
    ),
    single("true put at a literal", "bool a[3];", "void m(long i) { a[0] = true; }", "commutes"),
    single(
        "an item beside the one that is added to", "long a[3]; long n;", "void m(long x) { a[0] += x; n += a[1]; }",
        "commutes",
    ),
    single(
        "the item that is added to", "long a[3]; long n;", "void m(long x) { a[0] += x; n += a[0]; }",
        "FieldDiffers n",
    ),
    single("the item that is put", "long a[3]; long n;", "void m(long x) { a[0] = 3; n += a[0] + x; }", "commutes"),
    single(
        "sums at two literals in two branches", "long a[3];",
        "void m(bool q, long x) { if (q) a[0] += x; else a[1] += x; }", "commutes",
    ),
    single("an item put under a condition", "long a[3];", "void m(bool q) { if (q) a[0] = 1; }", "FieldDiffers a"),
    single(
        "a sum and its difference at an item", "long a[3]; A *o;", "void m(long x) { a[0] += x; a[0] -= x; }",
        "commutes",
    ),
    single("an item added to an item", "long a[3];", "void m(long i, long j) { a[i] += a[j]; }", "FieldDiffers a"),
    single(
        "an item by a local", "long a[3];", "void m(long i, long x) { long t = a[i]; a[i] = t + x; }",
        "FieldDiffers a",
    ),
    # pointers
    single("a pointer that is constant", "A *o; A *d;", "void m() { o = d; }", "commutes"),
    single("a pointer to this", "A *o;", "void m(long x) { o = this; }", "commutes"),
    single("a pointer of a parameter", "A *o;", "void m(A *x) { o = x; }", "FieldDiffers o"),
    single(
        "the same pointer in both branches", "A *o; A *d;", "void m(A *x) { if (x == nullptr) o = d; else o = d; }",
        "commutes",
    ),
    single(
        "a pointer under a condition", "A *o; A *d;", "void m(A *x) { if (x == nullptr) o = d; }", "FieldDiffers o",
    ),
    single(
        "a pointer under a condition that is false", "A *o; A *d;", "void m(A *x) { if (this == nullptr) o = x; }",
        "commutes",
    ),
    # locals
    single(
        "a local that hides another", "long n;",
        "void m(long p) { long t; t += p; if (t > 0) { long t = 0 - p; n += t; } else { t = 0; n -= t; } n += t; }",
        "commutes",
    ),
    single(
        "a parameter that is written", "long n;", "void m(long p) { if (p > 0) { p = 0 - p; } n += p; }", "commutes",
    ),
    # forms: with an operation that doubles n, m commutes only if it is seen to leave n
    doubled("a sum", "", "n += p;", "FieldDiffers n"),
    doubled("equal numbers, from both sides", "long c;", "if (c == p) n += 1; if (p == c) n -= 1;", "commutes"),
    doubled(
        "equal numbers, and sums", "long c;", "if (c + 1 == p) n += 1; if (p - c != 1) n += 1; n -= 1;", "commutes",
    ),
    doubled("less, and not", "long c;", "if (c < p) n += 1; if (c >= p) n += 1; n -= 1;", "commutes"),
    doubled("greater, and not", "long c;", "if (p > c) n += 1; if (!(c < p)) n += 1; n -= 1;", "commutes"),
    doubled("at most, and greater", "long c;", "if (c <= p) n += 1; if (p < c) n += 1; n -= 1;", "commutes"),
    doubled(
        "at most is less or equal", "long c;", "if (c <= p) n += 1; if (c < p) n -= 1; if (c == p) n -= 1;",
        "commutes",
    ),
    doubled("a truth value, and not", "bool b;", "if (b) n += p; if (!b) n += p; n -= p;", "commutes"),
    doubled("a truth value and its opposite", "bool b;", "if (b && !b) n = p;", "commutes"),
    doubled("a truth value or its opposite", "bool b;", "if (b || !b) ; else n = p;", "commutes"),
    doubled("not both, and one not", "bool b; bool c;", "if (!(b && c)) n += 1; if (!b || !c) n -= 1;", "commutes"),
    doubled(
        "equal truth values are both or none", "bool b; bool c;",
        "if (b == c) n += 1; if ((b && c) || (!b && !c)) n -= 1;", "commutes",
    ),
    doubled(
        "truth values that differ, and equal ones", "bool b; bool c;",
        "if (b != c) n += 1; if (c == b) n += 1; n -= 1;", "commutes",
    ),
    doubled(
        "truth values compared with literals", "bool b;",
        "if (b == true) n += 1; if (b) n -= 1; if (b != false) n += 1; if (false == b) n += 1; n -= 1;", "commutes",
        alone="Large",
    ),
    doubled(
        "equal pointers, from both sides", "A *o; A *e;", "if (o == e) n += 1; if (e != o) n += 1; n -= 1;",
        "commutes",
    ),
    doubled(
        "nullptr, from both sides", "A *o;", "if (o == nullptr) n += 1; if (nullptr != o) n += 1; n -= 1;",
        "commutes",
    ),
    doubled(
        "pointers compared with themselves, this with nullptr", "A *o;",
        "if (o != o) n = p; if (this != this) n = p; if (nullptr != nullptr) n = p; if (nullptr == this) n = p;",
        "commutes", alone="Large",
    ),
    doubled(
        "quotients and remainders of literals", "",
        "if (7 / 2 == 3 && -7 / 2 == -3 && -7 % 2 == -1 && 7 % -2 == 1 && -8 / -2 == 4) ; else n = p;", "commutes",
        alone="Large",
    ),
    doubled(
        "the least number by -1", "",
        "if ((-9223372036854775807 - 1) / -1 == -9223372036854775807 - 1 && (-9223372036854775807 - 1) % -1 == 0) ; "
        "else n = p;",
        "commutes",
    ),
    doubled(
        "numbers compared, past the greatest", "",
        "if (-1 < 1 && !(1 < -1) && 9223372036854775807 + 1 < 0 && 9223372036854775807 > -9223372036854775807 - 1) "
        "; else n = p;",
        "commutes",
    ),
    doubled(
        "products of literals", "", "if (4611686018427387904 * 4 == 0 && 3037000500 * 3037000500 < 0) ; else n = p;",
        "commutes",
    ),
    doubled(
        "quotients and remainders of equal sums", "long c;",
        "n += (c + p) / 3; n -= (p + c + 0) / 3; n += (c - p) % 5; n -= (c + -p) % 5;", "commutes",
    ),
    doubled(
        "quotients by a divisor and by its opposite", "long c;", "n += (c + p) / 3; n -= (p + c) / -3;",
        "FieldDiffers n",
    ),
    doubled("quotient and remainder of 0", "", "n += 0 / 3 + 0 % 3;", "commutes"),
    doubled(
        "a field of another object", "A *o; long c;", "n += o->c * p; n -= p * o->c; A *t = o; n += t->c; n -= o->c;",
        "commutes",
    ),
    doubled(
        "items with equal indexes", "A *o; long c[3];",
        "n += o->c[p + 1]; n -= o->c[1 + p]; n += c[p]; n -= c[p + 0];", "commutes",
    ),
    doubled(
        "a local by a condition", "long c; bool b;", "long t = c; if (b) t = p; n += t; if (b) n -= p; else n -= c;",
        "commutes",
    ),
    doubled(
        "conditions in each other, and both", "bool b; bool c;",
        "long t; if (b) { if (c) t = 1; } if (b && c) t -= 1; n += t;", "commutes",
    ),
    doubled(
        "a sum at an item, and its difference", "long c[2];", "c[0] += p; n += c[0]; c[0] -= p; n -= c[0]; n -= p;",
        "commutes",
    ),
]
