"""Rows on `pairs`: what makes an operation not separable, which loops are call loops, and extents."""

from by_hand.forms import caller, class_of, k_and_m, lone, offence, pairs, single

ROWS = [
    # behind a call: targets, and what is read of fields that the extent writes
    caller("an own field read behind a call", "void m() {\no->k(1);\no->k(n);\n}", offence(5, "AccessAfterCall")),
    caller("an own field as an argument", "void m() {\no->k(n);\n}", "DemandsDiffer", "commutes"),
    caller(
        "a call in a branch, and an access in the other", "void m() {\nif (c > 0) o->k(1); else n += 2;\n}",
        "commutes",
    ),
    caller(
        "an access in a branch, and a call in the other", "void m() {\nif (c > 0) n += 2; else { o->k(1); }\n}",
        "commutes",
    ),
    caller(
        "an access behind a branch that calls", "void m() {\nif (c > 0) o->k(1);\nn += 2;\n}",
        offence(5, "AccessAfterCall"),
    ),
    caller(
        "an access behind an else that calls", "void m() {\nif (c > 0) ; else o->k(1);\n{ ; c = 1; n\n= 2; }\n}",
        offence(5, "AccessAfterCall"),
    ),
    caller("a condition behind a call", "void m() {\no->k(1);\nif (n > 0) ;\n}", offence(5, "AccessAfterCall")),
    caller(
        "conditions before calls", "void m() {\nif (c > 0) { o->k(1); } else if (c < 0) { n += 1; o->k(2); }\n}",
        "commutes",
    ),
    caller(
        "a condition of a loop that calls", "void m() {\nwhile (n < 3)\n{ o->k(1); }\n}",
        offence(4, "AccessAfterCall"),
    ),
    caller(
        "an access in a loop that calls", "void m() {\nwhile (c < 3)\n{ n = 1;\no->k(1); }\n}",
        offence(5, "AccessAfterCall"),
    ),
    caller(
        "an access in the other branch of a loop that calls",
        "void m() {\nwhile (c > 0)\nif (b) o->k(1);\nelse\nn = 1;\n}", offence(7, "AccessAfterCall"),
    ),
    caller(
        "a condition in a loop that calls", "void m() {\nwhile (c > 0)\nif (n > 0) ;\nelse\no->k(n);\n}",
        offence(5, "AccessAfterCall"),
    ),
    caller(
        "the first part of a loop that calls", "void m() {\nfor (\nlong i = n; i < 3; i++) o->k(i);\n}",
        offence(4, "AccessAfterCall"), loops=[4],
    ),
    caller(
        "a constant in the first part of a loop that calls", "void m() {\nfor (\nlong i = c; i < 3; i++) o->k(i);\n}",
        "commutes", loops=[4],
    ),
    caller(
        "the condition of a for that calls", "void m() {\nfor (long i;\ni < n; i++)\no->k(i);\n}",
        offence(4, "AccessAfterCall"), loops=[4],
    ),
    caller(
        "an argument in a for that calls", "void m() {\nfor (long i;\ni < 2; i++)\no->k(n);\n}",
        offence(6, "AccessAfterCall"), loops=[4],
    ),
    caller(
        "an access in a loop round one that calls",
        "void m() {\nfor (long i;\ni < 2; i++) {\nn += 1;\nfor (long j; j < 2; j++)\no->k(1); }\n}",
        offence(6, "AccessAfterCall"), loops=[7],
    ),
    caller(
        "an access in a loop behind a call, in a loop",
        "void m() {\nfor (long i; i < 2; i++) { o->k(1);\nwhile (false) n = 2; }\n}", offence(5, "AccessAfterCall"),
    ),
    caller(
        "an access in a loop before a call", "void m() {\nfor (long i; i < 2; i++) n += 1;\no->k(1);\n}",
        "LoopForm 4",
    ),
    caller(
        "constants in a loop that calls", "void m() {\nfor (long i; i < c; i++) o->k(c);\n}", "commutes", loops=[4],
    ),
    caller(
        "a field of this behind a call", "void m() {\no->k(1);\nlong t = this\n->n; }", offence(5, "AccessAfterCall"),
    ),
    caller(
        "a target behind a loop that calls", "void m() {\nfor (long i; i < 2; i++) o->k(1);\nn = 1;\n}",
        offence(5, "AccessAfterCall"), loops=[4],
    ),
    caller(
        "a target behind blocks with a call", "void m() {\n{ { o->k(1); } }\nn = 1;\n}",
        offence(5, "AccessAfterCall"),
    ),
    caller(
        "the first part of a for behind a call", "void m() {\no->k(1);\nfor (\nlong i = n; false; i++) ;\n}",
        offence(5, "AccessAfterCall"),
    ),
    caller(
        "a target behind a call, and a constant", "void m() {\no->k(1); n = q[0];\n}", offence(4, "AccessAfterCall"),
    ),
    caller("constants behind a call", "void m() {\no->k(1); long t = q[0] + a[1];\n}", "commutes"),
    caller(
        "constants of two objects behind a call", "void m() {\no->k(1);\nlong t = c; o->k(t + o->c); }", "commutes",
    ),
    caller(
        "a target with an index behind a call", "void m() {\nk(1); a[o->n] = 1;\n}", offence(4, "AccessAfterCall"),
    ),
    caller(
        "a target behind a call before a value method", "long f() { return n; } void m() {\nk(1); n = f();\n}",
        offence(4, "AccessAfterCall"),
    ),
    caller(
        "a field of another object behind a call", "void m() {\nk(1); long t = o->n + n;\n}",
        offence(4, "ForeignRead"),
    ),
    caller(
        "a value method behind a call", "long f() { return n; } void m() {\nk(1); long t = f();\n}",
        offence(4, "FunctionRead"),
    ),
    caller("new for a field behind a call", "void m() {\nk(1);\no = new A();\n}", offence(5, "AccessAfterCall")),
    caller("new for a local behind a call", "void m() {\nk(1);\nA *t = new A();\n}", offence(5, "Creates")),
    caller("a print behind a call", "void m() {\nk(1);\nprint(n);\n}", offence(5, "Prints")),
    caller(
        "new for a field in a loop that calls", "void m() {\nfor (long i; i < 2; i++) {\nk(1);\no = new A();\n} }",
        offence(6, "AccessAfterCall"),
    ),
    caller("receivers that are this", "void m() {\nthis->k(1); k(2); this->o->k(3); }", "commutes"),
    # fields of other objects
    lone(
        "a field of another object in the third line of a statement", "void m() {\nn =\nc +\no->n;\n}",
        offence(4, "ForeignRead"),
    ),
    caller(
        "a field of another object in the head of a for", "void m() {\nfor (\nlong i;\ni < o->n;\ni++) o->k(1);\n}",
        offence(4, "ForeignRead"), loops=[4],
    ),
    lone("a field of a local that is this", "void m() {\nA *t = this; n = t->n;\n}", offence(4, "ForeignRead")),
    lone("a field of this in parentheses", "void m() {\nn = (this)->n;\n}", "commutes"),
    lone("a constant of another object", "void m() {\nn = o->c;\n}", "commutes"),
    lone(
        "a constant of another object, put with a parameter", "void m(long x) {\nn = o->c + x;\n}", "FieldDiffers n",
    ),
    lone("an item of another object", "void m() {\na[0] = o->a[1];\n}", offence(4, "ForeignRead")),
    caller(
        "a pointer of another object that the extent writes", "void m() {\no = this; o->o->k(1);\n}",
        offence(4, "ForeignRead"),
    ),
    caller("constant pointers of other objects", "void m() {\no->o->o->k(1);\n}", "commutes"),
    caller(
        "a field that only the called operation writes", "void m() {\nlong t = o->n;\no->k(t); }",
        offence(4, "ForeignRead"),
    ),
    caller(
        "a local from an own field before a call", "void m() {\nlong t = n;\no->k(t); }", "DemandsDiffer", "commutes",
    ),
    # value methods that read what the extent writes
    lone(
        "a value method that reads a field", "long f() { return o->n; } void m() {\nn = f();\n}",
        offence(4, "FunctionRead"),
    ),
    lone(
        "a value method that reads a field by another",
        "long f() { return n; } long g() { return f(); } void m() {\nn = 1; long t = o->g();\n}",
        offence(4, "FunctionRead"),
    ),
    lone(
        "value methods that read constants and divide",
        "long f() { return c / c; } long g() { return f() + o->c; } void m() {\nn += g();\n}", "commutes",
    ),
    caller(
        "a value method as an argument", "long f() { return n; } void m() {\no->k(\nf()); }",
        offence(4, "FunctionRead"),
    ),
    single(
        "value methods that call each other and read a constant", "long n; long c;",
        "long f(long x) { if (x < 0) return c; return g(x - 1); } long g(long x) { return f(x - 1); } "
        "void m(long p) { n += f(p); }",
        "commutes",
    ),
    single(
        "value methods that call each other and read a field", "long n; long c;",
        "long f(long x) { if (x < 0) return n; return g(x - 1); } long g(long x) { return f(x - 1); } "
        "void m(long p) { n += g(p); }",
        "NotSeparable A::m 1 FunctionRead",
    ),
    # new and print
    lone("new for a local", "void m() {\nA *t =\nnew A();\n}", offence(4, "Creates")),
    lone("new for a field", "void m() {\no =\nnew A();\n}", offence(4, "Creates")),
    lone("a print of another object's field", "void m() {\nn = 1; print(o->n);\n}", offence(4, "Prints")),
    # divisors are literals other than 0, with one minus at most
    lone("a divisor below 0", "void m() {\nn = n / -2;\n}", "commutes"),
    lone("a divisor in parentheses", "void m() {\nn = n % ((-(2)));\n}", "commutes"),
    lone("a divisor with two minus", "void m() {\nn = n / - -2;\n}", offence(4, "DividesByVariable")),
    lone("a divisor that is minus 0", "void m() {\nn = n / -0;\n}", offence(4, "DividesByVariable")),
    lone("a divisor 0 that is never asked", "void m() {\nif (false) n = n % 0;\n}", offence(4, "DividesByVariable")),
    lone("a divisor that is a sum", "void m() {\nn = n / (1 + 1);\n}", offence(4, "DividesByVariable")),
    lone(
        "a divisor in the condition of a while", "void m() {\nwhile (\n1 / c > 0) ;\n}",
        offence(4, "DividesByVariable"),
    ),
    # the first in the text counts
    lone(
        "a field of another object before a division", "void m() {\nc = 0; n = o->n / q[0];\n}",
        offence(4, "ForeignRead"),
    ),
    lone(
        "a division before a field of another object", "void m() {\nn = 4 / c + o->n;\n}",
        offence(4, "DividesByVariable"),
    ),
    lone("a division by a field of another object", "void m() {\nn = c / o->n;\n}", offence(4, "DividesByVariable")),
    lone(
        "a division in the index of another object's item", "void m() {\nn = o->q[1 / c];\n}",
        offence(4, "DividesByVariable"),
    ),
    lone("a target's index before the right side", "void m() {\na[o->a[0]] = 1 / c;\n}", offence(4, "ForeignRead")),
    lone(
        "a value method before a division", "long f() { return n; } void m() {\nn = f() / c;\n}",
        offence(4, "FunctionRead"),
    ),
    lone(
        "a division by a value method", "long f() { return n; } void m() {\nn = 1 / f();\n}",
        offence(4, "DividesByVariable"),
    ),
    lone(
        "a value method before its arguments", "long f(long x) { return n; } void m() {\nn = f(1 / c);\n}",
        offence(4, "FunctionRead"),
    ),
    lone(
        "a receiver before the value method",
        "long f(long x) { return n; } A *h(long x) { return o; } void m() {\nn = h(1 / c)->f(2);\n}",
        offence(4, "DividesByVariable"),
    ),
    lone(
        "a field of another object before a print", "void m() {\nn = o->n;\nprint(1 / c);\n}",
        offence(4, "ForeignRead"),
    ),
    lone("a print before its value", "void m() {\nif (c > 0) n = 1;\nelse\nprint(1 / c);\n}", offence(6, "Prints")),
    caller(
        "a print in a branch before a division", "void m() {\nif (c > 0) print(1);\nelse\nn = 1 / c; o->k(1); }",
        offence(4, "Prints"),
    ),
    single(
        "a field of another object before a later write", "A *o; long n;",
        "void m(A *p) { if (n > 0) o = p; A *t = o->o; n = 0; }", "NotSeparable A::m 1 ForeignRead",
    ),
    # loops that aren't call loops
    *[
        caller(f"no call loop: {name}", f"void m() {{\n{loop}\n}}", "LoopForm 4")
        for name, loop in [
            ("`<=`", "for (long i = 0; i <= 3; i++) o->k(1);"),
            ("`>`", "for (long i = 0; 3 > i; i++) o->k(1);"),
            ("in steps of 2", "for (long i = 0; i < 3; i += 2) o->k(1);"),
            ("1 on the left", "for (long i = 0; i < 3; i = 1 + i) o->k(1);"),
            ("`-=`", "for (long i = 0; i < 3; i -= -1) o->k(1);"),
            ("`--`", "for (long i = 0; i < 3; i--) o->k(1);"),
            ("`*=`", "for (long i = 1; i < 3; i *= 1) o->k(1);"),
            ("`;` in its block", "for (long i = 0; i < 3; i++) { o->k(1); ; }"),
            ("a block in its block", "for (long i = 0; i < 3; i++) { { o->k(1); } }"),
            ("an if", "for (long i = 0; i < 3; i++) if (c > 0) o->k(1);"),
            ("a local in its block", "for (long i = 0; i < 3; i++) { long t = 1; o->k(t); }"),
            ("a counter that is assigned", "long i; for (i = 0; i < 3; i++) o->k(1);"),
            ("another variable in the condition", "long j; for (long i = 0; j < 3; i++) o->k(1);"),
            ("another variable counted", "long j; for (long i = 0; i < 3; j++) o->k(1);"),
            ("a while", "while (c < 0) o->k(1);"),
            ("`&&`", "for (long i = 0; i < 3 && c > 0; i++) o->k(1);"),
            ("a sum of 1 and 0", "for (long i = 0; i < 3; i = i + 1 + 0) o->k(1);"),
        ]
    ],
    caller(
        "no call loop: a call loop in its body",
        "void m() {\nfor (long i = 0; i < 3; i++) for (long j = 0; j < 3; j++) o->k(1);\n}", "LoopForm 4", loops=[4],
    ),
    caller(
        "no call loop: a parameter counted", "void m(long i) {\nfor (i = 0; i < 3; i++) o->k(1);\n}", "LoopForm 4",
    ),
    lone("no call loop: no call", "void m() {\nfor (long i; i < 3; i++) ;\n}", "LoopForm 4"),
    lone("no call loop: an empty block", "void m() {\nfor (long i; i < 3; i++) { }\n}", "LoopForm 4"),
    caller(
        "no call loop: the second of three",
        "void m() {\nfor (long i; i < 3; i++) o->k(1);\nfor (long i; i < 3; i++) ;\nwhile (false) ;\n}", "LoopForm 5",
        loops=[4],
    ),
    caller(
        "no call loop: the outer of two", "void m() {\nif (c > 0)\nwhile (false)\nwhile (false) ;\nelse o->k(1);\n}",
        "LoopForm 5",
    ),
    # call loops
    *[
        caller(f"a call loop: {name}", f"void m() {{\n{loop}\n}}", "commutes", loops=lines)
        for name, loop, lines in [
            ("no first value", "for (long i; i < 3; i++) o->k(1);", [4]),
            ("`+=`", "for (long i = 1; i < 3; i += 1) o->k(i);", [4]),
            (
                "parentheses, and two calls",
                "for (long i = c; (i) < c * 2; i = (i + (1))) { o->k(i); k(i + c); }", [4],
            ),
            ("a bound that is its counter", "for (long i = 0; i < i + 1; i++) { o->k(1); }", [4]),
            ("a block", "for (long i = 0; i < 3; i++) { o->k(1); }", [4]),
            (
                "two in a line",
                "for (long i = 0; i < 3; i++) o->k(1); for (long i = 0; i < 4; i++) o->k(1);", [4, 4],
            ),
        ]
    ],
    pairs(
        "a counter that is named like a parameter",
        class_of("long n; A *o; void k(long x) { } void m(long i) { for (long i = i; i < 3; i++) o->k(i); }"),
        k_and_m("commutes", loops=[1]),
    ),
    pairs(
        "a counter from a local of its name, which is written",
        class_of(
            "long n; A *o; void k(long x) { } void m(long p) { n += p; long i = n; for (long i = i; i < 3; "
            "i++) o->k(i); }"
        ),
        k_and_m("commutes", "DemandsDiffer", loops=[1]),
    ),
    pairs(
        "a local that is named like a counter, behind the loop",
        class_of(
            "long n; A *o; void k(long x) { } void m(long p) { long i = p; for (long i = 0; i < 3; i++) o->k(i); "
            "o->k(i); }"
        ),
        k_and_m("commutes", loops=[1]),
    ),
    # extents
    pairs(
        "NotSeparable before LoopForm, the first operation before the other",
        class_of(
            "long n; long c; void a() {\nwhile (false) ; } void b() {\nprint(1); } void d() {\nn = 1 / c; } "
            "void e() {\nwhile (c > 0) ; } void w() { a(); b(); d(); e(); }"
        ),
        """extent A::a
A::a A::a unproved LoopForm 2
extent A::b
A::b A::b unproved NotSeparable A::b 3 Prints
extent A::d
A::d A::d unproved NotSeparable A::d 4 DividesByVariable
extent A::e
A::e A::e unproved LoopForm 5
extent A::w
A::a A::a unproved LoopForm 2
A::a A::b unproved NotSeparable A::b 3 Prints
A::a A::d unproved NotSeparable A::d 4 DividesByVariable
A::a A::e unproved LoopForm 2
A::a A::w unproved LoopForm 2
A::b A::b unproved NotSeparable A::b 3 Prints
A::b A::d unproved NotSeparable A::b 3 Prints
A::b A::e unproved NotSeparable A::b 3 Prints
A::b A::w unproved NotSeparable A::b 3 Prints
A::d A::d unproved NotSeparable A::d 4 DividesByVariable
A::d A::e unproved NotSeparable A::d 4 DividesByVariable
A::d A::w unproved NotSeparable A::d 4 DividesByVariable
A::e A::e unproved LoopForm 5
A::e A::w unproved LoopForm 5
A::w A::w commutes
""",
    ),
    pairs(
        "an operation that is separable only in its own extent",
        class_of("long n; long c; A *o; void r() {\nc = o->n; } void w() {\nn = 1;\nr(); }"), """extent A::r
A::r A::r commutes
extent A::w
A::r A::r unproved NotSeparable A::r 2 ForeignRead
A::r A::w unproved NotSeparable A::r 2 ForeignRead
A::w A::w commutes
""",
    ),
    pairs(
        "two operations that call each other",
        class_of(
            "long n; A *o; void ping(long x) { n += x; if (x > 0) o->pong(x - 1); } void pong(long x) { n -= x; "
            "o->ping(x); }"
        ),
        """extent A::ping
A::ping A::ping commutes
A::ping A::pong commutes
A::pong A::pong commutes
extent A::pong
A::ping A::ping commutes
A::ping A::pong commutes
A::pong A::pong commutes
""",
    ),
    pairs(
        "extents over two classes",
        "class A { public: long n; B *b; void m() { n++; b->k(); } void x() { } };\nclass B { public: long n; A *a; "
        "void k() { n++; a->x(); } void j() { } };\nint main() { }",
        """extent A::m
A::m A::m commutes
A::m A::x commutes
A::x A::x commutes
B::k B::k commutes
extent A::x
A::x A::x commutes
extent B::k
A::x A::x commutes
B::k B::k commutes
extent B::j
B::j B::j commutes
""",
    ),
    pairs(
        "a field of the same name in another class",
        "class A { public: long n; B *b; void m() { n = 1; b->k(n + b->n); } };\nclass B { public: long n; "
        "void k(long x) { } };\nint main() { }",
        """extent A::m
A::m A::m commutes
B::k B::k commutes
extent B::k
B::k B::k commutes
""",
    ),
    pairs(
        "a field of another class that the extent writes",
        "class A { public: long n; B *b; void m() {\nlong t = b->n; b->k(1); } };\nclass B { public: long n; "
        "void k(long x) { n += x; } };\nint main() { }",
        """extent A::m
A::m A::m unproved NotSeparable A::m 2 ForeignRead
B::k B::k commutes
extent B::k
B::k B::k commutes
""",
    ),
]
