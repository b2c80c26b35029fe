"""Rows on runs: values, the order of checks, the lines of traps, the heap, steps and budgets."""

from by_hand.forms import class_and_main, main_of, ok, row, spent, trapped

MEMBERS = "long a[2]; A *o; long n; long z;\n"
WHILE = main_of("long i; while (i < 3) { print(i); i++; }")
FOR = main_of("for (long i; i < 3; i++) print(i);")
VALUES = (
    "class A { public: long g(long x) { return x; } void f() { print(g(g(g(1)))); } }; "
    "int main() { A *a = new A(); a->f(); }"
)
VALUE_IN_MAIN = (
    "class A { public: long g(long x) { return x; } void f() { } }; "
    "int main() { A *a = new A(); print(a->g(4)); a->f(); }"
)
CONDITIONS = (
    "class A { public: long z; bool f(long x) { return x > 0; } long g(A *o) {\nreturn o->z; } void m() {\n"
    "long x = 3; while (f(x) && f(x - 1)) x--;\nprint(x);\nz = g(nullptr); } };\n"
    "int main() { A *a = new A(); a->m(); }"
)
DEEP = class_and_main(
    "long f(long x) { if (x == 0) return 0; return f(x - 1) + 1; }\n", "A *a = new A(); print(a->f(300000));\n"
)
LARGE = "class A { public: long a[1000000]; };\nclass T { public: };\n"
ZEROS = ",".join(["0"] * 1000000)

ROWS = [
    # values
    ok(
        "numbers of 64 bits",
        main_of(
            "long b = -9223372036854775807 - 1; print(b); print(-b); print(b - 1); print(b * -1); print(b / -1); "
            "print(b % -1); print(-7 / 2); print(7 / -2); print(-7 % 2); print(7 % -2); print(-7 % -2); "
            "print(4611686018427387904 * 4); b *= b; print(b); long c = 3037000500; print(c * c);"
        ),
        "-9223372036854775808\n-9223372036854775808\n9223372036854775807\n-9223372036854775808\n"
        "-9223372036854775808\n0\n-3\n-3\n-1\n1\n-1\n0\n0\n-9223372036709301616\n",
    ),
    ok(
        "the right of `&&` and `||` isn't asked",
        main_of(
            "long z; print(false && 1 / z == 0); print(true || 1 / z == 0); print(true && true); "
            "print(false || false);"
        ),
        "false\ntrue\ntrue\nfalse\n",
    ),
    trapped("the right of `&&` is asked", "int main() {\nlong z;\n@print(true && 1 / z == 0);\n}", "ZeroDivisor"),
    trapped(
        "the right of `||` is asked", "int main() {\nlong z;\nprint(1);\n@print(false || 1 % z == 0);\n}",
        "ZeroDivisor", "1\n",
    ),
    ok(
        "pointers compared",
        "class A { public: A *n; };\nint main() { A *a = new A(); A *b = new A(); A *c = a; print(a == b); "
        "print(a == c); print(a != nullptr); print(a->n == nullptr); print(a->n == b->n); }",
        "false\ntrue\ntrue\ntrue\ntrue\n#0 A n=null\n#1 A n=null\n",
    ),
    ok(
        "an object that points to itself",
        "class A { public: A *n; long v; void set(A *x) { n = x; } void add(long d) { v += d; } };\nint main() { "
        "A *a = new A(); a->set(a); a->n->n->n->add(a->n->v + 5); a->n->add(a->v); }",
        "#0 A n=#0 v=10\n",
    ),
    ok(
        "the right side of `+=`, `-=` and `*=`",
        main_of("long x = 3; x += x * x; print(x); x -= x; print(x); x = 5; x *= x + 1; print(x);"), "12\n0\n30\n",
    ),
    # locals
    ok(
        "locals start again in each turn",
        main_of("for (long i; i < 3; i++) { long k; k++; print(k); bool b; print(b); b = true; }"),
        "1\nfalse\n1\nfalse\n1\nfalse\n",
    ),
    ok(
        "a parameter is a variable of its call",
        class_and_main(
            "long v;\nvoid f(long x) { x += 1; v = x; if (x < 4) f(x); print(x); print(v); }\n",
            "A *a = new A(); a->f(1);\n",
        ),
        "4\n4\n3\n4\n2\n4\n#0 A v=4\n",
    ),
    ok(
        "a result ends loops",
        class_and_main(
            "long f(long x) { for (long i; true; i++) { while (true) { if (i * i >= x) return i; "
            "return f(x - 1) + 1; } } return 0; }\n",
            "A *a = new A(); print(a->f(3));\n",
        ),
        "3\n#0 A\n",
    ),
    # what is checked first
    trapped(
        "the index of a target before the right side",
        class_and_main(MEMBERS + "void f() {\n@a[2] =\n1 / z; }\n", "A *x = new A(); x->f();\n"), "OutOfRange",
    ),
    trapped(
        "an index that traps before the right side",
        class_and_main(MEMBERS + "void f() {\n@a[1 / z] = o->n; }\n", "A *x = new A(); x->f();\n"), "ZeroDivisor",
    ),
    trapped(
        "the index of `+=` before the right side",
        class_and_main(MEMBERS + "void f() {\n@a[-1] += 1 / z; }\n", "A *x = new A(); x->f();\n"), "OutOfRange",
    ),
    trapped(
        "a right side that traps",
        class_and_main(MEMBERS + "void f() {\n@a[1] = 1 / z; }\n", "A *x = new A(); x->f();\n"), "ZeroDivisor",
    ),
    trapped(
        "the null check before an index that traps",
        class_and_main(MEMBERS + "void f() {\n@n = o->a[1 / z]; }\n", "A *x = new A(); x->f();\n"), "NullPointer",
    ),
    trapped(
        "an index that traps",
        class_and_main(MEMBERS + "void f() {\no = this; @n = o->a[1 / z]; }\n", "A *x = new A(); x->f();\n"),
        "ZeroDivisor",
    ),
    trapped(
        "the index check before the rest of the sum",
        class_and_main(MEMBERS + "void f() {\no = this; @n = o->a[2] + 1 / z; }\n", "A *x = new A(); x->f();\n"),
        "OutOfRange",
    ),
    trapped(
        "the index check before new",
        "class A { public: A *a[1]; long z[1000000]; void f() {\n@a[1] = new A(); } };\nint main() { "
        "A *x = new A(); x->f(); }",
        "OutOfRange",
    ),
    trapped(
        "arguments before the null check",
        class_and_main(MEMBERS + "void g(long x) { }\nvoid f() {\n@o->g(1 / z); }\n", "A *x = new A(); x->f();\n"),
        "ZeroDivisor",
    ),
    trapped(
        "the null check before the step",
        class_and_main(MEMBERS + "void g(long x) { }\nvoid f() {\n@o->g(1); }\n", "A *x = new A(); x->f();\n"),
        "NullPointer", words="run 1 1",
    ),
    trapped(
        "the null check before the step in main", "class A { public: void g() { } }; int main() { A *a;\n@a->g(); }",
        "NullPointer", words="run 1 1",
    ),
    trapped(
        "arguments before the null check of a value method",
        class_and_main(
            MEMBERS + "long g(long x) { return x; }\nvoid f() {\n@n = o->g(1 / z); }\n", "A *x = new A(); x->f();\n",
        ),
        "ZeroDivisor",
    ),
    trapped(
        "the step of an argument before the null check",
        class_and_main(
            MEMBERS + "long g(long x) { return x; }\nvoid f() {\n@n = o->g(g(3)); }\n", "A *x = new A(); x->f();\n",
        ),
        "NullPointer", words="run 1 2",
    ),
    spent(
        "a step too few for an argument before the null check",
        class_and_main(
            MEMBERS + "long g(long x) { return x; }\nvoid f() {\nn = o->g(g(3)); }\n", "A *x = new A(); x->f();\n"
        ), 1,
    ),
    # the line of a trap is that in which its statement begins
    trapped("a condition of an if", "int main() {\nlong z;\n@if (1 /\nz == 0)\n; }", "ZeroDivisor"),
    trapped("a branch", "int main() {\nlong z; if (true)\n@z = 1 / z;\n}", "ZeroDivisor"),
    trapped("a branch behind else", "int main() {\nlong z; if (false) ;\nelse\n@z = 1 / z;\n}", "ZeroDivisor"),
    trapped("an if behind else", "int main() {\nlong z; if (false) ;\nelse\n@if (1 / z == 1) ;\n}", "ZeroDivisor"),
    trapped(
        "a condition of a while in a later turn", "int main() {\nlong z = 2;\n@while (4 / z > 0)\n{\nz--;\n}\n}",
        "ZeroDivisor",
    ),
    trapped(
        "the first part of a for", "int main() {\nlong z;\n@for (\nlong i = 1 / z;\ni < 2; i++)\n; }", "ZeroDivisor",
    ),
    trapped(
        "the condition of a for", "int main() {\nlong z;\n@for (\nlong i = 1;\ni < 2 / z;\n i++)\n; }", "ZeroDivisor",
    ),
    trapped(
        "the last part of a for", "int main() {\nlong z;\n@for (\nlong i = 1;\ni < 2;\n i += 1 / z)\n; }",
        "ZeroDivisor",
    ),
    trapped(
        "the body of a for", "int main() {\nlong z;\nfor (\nlong i = 1;\ni < 2;\n i += 1 / z)\n@z = 1 / z; }",
        "ZeroDivisor",
    ),
    trapped("a statement in two blocks", "int main() {\nlong z;\n{\n{\n\n@z = 1 / z; } } }", "ZeroDivisor"),
    trapped("a local of five lines", "int main() {\nlong z;\n@long\ny\n=\n1 / z; }", "ZeroDivisor"),
    trapped(
        "a result of a value method",
        class_and_main(
            "long z;\nlong g() {\n@return 1 / z; }\nvoid f() {\nz = g(); }\n", "A *x = new A();\nx->f();\n",
        ),
        "ZeroDivisor",
    ),
    trapped(
        "a condition in a value method",
        class_and_main(
            "long z;\nlong g() {\n@if (\n1 / z == 0)\nreturn 1; return 2; }\nvoid f() {\nz = g(); }\n",
            "A *x = new A();\nx->f();\n",
        ),
        "ZeroDivisor",
    ),
    trapped(
        "a null check behind a value method",
        class_and_main(
            "long z; A *o;\nlong g() {\nreturn 1; }\nvoid f() {\n@z = g() + o->g(); }\n",
            "A *x = new A();\nx->f();\n",
        ),
        "NullPointer",
    ),
    trapped(
        "a division behind a value method",
        class_and_main(
            "long z; A *o;\nlong g() {\nreturn 1; }\nvoid f() {\n@print(\ng()\n/ z); }\n",
            "A *x = new A();\nx->f();\n",
        ),
        "ZeroDivisor",
    ),
    trapped(
        "a statement behind a call",
        class_and_main(
            "long z; A *o;\nvoid g() {\nz = 0; }\nvoid f() {\ng();\n@z = 1 / z; }\n", "A *x = new A();\nx->f();\n",
        ),
        "ZeroDivisor",
    ),
    trapped(
        "a called operation in a for",
        class_and_main(
            "long z; A *o;\nvoid g() {\n@z = 1 / z; }\nvoid f() {\nfor (long i; i < 1; i++)\ng(); }\n",
            "A *x = new A();\nx->f();\n",
        ),
        "ZeroDivisor",
    ),
    trapped(
        "a null check in a for",
        class_and_main(
            "long z; A *o;\nvoid g() { }\nvoid f() {\nfor (long i; i < 1; i++)\n@o->g(); }\n",
            "A *x = new A();\nx->f();\n",
        ),
        "NullPointer",
    ),
    trapped(
        "a statement behind a comment of three lines", "int main() { long z;\n/* \n\n */ @z = 1 / z; }",
        "ZeroDivisor",
    ),
    trapped("carriage returns end no line", "int main() { long z;\r\r\r @z = 1 / z; }", "ZeroDivisor"),
    row(
        "line 100,001", "run 1 5", "int main() { long z;" + "\n" * 100000 + "z = 1 / z; }", 3,
        "trap 100001 ZeroDivisor\n",
    ),
    # the heap
    trapped(
        "four objects of 1,000,001 values",
        "class A { public: long a[1000000]; A *n; };\nint main() {\nA *a = new A();\nA *b = new A();\n"
        "A *c = new A();\n@A *d =\nnew A(); }",
        "HeapFull",
    ),
    ok(
        "three objects of 1,000,000 values, and one of none",
        LARGE + "int main() {\nfor (long i; i < 3; i++) { A *a = new A(); } print(1); T *t = new T(); }",
        "1\n" + "".join(f"#{number} A a=[{ZEROS}]\n" for number in range(3)) + "#3 T\n",
    ),
    row(
        "a value past 4,000,000", "run 1 4",
        "class A { public: long a[1000000]; };\nclass T { public: };\nclass U { public: bool b; };\nint main() {\n"
        "for (long i; i < 4; i++) {\nA *a = new A(); } print(1); T *t = new T(); print(2);\nU *u = new U(); }",
        3, "1\n2\ntrap 7 HeapFull\n",
    ),
    row(
        "an object past 1,000,000", "run 1 1000000",
        "class T { public: };\nint main() { for (long i; i < 1000000; i++) { T *t = new T(); } print(1);\nprint(2); "
        "T *t =\nnew T(); }",
        3, "1\n2\ntrap 3 HeapFull\n",
    ),
    # prints
    ok(
        "prints of an operation",
        class_and_main("long v;\nvoid f() { print(v); v++; print(v == 1); }\n", "A *a = new A(); a->f(); a->f();\n"),
        "0\ntrue\n1\nfalse\n#0 A v=2\n", "run 2 10",
    ),
    # steps and budgets
    ok("three turns of a while", WHILE, "0\n1\n2\n", "run 1 3"),
    spent("two steps for three turns of a while", WHILE, 2, "0\n1\n"),
    ok("three turns of a for", FOR, "0\n1\n2\n", "run 1 3"),
    spent("two steps for three turns of a for", FOR, 2, "0\n1\n"),
    ok("loops without turns", main_of("for (long i; false; i++) print(i); while (false) ;"), "", "run 1 1"),
    spent("a loop without end", main_of("while (true) ;"), 7),
    ok("three value methods in each other", VALUES, "1\n#0 A\n", "run 1 4"),
    *[
        ok(f"three value methods in each other, {workers} workers", VALUES, "1\n#0 A\n", f"run {workers} 4")
        for workers in (2, 3, 64)
    ],
    spent("three steps for three value methods and their operation", VALUES, 3),
    ok("a value method in main takes a step", VALUE_IN_MAIN, "4\n#0 A\n", "run 1 2"),
    spent("one step for a value method and an operation", VALUE_IN_MAIN, 1, "4\n"),
    row("value methods in a condition, and a trap", "run 1 10", CONDITIONS, 3, "1\ntrap 2 NullPointer\n"),
    spent("a step too few for a value method that traps", CONDITIONS, 9, "1\n"),
    spent("a step too few for a print", CONDITIONS, 8, ""),
    ok(
        "an operation 90,000 deep",
        class_and_main("long v;\nvoid f(long x) { v++; if (x > 0) f(x - 1); }\n", "A *a = new A(); a->f(90000);\n"),
        "#0 A v=90001\n", "run 1 90001",
    ),
    ok("a value method 300,000 deep", DEEP, "300000\n#0 A\n", "run 1 300001"),
    spent("a step too few for a value method 300,000 deep", DEEP, 300000),
]
