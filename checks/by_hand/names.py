"""Rows on names: classes, members, parameters and locals, where each is visible, and `this`."""

from by_hand.forms import class_and_main, class_of, main_of, ok, refused, refused_at

ROWS = [
    # a class is defined once
    refused_at("a second class of a name", "class A { public: };\nclass @A { public: };\nint main() { }", "E20"),
    refused_at(
        "the first of two second classes",
        "class A { public: };\nclass B { public: };\nclass @A { public: };\nclass B { public: };\nint main() { }",
        "E20",
    ),
    refused_at(
        "a second class with an unknown type in it",
        "class A { public: };\nclass A { public: @Z *z; };\nint main() { }", "E21",
    ),
    refused_at(
        "members of a second class are its own",
        "class C { public: long m; };\nclass @C { public: long n; void f() { n = 1; this->n = n; g(); } void g() { "
        "} };\nint main() { }",
        "E20",
    ),
    refused_at(
        "`this` of a second class isn't of the first",
        "class C { public: };\nclass C { public: void f() { C *x = @this; } };\nint main() { }", "E25",
    ),
    refused_at(
        "a name of two classes means the first",
        "class A { public: A *o; long f() { return o@->m; } };\nclass A { public: long m; };\nint main() { }", "E24",
    ),
    ok(
        "a class that is defined later",
        "class A { public: B *b; void f(B *x) { b = x; b->g(); } };\nclass B { public: long n; void g() { n = 1; } "
        "};\nint main() { A *a = new A(); B *b = new B(); a->f(b); }",
        "#0 A b=#1\n#1 B n=1\n",
    ),
    # a class that isn't defined
    refused_at("a class that is only declared", "class A; int main() { @A *a; }", "E21"),
    refused_at("new of an unknown class", main_of("long x = new @A();"), "E21"),
    refused_at("an unknown class in a local and its new", main_of("@B *x = new B();"), "E21"),
    refused_at("an unknown type before a wrong value", main_of("@B *x = new A();"), "E21"),
    refused_at("a field of unknown type", class_of("long x; @B *b;"), "E21"),
    refused_at("a parameter of unknown type", class_of("void f(long x, @B *b) { }"), "E21"),
    refused_at("a result of unknown type", class_of("@B *f() { return nullptr; }"), "E21"),
    refused_at("a result of unknown type before a wrong value", class_of("@Z *f() { return 1; }"), "E21"),
    refused_at("an unknown type before its uses", main_of("@B *x; x = 5; x->f();"), "E21"),
    refused_at("a method of an unknown type", class_of("void f() { b@->x(); } B *b;"), "E24"),
    refused_at(
        "nullptr for an unknown type", class_of("void f() { b = nullptr; print(b == nullptr); } @B *b;"), "E21",
    ),
    refused_at("another pointer for an unknown type", class_of("void f(A *a) { b = @a; } B *b;"), "E25"),
    refused_at("an unknown type twice", class_of("void f(@B *a) { b = a; } B *b;"), "E21"),
    # a member is declared once
    refused_at("two fields of a name", class_of("long n, @n;"), "E22"),
    refused_at("a field and an operation of a name", class_of("long n; void @n() { }"), "E22"),
    refused_at("an operation and a field of a name", class_of("void n() { } bool @n;"), "E22"),
    refused_at("two methods of a name", class_of("void n() { } long @n() { return 1; }"), "E22"),
    ok("members that are named like classes", class_of("long A; void B() { A = 1; }")),
    refused_at("a second member with an unknown name in it", class_of("long n; void n() { @zz = 1; }"), "E24"),
    refused_at("a name of two fields means the first", class_of("void f() { n = @true; } long n; bool n;"), "E25"),
    refused_at(
        "a second member in a second class",
        "class A { public: };\nclass A { public: long n; bool @n; };\nint main() { }", "E22",
    ),
    # a parameter and a local are declared once in their block
    refused_at("two parameters of a name", class_of("void f(long p, bool @p) { }"), "E23"),
    refused_at("a local that is named like a parameter", class_of("void f(long p) { long @p; }"), "E23"),
    refused_at("two locals of a name round a block", main_of("long x; { long x; } bool @x;"), "E23"),
    ok(
        "locals in blocks within each other",
        main_of("long x = 1; { long x = x + 1; print(x); { long x = x + 1; print(x); } print(x); } print(x);"),
        "2\n3\n2\n1\n",
    ),
    ok(
        "the counter of a for and the local of its body",
        main_of("long i = 9; for (long i = 0; i < 2; i++) { long i = 7; print(i); } print(i);"), "7\n7\n9\n",
    ),
    ok(
        "two counters of a name, and a local behind them",
        main_of(
            "for (long i = 0; i < 1; i++) print(i); for (bool i = true; i; i = false) print(i); long i = 3; print(i);"
        ),
        "0\ntrue\n3\n",
    ),
    refused_at(
        "two locals of a name behind a for", main_of("for (long i; true; i++) { bool i; } long i; bool @i;"), "E23",
    ),
    refused_at("two locals of a name in an else", main_of("if (true) { long x; } else { bool x; long @x; }"), "E23"),
    refused_at("a second local with an unknown name in it", main_of("long x; long x = @zz;"), "E24"),
    refused_at("a second local with a wrong value", main_of("long x; bool x = @1;"), "E25"),
    # where a name is visible
    refused_at("a local before its declaration", main_of("print(@x); long x;"), "E24"),
    refused_at("a local in its own first value", main_of("long x = @x;"), "E24"),
    refused_at("a local behind its block", main_of("{ long x; } @x = 1;"), "E24"),
    refused_at("a counter behind its for", main_of("for (long i = 0; i < 1; i++) ; print(@i);"), "E24"),
    refused_at("a counter in its own first value", main_of("for (long i = @i; i < 1; i++) ;"), "E24"),
    refused_at("a local of a for's body behind it", main_of("for (long i; true; i++) { long j; } @j = 1;"), "E24"),
    refused_at("a local of a branch in the other", main_of("if (true) { long x; } else @x = 1;"), "E24"),
    refused_at(
        "a local of a branch in the block of the other", main_of("if (true) { long x; } else { @x = 1; }"), "E24",
    ),
    refused_at("an unknown name in the last part of a for", main_of("for (long i; true; @j++) ;"), "E24"),
    ok(
        "a counter that is named like a local round it",
        main_of("long i = 3; for (long i = i; i < 5; i++) print(i); for (long j = i; j < i + 1; j++) print(j);"),
        "3\n4\n3\n",
    ),
    refused_at("a field as an operation", class_of("long n; void f() { @n(); }"), "E24"),
    refused_at("a value method as a field", class_of("long n; long g() { return 1; } void f() { n = @g; }"), "E24"),
    refused_at("an unknown field behind an arrow", class_of("A *o; long g() { return o@->h; }"), "E24"),
    refused_at("a field as an operation behind an arrow", class_of("A *o; void g() { o@->o(); }"), "E24"),
    refused_at("a value method as a field behind an arrow", class_of("A *o; long g() { return o@->g; }"), "E24"),
    refused_at(
        "an operation of another class",
        "class B { public: void h() { } };\nclass A { public: B *b; void f() { @h(); } };\nint main() { }", "E24",
    ),
    refused_at(
        "an own operation behind an arrow to another class",
        "class B { public: void h() { } };\nclass A { public: B *b; void f() { b->h(); b@->f(); } };\nint main() { }",
        "E24",
    ),
    refused_at("an own operation in main", main_of("@f();"), "E24"),
    refused_at("two unknown names", main_of("@y = z;"), "E24"),
    refused_at("an unknown receiver and argument", main_of("@a->f(b);"), "E24"),
    refused_at("an operation as a target", class_of("void g() { } void f() { @g = 1; }"), "E24"),
    refused_at("an unknown name in a wrong sum", main_of("print(@zz + true);"), "E24"),
    refused_at("an unknown condition", main_of("if (@zz) ; else yy = 1;"), "E24"),
    refused_at("an unknown target before a wrong sum", main_of("@zz = true + 1;"), "E24"),
    refused("an unknown name in column 100,014", "int main() { " + " " * 100000 + "zz = 1; }", "1:100014", "E24"),
    # a name of several kinds
    ok(
        "a parameter that is named like a field",
        "class A { public: long p; void f(long p) { p = p + 1; this->p = p; } };\nint main() { A *a = new A(); "
        "a->f(3); }",
        "#0 A p=4\n",
    ),
    ok(
        "a local and a parameter that are named like a field",
        class_and_main(
            "long v;\nvoid f(long v) { { long v = 2; this->v = v; } this->v += v; }\n", "A *a = new A(); a->f(40);\n",
        ),
        "#0 A v=42\n",
    ),
    ok(
        "a local that is named like a value method",
        "class A { public: long f() { return 1; } long g() { long f = 2; return f() + f; } };\nint main() { "
        "A *a = new A(); print(a->g()); }",
        "3\n#0 A\n",
    ),
    ok(
        "a parameter that is named like an array",
        "class A { public: long a[1]; void f(A *a) { this->a[0] = 3; print(a->a[0]); } };\nint main() { "
        "A *x = new A(); x->f(x); }",
        "3\n#0 A a=[3]\n",
    ),
    ok(
        "names of a class, a local and a field at once",
        "class A { public: long n; void set(long A) { n = A; } };\nint main() { A *A = new A(); A *b = A; "
        "print(A == b); b->set(3); { A *n = b; print(n->n); } }",
        "true\n3\n#0 A n=3\n",
    ),
    # `this` in main
    refused_at("`this` as an argument in main", main_of("f(@this);"), "E32"),
    refused_at("`this` as a first value in main", "class A { public: };\nint main() { A *a = @this; }", "E32"),
    refused_at("`this` as a receiver in main", main_of("@this->f();"), "E32"),
]
