"""Rows on bodies: what a target is, operations as values, value methods, and `return`."""

from by_hand.forms import class_of, main_of, ok, refused_at

ROWS = [
    # a target is a local or an own field
    refused_at("a field of another object as a target", class_of("long n; A *o; void f() { o@->n = 1; }"), "E27"),
    refused_at(
        "an item of another object as a target", class_of("long n[2]; A *o; void f() { o->n@[1] += 1; }"), "E27",
    ),
    refused_at("a field as a target in main", "class A { public: long n; };\nint main() { A *a; a@->n++; }", "E27"),
    ok(
        "own fields behind this as targets",
        "class A { public: long n; long v[2]; void f() { this->n = 4; this->v[1] = 5; } };\nint main() { "
        "A *a = new A(); a->f(); }",
        "#0 A n=4 v=[0,5]\n",
    ),
    refused_at("an item of a number as a target", main_of("long x; x@[0] = 1;"), "E27"),
    refused_at("an array as a target", class_of("long n[2]; void f() { @n = 1; }"), "E27"),
    refused_at("an item of a call as a target", class_of("long g() { return 1; } void f() { g()@[0] = 1; }"), "E27"),
    refused_at(
        "a field of a call as a target", class_of("long n; A *h() { return this; } void f() { h()@->n = 1; }"), "E27",
    ),
    refused_at(
        "an item of a pointer that is named like an array", class_of("long a[1]; void f(A *a) { a@[0] = 1; }"), "E27",
    ),
    refused_at("an array of another object as a target", class_of("long a[1]; A *o; void f() { o@->a = 1; }"), "E27"),
    refused_at("an array behind this as a target", class_of("long a[1]; void f() { this@->a = 1; }"), "E27"),
    # an operation isn't a value, nor a value method a statement
    refused_at("an operation as a right side", class_of("long n; void g() { } void f() { n = @g(); }"), "E28"),
    refused_at("an operation in a sum", class_of("long n; A *o; void g() { } void f() { n = 1 + o@->g(); }"), "E28"),
    refused_at(
        "an operation in a sum that is a condition", class_of("void g() { } void f() { if (1 + @g()) ; }"), "E28",
    ),
    refused_at("an operation printed", class_of("void g() { } void f() { print(@g()); }"), "E28"),
    refused_at("an operation as a condition", class_of("void g() { } void f() { if (@g()) ; }"), "E28"),
    refused_at("a value method as a statement", class_of("long g() { return 1; } void f() { @g(); }"), "E28"),
    refused_at(
        "a value method as a statement of main",
        "class A { public: long g() { return 1; } };\nint main() { A *a; a@->g(); }", "E28",
    ),
    refused_at(
        "a value method as a statement of one", class_of("long g() { return 1; } long f() { @g(); return 1; }"),
        "E28",
    ),
    refused_at("an operation as a result", class_of("void g() { } long f() { return @g(); }"), "E28"),
    refused_at("an operation as a result that is a pointer", class_of("void g() { } A *f() { return @g(); }"), "E28"),
    refused_at("an operation as the result of an operation", class_of("void f() { return @f(); }"), "E28"),
    refused_at(
        "an operation as a value with too many arguments", class_of("void g() { } void f() { print(@g(1)); }"), "E26",
    ),
    refused_at(
        "a value method as a statement with too many arguments",
        class_of("long g() { return 1; } void f() { @g(1); }"), "E26",
    ),
    # a value method changes nothing
    refused_at(
        "a call of an operation in a value method", class_of("void g() { } long f() { @g(); return 1; }"), "E29",
    ),
    refused_at(
        "a call behind this in a value method", class_of("void g() { } long f() { this@->g(); return 1; }"), "E29",
    ),
    refused_at(
        "a call with too many arguments in a value method", class_of("void g() { } long f() { @g(1); return 1; }"),
        "E26",
    ),
    refused_at(
        "a call with a wrong argument in a value method",
        class_of("void g(long x) { } long f() { g(@true); return 1; }"), "E25",
    ),
    refused_at("a field written in a value method", class_of("long n; long f() { @n = 1; return 1; }"), "E29"),
    refused_at(
        "a field behind this written in a value method", class_of("long n; long f() { this@->n = 1; return 1; }"),
        "E29",
    ),
    refused_at("an item written in a value method", class_of("long n[2]; long f() { n@[0]++; return 1; }"), "E29"),
    refused_at(
        "a field of another object written in a value method",
        class_of("long n; A *o; long f() { o@->n = 1; return 1; }"), "E27",
    ),
    refused_at("new for a local in a value method", class_of("long f() { @A *a = new A(); return 1; }"), "E29"),
    refused_at("new for a variable in a value method", class_of("long f() { A *a; @a = new A(); return 1; }"), "E29"),
    refused_at(
        "new for a second local of a name in a value method",
        class_of("long f() { A *a; @A *a = new A(); return 1; }"), "E29",
    ),
    refused_at("new for a number in a value method", class_of("long f() { long a = new @A(); return 1; }"), "E25"),
    refused_at("print in a value method", class_of("long f() { @print(1); return 1; }"), "E29"),
    refused_at("print of an unknown name in a value method", class_of("long f() { print(@zz); return 1; }"), "E24"),
    refused_at(
        "new of an unknown class in a value method", class_of("long f() { A *a = new @Z(); return 1; }"), "E21",
    ),
    refused_at(
        "a field written with an unknown name in a value method", class_of("long n; long f() { @n = zz; return 1; }"),
        "E29",
    ),
    # `return` stands in value methods, which return
    refused_at("a result of an operation", class_of("void f() { @return 1; }"), "E30"),
    refused_at("nullptr as the result of an operation", class_of("void f() { @return nullptr; }"), "E30"),
    refused_at("an array as the result of an operation", class_of("long a[1]; void f() { return @a; }"), "E31"),
    refused_at("an unknown name as the result of an operation", class_of("void f() { return @zz; }"), "E24"),
    refused_at("an unknown name as the result of main", main_of("return @zz;"), "E24"),
    refused_at("`return 0;` in an operation", class_of("void f() { @return 0; }"), "E30"),
    refused_at("`return 0;` at the end of an operation", class_of("void f() { if (true) ; @return 0; }"), "E30"),
    refused_at("a value method that returns in one branch", class_of("long @f() { if (true) return 1; }"), "E30"),
    refused_at("an empty value method", class_of("A *@f() { }"), "E30"),
    refused_at("a value method that ends with `;`", class_of("long @f() { return 1; ; }"), "E30"),
    refused_at("a value method that ends with a while", class_of("long @f() { while (true) return 1; }"), "E30"),
    refused_at(
        "a value method that ends with a for", class_of("long @f() { for (long i; true; i++) return 1; }"), "E30",
    ),
    refused_at(
        "a value method with an empty else", class_of("long @f(bool b) { if (b) { return 1; } else { } }"), "E30",
    ),
    ok(
        "a value method that returns in each branch",
        class_of("long f(bool b) { { if (b) { ; return 1; } else if (!b) return 2; else { { return 3; } } } }"),
    ),
    refused_at("an unknown name in a value method that doesn't return", class_of("long f() { @zz = 1; } "), "E24"),
    refused_at("the first of two value methods that don't return", class_of("long @f() { } long g() { }"), "E30"),
    refused_at(
        "a second method of a name that doesn't return", class_of("long f() { return 1; } long @f() { }"), "E22",
    ),
]
