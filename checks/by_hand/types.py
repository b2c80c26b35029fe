"""Rows on types: operands, values, targets, arguments, and arrays."""

from by_hand.forms import class_of, main_of, ok, refused_at

ROWS = [
    # first values, conditions
    refused_at("a truth value for a number", main_of("long x = @true;"), "E25"),
    refused_at("nullptr for a number", main_of("long x = @nullptr;"), "E25"),
    refused_at("a number as the condition of an if", main_of("if (@1) ;"), "E25"),
    refused_at("a number as the condition of a while", main_of("long x; while (@x) ;"), "E25"),
    refused_at("a sum as the condition of a for", main_of("for (long i; i @+ 1; i++) ;"), "E25"),
    refused_at("a wrong condition of a for before an unknown name", main_of("for (long i; @i; j++) ;"), "E25"),
    refused_at("a wrong first value of a for", main_of("long i; for (i = @true; true; i++) ;"), "E25"),
    refused_at(
        "a place behind a tab and a comment", "int main() {\n\tlong x;\n\t/* \xc3\xa9 */ x = @true;\n}", "E25",
    ),
    # operands
    refused_at("a truth value on the right of `+`", main_of("long x = 1 @+ true;"), "E25"),
    refused_at("a truth value on the left of `*`", main_of("long x = false @* 2 + 1;"), "E25"),
    refused_at("`!` of a number", main_of("print(@!1);"), "E25"),
    refused_at("`-` of a truth value", main_of("print(@-true);"), "E25"),
    refused_at("`-` of this", class_of("void f() { print(@-this); }"), "E25"),
    refused_at("a truth value and a number", main_of("print(true @== 1);"), "E25"),
    refused_at(
        "pointers to two classes",
        "class A { public: };\nclass B { public: };\nint main() { A *a; B *b; print(a @!= b); }", "E25",
    ),
    refused_at("`<` of pointers", "class A { public: };\nint main() { A *a; print(a @< a); }", "E25"),
    refused_at("`>=` of truth values", main_of("print(true @>= false);"), "E25"),
    refused_at("a number on the right of `&&`", main_of("print(true @&& 1);"), "E25"),
    refused_at("numbers on both sides of `&&`", main_of("print(1 @&& 2);"), "E25"),
    refused_at("the first of two wrong operands", main_of("print((1 @&& true) + (2 || true));"), "E25"),
    refused_at("a number and nullptr", main_of("print(1 @== nullptr);"), "E25"),
    refused_at("`<` of nullptr", main_of("print(nullptr @< nullptr);"), "E25"),
    refused_at("`!` of nullptr", main_of("print(@!nullptr);"), "E25"),
    refused_at("`+` of nullptr", main_of("print(nullptr @+ 1);"), "E25"),
    # a wrong value
    refused_at("print of nullptr", main_of("print(@nullptr);"), "E25"),
    refused_at("a sum as a truth value", main_of("bool b = 1 @+ 2;"), "E25"),
    refused_at("a number in parentheses as a truth value", main_of("bool b = (((@1)));"), "E25"),
    refused_at(
        "a pointer field as a number", "class A { public: A *n; };\nint main() { A *a; long x = a@->n; }", "E25",
    ),
    refused_at(
        "a pointer item as a number", "class A { public: A *n[2]; };\nint main() { A *a; long x = a->n@[0]; }", "E25",
    ),
    refused_at(
        "a truth value as an index", "class A { public: long n[2]; };\nint main() { A *a; long x = a->n[@true]; }",
        "E25",
    ),
    refused_at("a field of a number", main_of("long x; print(x@->f);"), "E25"),
    refused_at("an operation of a number", main_of("long x; x@->f(1);"), "E25"),
    refused_at("a field of nullptr", main_of("print((nullptr)@->f);"), "E25"),
    refused_at("a value method of nullptr", main_of("print((nullptr)@->f());"), "E25"),
    refused_at("a field of a truth value", main_of("print((true)@->f);"), "E25"),
    refused_at("an operation of an item that is a number", class_of("long a[2]; void f() { a[0]@->f(); }"), "E25"),
    ok(
        "nullptr as a field, an item, a local, an argument and a result",
        "class A { public: A *n[1]; A *g(A *p) { return nullptr; } void f(A *p) { n[0] = nullptr; p = nullptr; "
        "print(p == nullptr); print(nullptr != nullptr); print(nullptr == nullptr); print(g(nullptr) == n[0]); } "
        "};\nint main() { A *a = new A(); a->f(nullptr); }",
        "true\nfalse\ntrue\ntrue\n#0 A n=[null]\n",
    ),
    # targets
    refused_at("a truth value as the target of `+=`", main_of("bool b; @b += true;"), "E25"),
    refused_at("a truth value on the right of `+=`", main_of("long b; b += @true;"), "E25"),
    refused_at("`++` of a truth value", main_of("bool b; @b++;"), "E25"),
    refused_at("`-=` of a pointer", "class A { public: };\nint main() { A *a; @a -= 1; }", "E25"),
    refused_at("a field of a number as a target", class_of("long n; void f() { n@->x = 1; }"), "E25"),
    refused_at(
        "new of another class", "class A { public: };\nclass B { public: };\nint main() { A *a = new @B(); }", "E25",
    ),
    refused_at("new for a number", "class A { public: };\nint main() { long a; a = new @A(); }", "E25"),
    refused_at(
        "a pointer to another class",
        "class A { public: };\nclass B { public: };\nint main() { A *a; B *b; a = @b; }", "E25",
    ),
    # results and arguments
    refused_at("a result of another type", class_of("long f() { return @true; }"), "E25"),
    refused_at("nullptr as a result that is a number", class_of("long f() { return @nullptr; }"), "E25"),
    refused_at("a number as a result that is a pointer", class_of("A *f() { return @1; }"), "E25"),
    refused_at("a second argument of another type", class_of("void f(long a, bool b) { f(1, @2); }"), "E25"),
    refused_at("nullptr as an argument that is a number", class_of("void f(long a) { f(@nullptr); }"), "E25"),
    refused_at(
        "a pointer to another class as an argument",
        "class B { public: };\nclass A { public: void f(A *a, B *b) { f(a, @a); } };\nint main() { }", "E25",
    ),
    refused_at("too few arguments", class_of("void f(long a) { @f(); }"), "E26"),
    refused_at("too many arguments behind an arrow", class_of("A *o; void f(long a) { o@->f(1, 2); }"), "E26"),
    refused_at("an unknown name among too many arguments", class_of("void f(long a) { f(@zz, 2); }"), "E24"),
    refused_at(
        "too many arguments of an argument", class_of("long g() { return 0; } void f(long a) { f(1, @g(2)); }"),
        "E26",
    ),
    refused_at(
        "the number of arguments before their types", class_of("void g(long x) { } void f() { @g(true, 1); }"), "E26",
    ),
    # arrays have an index, and nothing else has one
    refused_at("an array without index", class_of("long a[2]; long f() { return @a; }"), "E31"),
    refused_at(
        "an array without index behind an arrow", class_of("long a[2]; A *o; long f() { return o@->a; }"), "E31",
    ),
    refused_at("an index of a number", class_of("long a; long f() { return a@[0]; }"), "E31"),
    refused_at("an index of an item", class_of("long a[2]; long f() { return a[0]@[1]; }"), "E31"),
    refused_at(
        "an index of a number behind an arrow", class_of("long a; A *o; long f() { return o->a@[0]; }"), "E31",
    ),
    refused_at("an index of a call", class_of("long g() { return 1; } long f() { return g()@[0]; }"), "E31"),
    refused_at(
        "an index of a field of a call", class_of("A *g() { return this; } long n; void f() { print(g()->n@[0]); }"),
        "E31",
    ),
    refused_at("an index of a pointer", "class A { public: long a[2]; };\nint main() { A *x; print(x@[0]); }", "E31"),
    refused_at("an index of a number in parentheses", class_of("long g() { return (1)@[0]; }"), "E31"),
    refused_at("a wrong index of a number", class_of("long a; long f() { return a[@true]; }"), "E25"),
    refused_at("an index of a number in a wrong sum", class_of("long a; long f() { return a@[0] + true; }"), "E31"),
    refused_at("an array as an argument", class_of("long a[2]; void f(long x) { f(@a); }"), "E31"),
    refused_at(
        "an array among too many arguments", class_of("long a[1]; void g(long x) { } void f() { g(1, @a); }"), "E31",
    ),
    refused_at("an array in a sum", class_of("long a[2]; long f() { return 1 + @a; }"), "E31"),
    refused_at("an array as a receiver", class_of("A *a[2]; void f() { @a->f(); }"), "E31"),
    refused_at("arrays compared", class_of("long a[1]; void f() { print(@a == a); }"), "E31"),
    refused_at("an array as a receiver behind an arrow", class_of("A *a[1]; A *o; void f() { o@->a->f(); }"), "E31"),
    ok(
        "an item as a receiver",
        "class A { public: A *a[2]; long n; void f() { a[1] = this; a[1]->g(); a[1]->a[1]->g(); } void g() { n++; } "
        "};\nint main() { A *x = new A(); x->f(); }",
        "#0 A a=[null,#0] n=2\n",
    ),
    refused_at("an array of length 0", class_of("long a[1], @b[0];"), "E33"),
]
