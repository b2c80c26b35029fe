"""Rows on the grammar: the place of the first wrong token, what belongs to what, and how deep a text nests."""

from by_hand.forms import main_of, ok, refused, refused_at

HEAD = "int main() "
# 999 tokens of an expression.
NESTED = "1" + "+1" * 499
# Selections in an operation, which prints the item that they end with.
PRINTED = (
    "class A { public: long a[3]; A *n; long f(long x) { return x + 1; } "
    "void set() { n = this; a[0] = 1; a[1] = 0; } void m() { print(%s); } };\n"
    "int main() { A *x = new A(); x->set(); x->m(); }"
)

ROWS = [
    # `return` in main
    ok("`return 0;` at the end of main", main_of("return 0;")),
    refused("`return 0;` before `;`", main_of("return 0; ;"), "1:14", "E30"),
    refused("`return 1;`", main_of("return 1;"), "1:14", "E30"),
    refused("`return (0);`", main_of("return (0);"), "1:14", "E30"),
    refused("`return -0;`", main_of("return -0;"), "1:14", "E30"),
    refused("`return 0;` in a block of main", main_of("{ return 0; }"), "1:16", "E30"),
    refused("`return 0;` twice", main_of("return 0; return 0;"), "1:14", "E30"),
    refused("`return 0;` behind if", main_of("if (true) return 0;"), "1:24", "E30"),
    refused("`return 0;` behind else", main_of("if (true) ; else return 0;"), "1:31", "E30"),
    refused("a `return` without value", main_of("return;"), "1:20", "E10"),
    refused("`return 0 + 0;`", main_of("return 0 + 0;"), "1:14", "E30"),
    # statements
    refused("a for without parts", main_of("for (;;) ;"), "1:19", "E10"),
    refused("a for without its last part", main_of("for (long i = 0; i < 3;) ;"), "1:37", "E10"),
    refused("a for without condition", main_of("for (long i = 0;; i++) ;"), "1:30", "E10"),
    ok("a counter without a first value", main_of("for (long i; i < 3; i++) print(i);"), "0\n1\n2\n"),
    ok("a counter that is assigned", main_of("long i; for (i = 1; i < 3; i *= 2) print(i);"), "1\n2\n"),
    refused("a call as the last part of a for", main_of("long i; for (i = 1; i < 3; f()) ;"), "1:44", "E10"),
    refused("a local as a branch", main_of("if (true) long x = 1;"), "1:24", "E10"),
    refused("a pointer as a branch", main_of("if (true) A *a;"), "1:26", "E10"),
    refused("a product as a statement is a pointer", main_of("long a; long b; a * b;"), "1:30", "E21"),
    refused("a product and `+` as a statement", main_of("a * b + 1;"), "1:20", "E10"),
    refused("an item and `*` as a statement", main_of("long x; x[1] * y;"), "1:27", "E10"),
    refused("a name and `+` as a statement", main_of("x + 1;"), "1:16", "E10"),
    refused("a name as a statement", main_of("x;"), "1:15", "E10"),
    refused("a call as a target", main_of("f() = 1;"), "1:18", "E10"),
    refused("`++` behind a call", main_of("f()++;"), "1:17", "E10"),
    refused("an item of a call as a statement", main_of("f(1)[2];"), "1:21", "E10"),
    refused("`this` as a target", main_of("this = 1;"), "1:19", "E10"),
    refused("`this` as a statement", main_of("this;"), "1:18", "E10"),
    refused("`this` called", main_of("this();"), "1:18", "E10"),
    refused("a statement that begins with `(`", main_of("(a)->b = 1;"), "1:14", "E10"),
    refused("a target in parentheses", main_of("x = (y) = 1;"), "1:22", "E10"),
    refused("a statement that begins with `-`", main_of("-x = 1;"), "1:14", "E10"),
    refused("`++` before a name", main_of("++x;"), "1:14", "E10"),
    refused("`++` twice", main_of("x++++;"), "1:17", "E10"),
    refused("no right side", main_of("x += ;"), "1:19", "E10"),
    refused("no index", main_of("x[] = 1;"), "1:16", "E10"),
    refused("a number behind `->`", main_of("x->1 = 2;"), "1:17", "E10"),
    refused("`this` behind `->`", main_of("x->this = 2;"), "1:17", "E10"),
    refused("a colon behind a name", main_of("x: ;"), "1:15", "E10"),
    refused("a comma before `)`", main_of("f(1,);"), "1:18", "E10"),
    refused("an if without parentheses", main_of("if true ;"), "1:17", "E10"),
    refused("a while without condition", main_of("while () ;"), "1:21", "E10"),
    refused("a pointer to `bool`", main_of("bool *p;"), "1:19", "E10"),
    refused("a class in main", main_of("class A;"), "1:14", "E10"),
    refused("two assignments in one", main_of("a = b = c;"), "1:20", "E10"),
    refused("two locals in one", main_of("long x = 1, y;"), "1:24", "E10"),
    refused("an array as a local", main_of("long x[3];"), "1:20", "E10"),
    refused("a pointer to a pointer", main_of("A * *a;"), "1:18", "E10"),
    refused("a first value in parentheses", main_of("long x(3);"), "1:20", "E10"),
    refused("an else without if", main_of("else ;"), "1:14", "E10"),
    refused("nothing behind else", main_of("if (true) else ;"), "1:24", "E10"),
    refused("a local of type `void`", main_of("void x;"), "1:14", "E10"),
    refused("a local of type `int`", main_of("int x;"), "1:14", "E10"),
    refused("`public` in a body", main_of("public: ;"), "1:14", "E10"),
    # new and print
    refused("`+` behind new", main_of("x = new A() + 1;"), "1:26", "E10"),
    refused("new as an argument", main_of("f(new A());"), "1:16", "E10"),
    refused("new in parentheses", main_of("x = (new A());"), "1:19", "E10"),
    refused("new behind `+=`", main_of("x += new A();"), "1:19", "E10"),
    refused("new with an argument", main_of("x = new A(1);"), "1:24", "E10"),
    refused("a field of new", main_of("x = new A()->f;"), "1:25", "E10"),
    refused("new as a statement", main_of("new A();"), "1:14", "E10"),
    refused("an arrow behind a number", main_of("print(5->x);"), "1:21", "E10"),
    refused("an arrow behind nullptr", main_of("print(nullptr->x);"), "1:27", "E10"),
    refused("print of nothing", main_of("print();"), "1:20", "E10"),
    refused("print of two values", main_of("print(1, 2);"), "1:21", "E10"),
    refused("print without parentheses", main_of("print 1;"), "1:20", "E10"),
    refused("`<` of `<`", main_of("print(1 < 2 < 3);"), "1:26", "E25"),
    # the end of a text
    refused("no end of main", "int main() { ", "1:14", "E10"),
    refused("no end of main in the next line", "int main() {\n", "2:1", "E10"),
    refused("no end of a statement", "int main() { print(1) ", "1:23", "E10"),
    refused("no end of main behind a block", "int main() { { }\n", "2:1", "E10"),
    refused("`;` behind main", "int main() { } ;", "1:16", "E10"),
    refused("a class behind main", "int main() { } class A;", "1:16", "E10"),
    refused("main with `void`", "int main(void) { }", "1:10", "E10"),
    refused("two mains", "int main() { } int main() { }", "1:16", "E10"),
    refused("`int` alone", "int", "1:4", "E10"),
    refused("`int` and another name", "int x", "1:5", "E10"),
    refused("`Main` isn't `main`", "int Main() { }", "1:5", "E10"),
    # classes
    refused("a class without `public`", "class A { };", "1:11", "E10"),
    refused("`public` twice", "class A { public: public: };", "1:19", "E10"),
    refused("a private class", "class A { private: };", "1:11", "E10"),
    refused("`public` without colon", "class A { public ; };", "1:18", "E10"),
    refused("a class that is named by a key word", "class main { public: };", "1:7", "E10"),
    refused("no `;` behind a class at the end", "class A { public: }", "1:20", "E10"),
    refused("no `;` behind a class", "class A { public: } int", "1:21", "E10"),
    ok("a declaration twice", "class A; class A; int main() { }"),
    ok(
        "declarations round two classes",
        "class B; class A { public: B *b; }; class B { public: A *a; }; class A; int main() { }",
    ),
    refused("a field that is a class", "class A { public: A f; };", "1:21", "E10"),
    refused("a pointer to `long`", "class A { public: long *p; };", "1:24", "E10"),
    refused("a method of type `int`", "class A { public: int f() { } };", "1:19", "E10"),
    refused("a field of type `void`", "class A { public: void f; };", "1:25", "E10"),
    refused("a method of type `void *`", "class A { public: void *f() { } };", "1:24", "E10"),
    refused("a method behind a field's comma", "class A { public: long a, f() { return 1; } };", "1:28", "E10"),
    refused("a `*` is missing behind a comma", "class A { public: A *f, g; };", "1:25", "E10"),
    refused("a length that is a name", "class A { public: long a[n]; };", "1:26", "E10"),
    refused("a length that is below 0", "class A { public: long a[-1]; };", "1:26", "E10"),
    refused("a parameter without name", "class A { public: void f(long) { } };", "1:30", "E10"),
    refused("a parameter `void`", "class A { public: void f(void) { } };", "1:26", "E10"),
    refused("a comma behind the last parameter", "class A { public: void f(long a,) { } };", "1:33", "E10"),
    refused("an array as a parameter", "class A { public: void f(long a[2]) { } };", "1:32", "E10"),
    refused("a method without body", "class A { public: void f(); };", "1:27", "E10"),
    refused("`;` behind a method", "class A { public: void f() { }; };", "1:31", "E10"),
    refused("a first value of a field", "class A { public: long a = 1; };", "1:26", "E10"),
    ok(
        "fields in lists, and new with and without parentheses",
        "class A { public: long a[3], b, c[2]; A *d, *e[2]; bool f; }; int main() { A *x = new A; A *y = new A(); }",
        "#0 A a=[0,0,0] b=0 c=[0,0] d=null e=[null,null] f=false\n"
        "#1 A a=[0,0,0] b=0 c=[0,0] d=null e=[null,null] f=false\n",
    ),
    # what belongs to what
    ok("an else belongs to the inner if", main_of("if (true) if (false) print(1); else print(2);"), "2\n"),
    ok("an else that isn't run", main_of("if (false) if (false) print(1); else print(2);")),
    ok(
        "parentheses round arrays, `this` and an index",
        "class A { public: long a[3]; void f() { a[1] = 7; print((a)[1]); print((this)->a[1]); "
        "print(((this))->a[(1)]); } }; int main() { A *x = new A(); x->f(); }",
        "7\n7\n7\n#0 A a=[0,7,0]\n",
    ),
    ok(
        "what binds tighter, and from the left",
        main_of(
            "print(10 - 3 - 2); print(100 / 10 / 2); print(100 / 10 * 2); print(7 % 4 * 2); print(2 + 3 * 4 - 1); "
            "print(-2 * -3); print(1 < 2 == true); print(true == 1 < 2); print(true || false && false); "
            "print(!false && false);"
        ),
        "5\n5\n20\n6\n13\n6\ntrue\ntrue\ntrue\nfalse\n",
    ),
    ok(
        "receivers that are calls, items and fields",
        "class A { public: A *n[2]; long v; A *me() { return this; } A *at(long i) { return n[i]; } "
        "void set(long i, A *x) { n[i] = x; } void put(long x) { v = x; } };\nint main() { A*a=new A;a->set(0,a);"
        "a->me()->set(1,a->n[0]->me());a->at(1)->n[0]->at(0)->me()->put(7);}",
        "#0 A n=[#0,#0] v=7\n",
    ),
    ok(
        "a for over pointers",
        "class A { public: A *n; long v; void set(A *x, long y) { n = x; v = y; } };\nint main() { A *a; "
        "for (long i = 0; i < 3; i++) { A *b = new A(); b->set(a, i); a = b; } for (A *p = a; p != nullptr; "
        "p = p->n) print(p->v); }",
        "2\n1\n0\n#0 A n=null v=0\n#1 A n=#0 v=1\n#2 A n=#1 v=2\n",
    ),
    # statements nest 200 deep
    refused_at("201 blocks", HEAD + "{" * 200 + "@{", "E11"),
    ok("200 blocks", HEAD + "{" * 200 + "}" * 200),
    refused_at("a wrong token behind 200 blocks", HEAD + "{" * 200 + "@(", "E10"),
    ok("199 times if", "int main() {" + "if(true)" * 199 + ";}"),
    refused_at("200 times if", "int main() {" + "if(true)" * 199 + "@if(true);}", "E11"),
    ok("199 times else", "int main() {" + "if(true);else " * 199 + ";}"),
    refused_at("200 times else", "int main() {" + "if(true);else " * 199 + "@if(true);else ;}", "E11"),
    ok("199 times while and blocks", "int main() {" + "while(false){" * 99 + "while(false);" + "}" * 99 + "}"),
    refused_at(
        "a block in 199 times while and blocks",
        "int main() {" + "while(false){" * 99 + "while(false)@{}" + "}" * 99 + "}", "E11",
    ),
    refused_at("200 times for", "int main() {" + "for(i=0;i<1;i++)" * 199 + "@for(i=0;i<1;i++);}", "E11"),
    refused_at("201 blocks in a method", "class A { public: void f() " + "{" * 200 + "@{", "E11"),
    ok("200 blocks in a method", "class A { public: void f() " + "{" * 200 + "}" * 200 + " }; int main() { }"),
    # an expression has 1,000 tokens
    refused_at("1,001 tokens of an expression", main_of(f"print({NESTED}+@1);"), "E11"),
    ok("999 tokens of an expression", main_of("print(1" + "+1" * 499 + ");"), "500\n"),
    ok("1,000 tokens of an expression", main_of("print(-1" + "+1" * 499 + ");"), "498\n"),
    refused_at("1,001 tokens, and a wrong one behind", main_of("print(-1" + "+1" * 499 + "@+;"), "E11"),
    refused_at("1,002 tokens", main_of("print(-1" + "+1" * 499 + "@+1);"), "E11"),
    refused_at("a wrong token 1,001", main_of("print(-1" + "+1" * 499 + "@;"), "E10"),
    refused_at("1,001 parentheses", main_of("print(" + "(" * 1000 + "@("), "E11"),
    ok("499 parentheses", main_of("print(" + "(" * 499 + "1" + ")" * 499 + ");"), "1\n"),
    ok("498 parentheses and a sum", main_of("print(" + "(" * 498 + "1" + ")" * 498 + "+1);"), "2\n"),
    refused_at(
        "a target of 1,001 tokens, and more",
        "class A { public: A *n; long v; }; int main() { A *a; a" + "->n" * 499 + "->@n->v = 1; }", "E11",
    ),
    refused_at(
        "a target of 1,001 tokens",
        "class A { public: A *n; long v; }; int main() { A *a; a" + "->n" * 499 + "->@v = 1; }", "E11",
    ),
    ok(
        "both sides of an assignment count alone",
        "class A { public: long v[1]; void f() { v[1" + "-1" * 249 + "+248] = 1" + "+1" * 499
        + "; } }; int main() { A *a = new A(); a->f(); }",
        "#0 A v=[500]\n",
    ),
    refused_at(
        "1,001 tokens of a call",
        "class A { public: void f() { } }; int main() { A *a; a->f(" + "1," * 498 + "@1,1); }", "E11",
    ),
    ok(
        "each expression of a statement counts alone",
        main_of(
            f"long x = {NESTED}; x += {NESTED}; print({NESTED}); "
            f"for (long i = {NESTED}; i < 500; i += {NESTED}) ; print(x);"
        ), "500\n1000\n",
    ),
    ok(
        "999 signs",
        main_of("print(" + "- " * 999 + "1); print(" + "!" * 998 + "true); print(" + "! " * 999 + "true);"),
        "-1\ntrue\nfalse\n",
    ),
    refused_at("1,000 signs and a value", main_of("print(" + "!" * 1000 + "@true);"), "E11"),
    ok("333 indexes in each other", PRINTED % ("a[" * 333 + "0" + "]" * 333), "1\n#0 A a=[1,0,0] n=#0\n"),
    ok("333 calls in each other", PRINTED % ("f(" * 333 + "0" + ")" * 333), "333\n#0 A a=[1,0,0] n=#0\n"),
    ok("498 arrows", PRINTED % ("n->" * 498 + "a[0]"), "1\n#0 A a=[1,0,0] n=#0\n"),
    # one stage after the other
    refused("a wrong token before too many blocks", "int main() { ) " + "{" * 201, "1:14", "E10"),
    refused("a bad byte behind a wrong token", "int main() { ) \n $", "2:2", "E01"),
    refused_at("an unknown name before 1,001 tokens", main_of(f"zz = 1; print({NESTED}+@1);"), "E11"),
]
