"""Texts at each limit, which are accepted, and just past it, with the refusal that is due.

Each row is a text with a part that is repeated (`#` is its number, from 0) as often as the limit lets it, and what
may be put behind the last of these parts to pass the limit, with `$` before the place of the refusal. Whatever other
rule is broken by what declares a name past its limit, the limit is refused.
"""

from reference.faults import place_of, refusal

END = "int main() { }"
LOOP = "for (i = 0; false; i++) "

ROWS = [
    ("E50", "", "class c#{public:};", 256, [
        "class $u{public:};", "class $c0{public:};", "class $u{public: Unknown *x; };",
        "class u; class $v{public:}; class w{public:};",
    ], END),
    ("E51", "class A { public: ", "long f#;", 256, [
        "long $u;", "long $f0;", "long $u[0];", "long $u[1000001];", "void u() { } bool $v;", "A *$u, *v;",
    ], "}; " + END),
    ("E51", "class B { public: long a; }; class A { public: ", "A *f#,*g#;", 128, [
        "A *$u;", "A *$g9, *u;",
    ], "}; " + END),
    ("E52", "class A { public: long u; ", "void m#(){}", 256, [
        "void $v() { }", "void $m0() { }", "void $u() { unknown = 1; }", "void $v(Unknown *p) { }",
        "long v() { return 1; } void $w() { }", "}; class B { public: void $m0() { } void m1() { }",
    ], "}; " + END),
    ("E53", "class A { public: long u; ", "long m#(){return #;}", 256, [
        "long $v() { return 1; }", "long $m0() { return 1; }", "bool $v() { }", "A *$u() { unknown = 1; }",
        "void v() { } long $w() { }", "}; class B { public: long $m0() { return 1; }",
    ], "}; " + END),
    ("E54", "class A { public: void m(long p", ", long p#", 31, [
        ", long $q", ", long $p0", ", bool $q, long q",
    ], ") { } }; " + END),
    ("E54", "class A { public: long m(long p", ", A *p#", 31, [
        ", A *$q", ", long $p",
    ], ") { return p; } }; " + END),
    ("E55", "int main() {", "long v#;", 256, [
        "long $u;", "long $v0;", "long $u = unknown;", "long $u = true; long w;", "{ { bool $v3; } }",
        "for (long $u; false; u++) ;",
    ], "}"),
    ("E55", "class A { public: void m(long p, bool q) {", "{long v#;}", 254, [
        "long $u;", "long $p;", "if (q) { A *$u = new A(); }", "for (long $p; q; p++) { long w; }",
    ], "} }; " + END),
    ("E55", "class A { public: long m(long p) {", "for(long v;true;v++){long w;}", 127, [
        "bool u; long $v;", "bool u; bool $u;",
    ], "return 1; } }; " + END),
    ("E56", "class A { public: long a[1000000];", "", 1, [
        "long $b[1000001];", "A *$a[1000001];", "bool b, $c[9223372036854775807];",
    ], "}; " + END),
    ("E57", "int main() { long i;", LOOP + ";", 256, [
        "$" + LOOP + ";", "$for (i = unknown; 1; i++) ;", "$for (long i = true; false; i++) ;",
        "if (false) $" + LOOP + LOOP + ";",
    ], "}"),
    ("E57", "class A { public: void m(long i) {", LOOP + LOOP + ";", 128, [
        "$" + LOOP + ";", "while (false) { $" + LOOP + ";}", "} long n(long i) { $" + LOOP + ";",
    ], "} }; " + END),
    # nested statements: the body is a block
    ("E11", "int main()", "{", 200, [
        "${ }", "; $if (true) ;", "; $while (true) ;", "long i; $" + LOOP + ";",
    ], "}" * 200),
    ("E11", "class A { public: void m()", "{", 200, ["${ }", "; $if (true) ;"], "}" * 200 + " }; " + END),
    ("E11", "int main() {", "if (false) ", 199, ["$if (true) ", "$while (true) ", "${ } "], "; }"),
    ("E11", "int main() {", "while (false) ", 199, ["$while (true) ", "$for (x = 1; true; x++) "], "; }"),
    ("E11", "int main() { long i; ", LOOP, 199, ["$" + LOOP, "${ } "], "; }"),
    ("E11", "int main() {", "if (false) ; else ", 199, ["$if (true) ", "${ } "], "; }"),
    ("E11", "int main() {", "if (false) { } else ", 198, ["if (true) ${ } else "], "; }"),
]

# Statements with an expression that takes 1,000 tokens with so many of the part; x is a long, y a bool.
EXPRESSIONS = [
    (" + 1", 499, " $+ 1", [
        ("print(-1", ");"), ("x = -1", ";"), ("x += -1", ";"), ("long z = -1", ";"), ("n = -1", ";"),
        ("a[0] = -1", ";"), ("for (x = -1", "; y; x++) ;"), ("for (long z = -1", "; y; z++) ;"),
        ("for (x = 1; y; x = -1", ") ;"), ("for (x = 1; y; x -= -1", ") ;"), ("if (y) x = -1", "; else x = 1;"),
    ]),
    (" && y", 499, " $&& 1", [
        ("if (!y", ") ;"), ("if (y) ; else if (!y", ") ;"), ("while (!y", ") ;"), ("for (x = 1; !y", "; x++) ;"),
        ("y = !y", ";"),
    ]),
    (" + 1", 498, " + $1", [
        ("a[1", "] = 1;"), ("a[1", "]++;"), ("v(1", ");"), ("print((-1", "));"), ("print(-(1", "));"),
        ("print(a[1", "]);"),
    ]),
]
for part, count, extra, frames in EXPRESSIONS:
    for before, after in frames:
        text = "class A { public: long n; long a[2]; void v(long x) { } void m(long x, bool y) { " + before
        ROWS.append(("E11", text, part, count, [extra], after + " } }; " + END))

# of a whole text; `int main() {` and the last brace are six tokens
FULL = "int main() {" + 262138 * ";"
TEXTS = [
    ("E03", FULL + ";$}"), ("E03", FULL + ";$;"), ("E03", FULL + ";$12ab"), ("E03", "class {" + 262142 * ";" + "$;"),
    ("E01", FULL + ";$007"), ("E01", FULL + "12$ab"), ("E01", "$@" + 300000 * ";"),
    ("E02", FULL + ";$9223372036854775808"), ("E02", "$99999999999999999999L" + 300000 * ";"),
    ("E10", "int main() {$]" + 200000 * ";"), ("E10", "$"), ("E10", "\n$"), ("E10", "int main() {$"),
    ("E30", "int main() { $return 0; return 0; }"), ("E30", "int main() { { $return 0; } }"),
    ("E30", "int main() { if (true) $return 0; }"), ("E30", "int main() { $return (0); }"),
]
SOURCE_BYTES = 1048576


def passed():
    """Each text, with the status and the bytes that are due."""
    for code, before, part, count, extras, after in ROWS:
        text = before + "".join(part.replace("#", str(i)) for i in range(count))
        yield text + after, 0, ""
        for extra in extras:
            yield marked(text + extra + after, code)
    yield from (marked(text, code) for code, text in TEXTS)
    yield FULL + "}", 0, ""
    yield END.ljust(SOURCE_BYTES), 0, ""
    for text in (END, "@", ""):
        yield text.ljust(SOURCE_BYTES + 1), *refusal(0, 0, "E04")


def marked(text, code):
    front, back = text.split("$")
    return front + back, *refusal(*place_of(front), code)
