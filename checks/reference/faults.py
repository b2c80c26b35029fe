"""Accepted texts with faults put in, and the refusal that is due.

A fault is a text that breaks one rule; `$` stands at the place where it is refused. A holder is a text with a hole
for a fault, and keeps all other rules, or breaks one that it must be silent about, as a fault stands inside it. Both
have a kind, by the grammar, and the bodies in which they may stand. In each body x is a long, b a bool, z a `Z *`
and y a `Y *`, and each class has MEMBERS.
"""

import re

LIMITS = {"E03", "E04", "E11", "E50", "E51", "E52", "E53", "E54", "E55", "E56", "E57"}
CODES = LIMITS | {f"E{n:02}" for n in (1, 2, 10, *range(20, 34))}

OUTSIDE, MAIN, OPERATION, VALUE = {"outside"}, {"main"}, {"operation"}, {"long", "bool", "pointer"}
METHOD = OPERATION | VALUE
BODY = MAIN | METHOD
ALL = BODY | OUTSIDE

MEMBERS = (
    "long zn; bool zt; Z *zp; long zs[2]; Z *zq[2]; "
    "void zo(long x, bool b) { } long zv(long x, bool b) { return x; } "
)
NAMES = "long x, bool b, Z *z, Y *y"
LOCALS = NAMES.replace(",", ";") + ";"
KNOWN = f"class Z {{ public: {MEMBERS}}};\nclass Y {{ public: }};\n"

PARAMETERS = ", ".join(f"long p{i}" for i in range(32))
MANY_LOCALS = " ".join(f"long v{i};" for i in range(255))

# Kinds whose texts may also stand in a hole of this kind. A fault of kind "any" fits in all.
ALSO = {"item": ["statement"], "right": ["expression"]}

# A hole is written <kind>, or <kind:body> where it stands in another body than its holder.
HOLDERS = [
    ("class", OUTSIDE, [f"class u {{ public: {MEMBERS}<member> }};", f"class Z {{ public: {MEMBERS}<member> }};"]),
    ("member", OUTSIDE, [
        f"void u({NAMES}) {{ <item:operation> }}", f"long u; void u({NAMES}) {{ <item:operation> }}",
        f"long u({NAMES}) {{ <item:long> return x; }}", f"long u({NAMES}) {{ <item:long> }}",
        f"bool u({NAMES}) {{ <item:bool> return b; }}", f"Y *u({NAMES}) {{ <item:pointer> return y; }}",
        "void u(<parameter>) { }", "void u(long k, <parameter>) { }", "long u(<parameter>, long k) { }",
    ]),
    ("item", BODY, ["<local>;", "long h; bool h = <right>;"]),
    ("statement", BODY, [
        "<assignment>;", "<call>;", "{ <item> }", "if (<expression>) ;", "if (b) ; else if (<expression>) ;",
        "while (<expression>) ;", "if (b) <statement>", "if (b) ; else <statement>", "while (b) <statement>",
        "for (<local>; b; x++) ;", "for (<assignment>; b; x++) ;", "for (x = 1; <expression>; x++) ;",
        "for (x = 1; b; <assignment>) ;", "for (long h = 1; b; h++) <statement>", "return <expression>;",
        "print(<expression>);",
    ]),
    ("local", BODY, ["long h = <right>", "bool h = <right>", "Z *h = <right>"]),
    ("assignment", BODY, [
        "x = <right>", "b = <right>", "z = <right>", "x += <expression>", "x -= <expression>", "x *= <expression>",
        "x &= <expression>", "x |= <expression>", "x ^= <expression>",
        "x[<expression>] = x", "z->zs[<expression>] = x",
    ]),
    ("assignment", METHOD, [
        "zs[<expression>] = x", "this->zs[<expression>] += x", "zs[<expression>]++", "zs[<expression>] ^= x",
    ]),
    ("assignment", OPERATION, ["zn = <right>", "zs[x] = <right>"]),
    ("call", BODY, [
        "z->zo(<expression>, b)", "z->zo(x, <expression>)", "z->zq[<expression>]->zo(x, b)", "z->zo(<expression>)",
        "z->zv(<expression>, b)", "z->unknown(<expression>)", "unknown(<expression>)",
    ]),
    ("call", METHOD, ["zo(<expression>, b)", "this->zo(x, <expression>)", "zq[<expression>]->zo(x, b)"]),
    ("expression", BODY, [
        "(<expression>)", "-(<expression>)", "!(<expression>)", "(<expression>) + x", "x / (<expression>)",
        "(<expression>) < x", "b && (<expression>)", "(<expression>) || b", "z == (<expression>)",
        "(<expression>)->zn", "(<expression>)->zv(x, b)", "z->zv(<expression>, b)", "z->zv(x, <expression>)",
        "z->zs[<expression>]", "x[<expression>]", "(-(<expression>))[x]", "z->zv(<expression>)",
        "z->zo(<expression>, b)", "z->unknown(<expression>)", "unknown(<expression>)",
        "x & (<expression>)", "(<expression>) | x", "x ^ (<expression>)", "max(<expression>, x)",
        "min(x, <expression>)",
    ]),
    ("expression", METHOD, ["zv(<expression>, b)", "this->zv(x, <expression>)", "zs[<expression>]"]),
]

FAULTS = [
    ("E01", "any", ALL, [
        "$@", "$.5", "$\"u\"", "$#", "x & $#", "x |$? b", "$~", "$é", "$'", "$\\", "$?", "$\0", "$007", "$00", "0$x1F",
        "5$L", "1$_", "$00L", "/* * / ** // */ $@", "// /*\n$@", "x ^$@ x",
    ]),
    ("E02", "any", ALL, ["$9223372036854775808", "$99999999999999999999L", "-$9223372036854775808"]),
    ("E01", "end", OUTSIDE, ["} $@", "} $/*", "} $/*/", "} $/* // ", "} // /* */\n$/* *"]),
    ("E10", "end", OUTSIDE, ["} $}", "} $;", "} $class u;", "} $int main() { }", "$", "\n$", " // }$"]),
    ("E10", "class", OUTSIDE, [
        "$long u;", "$void u() { }", "$;", "$Z *u;", "$public", "$main", "int $u;", "int main$;",
        "int main($void) { }", "class ${", "class u $: Z { };", "class u$, v;", "class u { $long x; };",
        "class u { $}", "class u { public$; };", "class u { public: } $class", "class u { public: $public: };",
        "class $max;", "class $min { public: };",
        "class u; $;",
    ]),
    ("E10", "member", OUTSIDE, [
        "$int u;", "$public: long u;", "private$: long u;", "$class u;", "$;", "$print(x);", "u $() { }", "Z $u;",
        "long $;", "long u $v;", "long u $= 1;", "long u[$x];", "long u[$];", "long u[2]$[2];", "long u, $long v;",
        "long u, $*v;", "Z *u, $v;", "long $*u;", "void u$;", "void $*u() { }", "void u() $;", "void u() { }$;",
        "long u() $const { }", "long u[2]$() { }", "long u, v$() { }", "void u() { $) }",
        "long $max;", "long u, $min;", "void $max() { }", "long u $& 1;", "bool $min() { return true; }",
    ]),
    ("E10", "parameter", OUTSIDE, [
        "$void", "long $, long p", "long p, $, long q", "p $q", "long p$[2]", "$int p", "long p $= 1", "$new",
        "Z *$*p", "long $*p", "long p $long q", "long p$;", "long $max", "long p $| q", "Z *$min, long p",
    ]),
    ("E10", "local", BODY, [
        "$int v", "$class v", "$void v", "long $= 1", "long v$, w", "long v$[2]", "long v $+= 1", "long $*v",
        "Z *$*v", "Z $v", "Z *$long", "long $long", "long v = $", "bool $main", "Z *v$->zn",
        "long $max", "bool $min = b", "Z *$max", "long v $&= 1", "long v $^ x",
    ]),
    ("E10", "assignment", BODY, [
        "x $+ 1", "x $== 1", "x $/ = 2", "$++x", "$(x) = 1", "$1 = x", "$nullptr", "this $= z", "zo(x, b) $= 1",
        "z->zo(x, b) $++", "x++ $+ 1", "x += $new Y()", "x = 1 $= 1", "x = $= 1",
        "x $& x", "x $| x", "x $^ 1", "x $&& = b", "x $& = 1", "x $||= b", "x |= $new Y()", "x ^= $= x",
        "x &= $&= x", "$max = x", "$min(x, x) = x", "z->$max = x", "x $max= 1", "z->$1 = x", "x[$] = 1",
    ]),
    ("E10", "call", BODY, ["zo(x, b)$, x", "zo(x$;", "zo($, x)", "z->zo(x, b)$(x)", "zo(x, $)", "zo($if)"]),
    ("E10", "right", BODY, [
        "new $long", "new $this", "new Y($x)", "new Y()$->zn", "new Y() $+ 1", "new Y $Y", "new Y$[2]", "$",
        "-$new Y()",
    ]),
    ("E10", "expression", BODY, [
        "x $x", "($)", "$* x", "x + $", "x + $;", "$if", "($new Y())", "x $= b", "x $++", "x $!x", "-$;",
        "x < $> x", "z->$1", "zv(x,$)", "zv(x$;", "x[$]", "1$->zn", "true$(x)", "nullptr$[0]", "(x)$(x)", "$long",
        "(x $;", "$--x", "x &&$& b", "b ||$| b", "x &$| x", "x & $", "x | $;", "x ^ $^ x", "$& x", "$^ x", "$| x",
        "x $&= x", "x $|= x", "x $^= x", "x &&$= b", "max$;", "max $x", "max($)", "max(x$)", "max(x, $)",
        "max(x, x$, x)", "min(x$;", "max(x, x)$[0]", "max(x, x)$->zn", "min(x, x)$(x)", "x $max x", "z->$min",
        "(x)$min",
    ]),
    ("E10", "statement", BODY, [
        "if $b ;", "if ($) ;", "if (b$;", "if (b) $}", "if (b) $else ;", "if (b) $long v;", "if (b) Z $*v;",
        "if (b) ; else $bool v;", "while $x", "while (b) $long v;", "for ($; b; x++) ;", "for (x = 1; $; x++) ;",
        "for (x = 1; b; $) ;", "for (x = 1; b; $long v) ;", "for (x = 1$, x = 2; b; x++) ;",
        "for (zo(x, b)$; b; x++) ;", "for (x = 1; b; zo(x, b)$) ;", "for (x = 1; b; x++$;", "return $;",
        "return $new Y();", "print $x;", "print($);", "print(x$, x);", "print($new Y());", "break$;", "do ${",
        "delete $z;", "zo(x, b) $}", "x = 1 $}", "x$;", "this$;", "z->zn$;", "zs[0]$;", "$int v;", "$class u;",
        "$public", "$void u() { }", "$)", "$]", "$,", "$1;", "$true;", "$new Y();", "$-x;", "$&& x", "$main",
        "$max(x, x);", "$min;", "for ($max(x, x); b; x++) ;", "if (max(x, x)$;", "if (b) $& x;", "print(max$);",
        "{ $else }", "goto $v;", "v$: ;",
    ]),
    ("E20", "class", OUTSIDE, [
        "class $Z { public: };", "class u { public: }; class $u { public: };",
        "class u; class Z; class $Y { public: };",
    ]),
    ("E21", "local", BODY, ["$Unknown *v", "$Unknown *v = new Unknown()", "$Unknown *v = 5", "$x *v"]),
    ("E21", "right", BODY, ["new $Unknown()", "new $Unknown"]),
    ("E21", "class", OUTSIDE, ["class w; class v { public: $w *x; };", "class v { public: void x() { $w *v; } };"]),
    ("E21", "parameter", OUTSIDE, ["$Unknown *p", "$Unknown *p, long p", "$zn *p"]),
    ("E21", "member", OUTSIDE, [
        "$Unknown *u;", "$Unknown *u[0];", "$Unknown *u, *w;", "$Unknown *u() { return nullptr; }",
        "$Unknown *u() { }",
    ]),
    ("E22", "member", OUTSIDE, [
        "long u; bool $u;", "long u, $u;", "Z *u, *w, *$u;", "long u; void $u() { }", "void u() { } long $u;",
        "void u() { } void $u(long p) { }", "long u() { return 1; } void $u() { }", "long u; Z *$u() { }",
        "long u, $u[0];",
    ]),
    ("E23", "item", BODY, [
        "{ long v; long $v; }", "{ long v; bool $v = true; }", "{ long v; { Z *v; Z *$v; } }",
        "{ Z *v; Y *$v; v = y; }", "for (long v; b; v++) { long v; long $v; }", "{ long zn; bool $zn; }",
    ]),
    ("E23", "parameter", OUTSIDE, ["long p, bool $p", "Z *p, long q, Z *$p"]),
    ("E23", "member", OUTSIDE, [
        "void u(long p) { long $p; }", "long u(long p) { { long p; } bool $p; return 1; }",
    ]),
    ("E24", "expression", BODY, [
        "$unknown", "$unknown(x)", "z$->unknown", "z$->unknown(x)", "z$->zv", "z$->zn(x)", "z$->x", "$x(x)", "$Z",
        "$unknown[x]", "$unknown->zn", "y$->zn", "max($unknown, b)", "b & $unknown",
    ]),
    ("E24", "expression", MAIN, ["$zn", "$zs[0]", "$zv(x, b)", "$zo(x)"]),
    ("E24", "expression", METHOD, ["$zv", "$zn(x)", "this$->zo", "this$->x", "zp$->unknown", "zq[0]$->unknown()"]),
    ("E24", "assignment", BODY, [
        "$unknown = x", "$unknown++", "z$->unknown = x", "$unknown[0] = x", "$unknown->zn = b", "z$->zo = x",
    ]),
    ("E24", "assignment", MAIN, ["$zn = x", "$zs[0] = x", "$zp->zn = x"]),
    ("E24", "assignment", METHOD, ["$zo = x", "this$->zv = x"]),
    ("E24", "call", BODY, [
        "$unknown()", "z$->unknown()", "$x(x)", "z$->zn(x)", "$unknown->zo(x, b)", "y$->zo(x, b)",
    ]),
    ("E24", "call", MAIN, ["$zo(x, b)", "$zv()"]),
    ("E24", "call", METHOD, ["$zn()", "this$->zn()", "$z(x)"]),
    ("E24", "local", BODY, ["long v = $v", "Z *v = $v"]),
    ("E24", "item", BODY, [
        "{ { long v; } $v = 1; }", "{ $v = 1; long v; }", "{ for (long v; b; v++) ; $v = 1; }",
        "for (x = $v; b; x++) { long v; }",
    ]),
    ("E25", "expression", BODY, [
        "x $+ b", "b $- x", "b $* b", "x $/ z", "nullptr $% x", "$-b", "$!x", "$-nullptr", "x $< b", "z $>= z",
        "x $&& b", "b $|| x", "!b $== x", "x $!= z", "nullptr $== x", "b $!= nullptr", "z $== y", "(x)$->zn",
        "(nullptr)$->zn", "x$->zv(x, b)", "z->zn$->zn", "z->zs[$b]", "z->zs[$nullptr]", "x[$b]", "z->zs[x $< x]",
        "z->zv($b, b)", "z->zv(x, $x)", "z->zv($nullptr, b)", "z->zv(x, z$->zn)", "z->zv(x, z->zs$[0])",
        "x + x $== b", "x < x $== x", "x $& b", "b $| b", "z $^ x", "nullptr $& x", "x | b $^ x", "x $& x == x",
        "b $&& x & x", "x | x $|| b", "$max(x, b)", "$min(b, b)", "$max(z, nullptr)", "$!max(x, x)", "max(x, x $+ b)",
        "(max(x, x))$->zn", "x < x $& x", "x ^ x $== b",
    ]),
    ("E25", "expression", METHOD, [
        "x $+ zt", "zs[$zt]", "zv($this, b)", "zv(x, $zn)", "this $== y", "this $+ x", "$-zp", "zn$->zn",
        "zs[0]$->zn", "this->zs[$zp]",
    ]),
    ("E25", "local", BODY, [
        "long v = $b", "bool v = $x", "Z *v = $y", "Z *v = $5", "Z *v = new $Y()", "long v = new $Z",
        "long v = $nullptr", "long v = x $< x", "bool v = $-x", "long v = z$->zt", "bool v = z->zs$[0]",
        "bool v = z$->zv(x, b)", "bool v = x $& x", "bool v = $max(x, x)", "Z *v = $min(x, x)", "long v = x $| b",
    ]),
    ("E25", "local", METHOD, ["Y *v = $this", "bool v = $zv(x, b)", "long v = $zp"]),
    ("E25", "assignment", BODY, [
        "x = $b", "b = $x", "z = $y", "z = $5", "x = $nullptr", "b = $nullptr", "z = new $Y()", "x = new $Z",
        "x += $b", "x *= $z", "x -= $nullptr", "$b += x", "$b += b", "$z++", "$b--", "$z -= z", "x = x $== x",
        "x$->zn = 1", "x = z$->zp", "b$->zn += 1", "x &= $b", "x |= $nullptr", "x ^= $z", "$b &= x", "$b |= b",
        "$z ^= x", "b = x $^ x",
    ]),
    ("E25", "assignment", METHOD, [
        "y = $this", "zs[$b] = x", "zs[$nullptr]++", "zn$->zn = x", "zv(x, b)$->zn = x", "z->zs[$b] = x",
    ]),
    ("E25", "assignment", OPERATION, [
        "zn = $b", "zt = $zn", "zp = $y", "zs[0] = $b", "$zt += 1", "$zp++", "zq$[0] += 1", "$zt |= 1", "$zp &= 1",
        "zq$[0] ^= 1", "zp = new $Y()",
    ]),
    ("E25", "call", BODY, [
        "z->zo($b, b)", "z->zo(x, $x)", "z->zo($nullptr, b)", "z->zo(x, x $+ x)", "z->zo($z, x)", "x$->zo(x, b)",
        "z->zn$->zo(x, b)",
    ]),
    ("E25", "call", METHOD, ["zo($b, b)", "this->zo(x, $this)", "zn$->zo(x, b)", "zo(x, $zn)"]),
    ("E25", "item", BODY, ["{ long v; bool v = $5; }", "{ bool v; { long v; } v = $5; }"]),
    ("E25", "statement", BODY, [
        "if ($x) ;", "if ($nullptr) ; else ;", "if (x $- x) ;", "while ($x) ;", "while ($z) { }",
        "for (x = 1; $x; x++) ;", "for (x = 1; $nullptr; x++) ;", "print($z);", "print($nullptr);",
        "print(z$->zp);", "print($y);",
    ]),
    ("E25", "statement", {"long"}, ["return $b;", "return $nullptr;", "return $z;", "return x $< x;"]),
    ("E25", "statement", {"bool"}, ["return $x;", "return $nullptr;", "return z$->zn;"]),
    ("E25", "statement", {"pointer"}, ["return $x;", "return $b;", "return $0;"]),
    ("E26", "expression", BODY, ["z$->zv()", "z$->zv(x)", "z$->zv(b)", "z$->zv(x, b, x)", "z$->zo()", "z$->zo(z)"]),
    ("E26", "expression", METHOD, ["$zv()", "this$->zv(x)", "$zo(x)", "zp$->zo(x, b, x)"]),
    ("E26", "call", BODY, ["z$->zo()", "z$->zo(x)", "z$->zo(b)", "z$->zo(x, b, x)", "z$->zv()", "z->zp$->zo(b)"]),
    ("E26", "call", METHOD, ["$zo()", "$zv(b)", "this$->zo(x)"]),
    ("E27", "assignment", BODY, [
        "z$->zn = x", "z$->zn = b", "z$->zn++", "z$->zs = x", "x$[0] = x", "z->zs$[0] = x", "z->zs$[x]--",
        "z->zp$->zn -= x", "z$->zn ^= x", "z$->zp = new Z()", "z->zn$[x] = x", "b$[0] = b",
    ]),
    ("E27", "assignment", METHOD, [
        "$zs = x", "this$->zs = x", "zn$[0] = x", "zp$->zn = x", "zq[0]$->zn = x", "zs[0]$[0] = x",
    ]),
    ("E28", "expression", BODY, ["z$->zo(x, b)", "z->zp$->zo(x, b)"]),
    ("E28", "expression", METHOD, ["$zo(x, b)", "this$->zo(x, b)"]),
    ("E28", "call", BODY, ["z$->zv(x, b)", "z->zq[x]$->zv(x, b)"]),
    ("E28", "call", METHOD, ["$zv(x, b)", "this$->zv(x, b)"]),
    ("E29", "assignment", VALUE, [
        "$zn = x", "$zn++", "$zn = b", "$zn = unknown", "$zt = b", "$zp = nullptr", "this$->zn -= x", "zs$[0] = x",
        "$zn |= x",
        "this->zs$[x]++", "$zp = new Z()", "$z = new Z()", "$y = new Y",
    ]),
    ("E29", "local", VALUE, ["$Z *v = new Z()", "$Y *v = new Y"]),
    ("E29", "call", VALUE, ["z$->zo(x, b)", "$zo(x, b)", "this$->zo(x, b)", "zq[x]$->zo(x, b)"]),
    ("E29", "statement", VALUE, ["$print(x);", "$print(!b);"]),
    ("E30", "statement", MAIN | OPERATION, [
        "$return x;", "$return 0;", "$return (0);", "$return z;", "$return nullptr;",
    ]),
    ("E30", "member", OUTSIDE, [
        "long $u() { }", "long $u() { while (true) return 1; }", "long $u() { { return 1; ; } }",
        "bool $u() { return true; ; }", "long $u() { if (true) return 1; }",
        "long $u() { if (true) return 1; else ; }", "Z *$u() { for (long i; true; i++) return nullptr; }",
        "long $u() { return 1; { } }", "long $u() { if (true) { return 1; } else { if (true) return 1; } }",
    ]),
    ("E31", "expression", BODY, [
        "z$->zs", "z$->zq", "x$[0]", "z->zn$[0]", "z$[x]", "(x + x)$[0]", "z->zv(x, b)$[0]", "z->zs[0]$[0]",
        "(nullptr)$[0]", "(b)$[x]", "(max(x, x))$[0]",
    ]),
    ("E31", "expression", METHOD, [
        "$zs", "this$->zs", "zn$[0]", "zs[0]$[0]", "this$[0]", "$zq", "zs[$zs]", "$zs + 1",
    ]),
    ("E31", "call", METHOD, ["$zq->zo(x, b)", "this$->zq->zo(x, b)", "zp$[0]->zo(x, b)"]),
    ("E32", "expression", MAIN, ["$this", "$this->zn", "$this->zv(x, b)", "($this)->zq[0]"]),
    ("E32", "assignment", MAIN, ["$this->zn = x", "$this->zs[0]++", "z = $this"]),
    ("E32", "call", MAIN, ["$this->zo(x, b)", "z->zo(x, $this)"]),
    ("E33", "member", OUTSIDE, ["long $u[0];", "bool w, $u[0], wide[0];", "Z *w[1], *$u[0];"]),
    ("E54", "member", OUTSIDE, [f"void u({PARAMETERS}, long ${p}) {{ }}" for p in ("q", "p0")]),
    ("E55", "member", OUTSIDE, [f"void u(long p) {{ {MANY_LOCALS} bool ${w}; }}" for w in ("w", "v0", "p")]),
    ("E56", "member", OUTSIDE, [
        "long $u[1000001];", "Z *w, *$u[9223372036854775807];", "long u; bool $u[1000001];",
    ]),
]

HOLE = re.compile(r"<(\w+)(?::(\w+))?>")


def fits(kind, hole):
    return kind in ("any", hole, *ALSO.get(hole, []))


def holders_in(hole, body):
    """The holders for a hole, by the kind of their own."""
    found = {}
    for kind, bodies, texts in HOLDERS:
        for text in texts if body in bodies and fits(kind, hole) else []:
            found.setdefault(HOLE.search(text)[1], []).append(text)
    return list(found.values())


def faults_in(hole, body):
    """The faults for a hole, by code."""
    found = {}
    for code, kind, bodies, texts in FAULTS:
        if body in bodies and fits(kind, hole):
            found.setdefault(code, []).extend(texts)
    return found


def filled(rng, hole, body, within):
    """A text for a hole with one fault, its code and the text that holds the fault."""
    holders = holders_in(hole, body)
    if holders and rng.random() < 0.6:
        holder = rng.choice(rng.choice(holders))
        mark, inner, inner_body = HOLE.search(holder).group(0, 1, 2)
        text, code, within = filled(rng, inner, inner_body or body, holder)
        return holder.replace(mark, text), code, within
    faults = faults_in(hole, body)
    # a fault of an earlier stage hides the others
    code = rng.choices(list(faults), [1 + stage(code) for code in faults])[0]
    return rng.choice(faults[code]), code, within


def possible():
    """All pairs of a code and what can hold it."""
    points = [(hole, "outside") for hole in ("class", "member", "end")] + [("item", body) for body in BODY]
    pairs = {(code, hole) for hole, body in points for code in faults_in(hole, body)}
    for _, bodies, holders in HOLDERS:
        for holder in holders:
            inner, inner_body = HOLE.search(holder).groups()
            pairs |= {(code, holder) for body in bodies for code in faults_in(inner, inner_body or body)}
    return pairs


def place_of(text):
    """The place behind a text; columns count bytes."""
    return text.count("\n") + 1, len(text[text.rfind("\n") + 1 :].encode()) + 1


def stage(code):
    """The stage that refuses: tokens, grammar, names and types."""
    return {"E01": 0, "E02": 0, "E03": 0, "E10": 1, "E11": 1}.get(code, 2)


def refusal(line, column, code):
    """The status and the line of a refusal."""
    word, status = ("limit", 8) if code in LIMITS else ("error", 1)
    return status, f"{word} {line}:{column} {code}\n"


def with_faults(rng, writer, count):
    """The text with one fault or more, and the line, column, code and holder of the one that is due.

    It is of the first stage that refuses, and there at the first place.
    """
    pieces, made = list(writer.text), []
    kinds = rng.choices(["class", "member", "item", "end"], [2, 3, 6, 1], k=count)
    for at, hole, body in sorted({rng.choice([p for p in writer.points if p[1] == kind]) for kind in kinds}):
        text, code, holder = filled(rng, hole, body, hole)
        if hole == "item":
            text = f"{{ {LOCALS} {text} }}"
        pieces[at] = text if hole == "end" else f"{text} {pieces[at]}"
        made.append((code, holder))
    for at in writer.heads:
        pieces[at] += MEMBERS
    front = rng.choice(["", "// é\n", "\n\t/* é\r */"])
    parts = (front + KNOWN + "".join(pieces)).split("$")
    dues = []
    for i, (code, holder) in enumerate(made):
        dues.append((stage(code), *place_of("".join(parts[: i + 1])), code, holder))
    return "".join(parts), *min(dues)[1:]
