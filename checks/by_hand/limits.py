"""Rows on the limits on names and loops: at each, past it, and beside other codes."""

from by_hand.forms import EMPTY, class_of, main_of, many, ok, refused_at

CLASSES = many("class C# { public: };", 256)
NAMES = "long " + many("f#", 256, ",")
PARAMETERS = many("long p#", 32, ",")
OPERATIONS = many("void m#() { } ", 256)
VALUES = many("long m#() { return 1; } ", 256)
LOCALS = many("{ long x#; }", 256)
LOOP = "for (i = 0; false; i++) ;"
# 256 operations in two classes, with value methods among them.
TWO_CLASSES = (
    "class A { public: " + many("void m#() { } ", 200) + "};class B { public: "
    + many("void m#() { } long f#() { return 1; }", 56)
)


def class_before_main(members):
    """A class A, and a `main` in its line."""
    return f"class A {{ public: {members}}};int main() {{ }}"


ROWS = [
    # classes
    ok("256 classes", CLASSES + EMPTY),
    refused_at("257 classes", CLASSES + "class @C256 { public: };" + EMPTY, "E50"),
    refused_at("a 257th class that has the name of the first", CLASSES + "class @C0 { public: };" + EMPTY, "E50"),
    refused_at("a 257th class with an unknown type in it", CLASSES + "class @C256 { public: Z *z; };" + EMPTY, "E50"),
    # fields
    ok("256 fields", class_of("long " + many("f#", 255, ",") + "; bool b[3];")),
    refused_at("257 fields", class_of(NAMES + "; void m() { } bool @b[3];"), "E51"),
    refused_at("a 257th field of unknown type", class_before_main(NAMES + "; @Z *b; "), "E21"),
    refused_at("a 257th field of length 0", class_of(NAMES + "; bool @b[0];"), "E51"),
    refused_at("a 257th field that is too long", class_of(NAMES + "; bool @b[1000001];"), "E51"),
    refused_at("a 257th field that has the name of the first", class_of(NAMES + "; bool @f0;"), "E51"),
    # operations
    ok("256 operations in two classes", TWO_CLASSES + "};" + EMPTY),
    refused_at(
        "257 operations in two classes",
        TWO_CLASSES + " long x() { return 1; } void @y() { } void z() { } };" + EMPTY, "E52",
    ),
    refused_at(
        "a 257th operation with an unknown name in it",
        class_before_main(OPERATIONS + " void @y() { zz = 1; } "), "E52",
    ),
    refused_at(
        "a 257th operation with a parameter of unknown type",
        class_before_main(OPERATIONS + " void @y(Z *p) { } "), "E52",
    ),
    # value methods
    ok("256 value methods", class_before_main(VALUES + " void x() { } ")),
    refused_at("257 value methods", class_before_main(VALUES + " void x() { } bool @y() { return true; } "), "E53"),
    refused_at(
        "257 value methods before 257 operations",
        class_before_main(
            many("void m#() { } long f#() { return 1; } ", 256) + " long @g() { return 1; } void y() { } "
        ), "E53",
    ),
    refused_at("a 257th value method that doesn't return", class_before_main(VALUES + " bool @y() { } "), "E53"),
    refused_at(
        "a 257th value method with an unknown name in it",
        class_before_main(VALUES + " bool @y() { zz = 1; } "), "E53",
    ),
    refused_at(
        "a 257th value method of unknown type",
        class_before_main(VALUES + " @Z *y() { return nullptr; } "), "E21",
    ),
    # parameters
    ok("32 parameters", class_of(f"void f({PARAMETERS}) {{ }}")),
    refused_at("33 parameters", class_of(f"void f({PARAMETERS}, bool @q, long r) {{ }}"), "E54"),
    refused_at(
        "33 parameters before an unknown name", class_of(f"void f({PARAMETERS}, bool @q) {{ zz = 1; }}"), "E54",
    ),
    refused_at(
        "a 33rd parameter that has the name of the first", class_of(f"void f({PARAMETERS}, bool @p0) {{ }}"), "E54",
    ),
    refused_at(
        "33 parameters of a second member of a name",
        class_before_main(f"long f; void f({PARAMETERS}, bool @q) {{ }} "), "E54",
    ),
    # locals
    ok("256 locals", main_of(many("{ long x#; }", 255) + "for (long i; false; i++) ;")),
    refused_at("257 locals", main_of(many("{ long x#; }", 255) + "for (long i; false; i++) ; long @z;"), "E55"),
    refused_at(
        "257 locals and parameters",
        class_of("void f(long a, long b) { " + "{ long x; }" * 254 + " if (true) { bool @z; } }"), "E55",
    ),
    refused_at("a 257th local with an unknown name", main_of(LOCALS + " long @z = zz;"), "E55"),
    refused_at(
        "a 257th local that has the name of another", main_of(many("{ long x#; }", 255) + " long z; bool @z;"), "E55",
    ),
    refused_at(
        "a 257th local of a value method that doesn't return",
        class_before_main("long f() { " + "{ long x; }" * 256 + " bool @z; } "), "E55",
    ),
    refused_at(
        "a 257th local of a value method, with new",
        class_before_main("long f() { " + "{ long x; }" * 256 + " A *@z = new A(); return 1; } "), "E55",
    ),
    # lengths of arrays
    ok("an array of 1,000,000 values", class_of("long a[1000000];")),
    refused_at("an array of 1,000,001 values", class_of("long @a[1000001];"), "E56"),
    refused_at("an array of the greatest length", class_of("long @a[9223372036854775807];"), "E56"),
    refused_at("a second field of a name with length 0", class_of("long a; bool @a[0];"), "E22"),
    refused_at("a second field of a name that is too long", class_of("long a; bool @a[1000001];"), "E56"),
    refused_at(
        "a long array in a second class of a name",
        "class A { public: };\nclass A { public: long @a[1000001]; };\nint main() { }", "E56",
    ),
    # loops
    ok(
        "256 loops",
        "class A { public: void f() { " + "for (long i; false; i++) ;" * 200 + " } };int main() { long i; "
        + LOOP * 56 + " }",
    ),
    refused_at(
        "257 loops",
        "class A { public: void f() { " + "for (long i; false; i++) ;" * 200 + " } };int main() { long i; "
        + LOOP * 56 + f" @{LOOP} }}", "E57",
    ),
    refused_at(
        "a 257th loop with an unknown name in it",
        main_of(f"long i; {LOOP * 256} @for (i = 0; false; i++) zz = 1;"), "E57",
    ),
    refused_at(
        "a 257th loop in a value method that doesn't return",
        class_before_main(f"long f() {{ long i; {LOOP * 256} @{LOOP} }} "), "E57",
    ),
]
