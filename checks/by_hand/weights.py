"""Rows on the limit on weights: nodes, products and levels, at it and past it."""

from by_hand.forms import class_of, k_and_m, pairs, repeated, single

PRODUCT = "*".join(["(c + p)"] * 16)
# The text of an operation `u`, a heavier one that is `Large` only with itself, and one that calls both.
HEAVIER = (
    "extent A::u\nA::u A::u commutes\nextent A::v\nA::v A::v unproved Large\nextent A::w\nA::u A::u commutes\n"
    "A::u A::v commutes\nA::u A::w commutes\nA::v A::v unproved Large\nA::v A::w commutes\nA::w A::w commutes\n"
)


def by_conditions(count):
    """An operation that calls another under so many conditions."""
    return class_of("long n; void k() { } void m(long x) { " + "if (x > 0) " * count + "k(); }")


def two(fields, statement, count, last="", parameter="", argument=""):
    """An operation of a statement so many times, one with it once more, and one that calls both."""
    light, heavy = f"{statement * count}{last}", f"{statement * (count + 1)}{last}"
    return class_of(
        f"{fields} void u({parameter}) {{ {light}}} void v({parameter}) {{ {heavy}}} "
        f"void w() {{ u({argument}); v({argument}); }}"
    )


ROWS = [
    # levels
    pairs("levels of sums", two("long n;", "n++; ", 2047), HEAVIER),
    repeated("2,047 remainders", "long n;", "n = n % 7; ", 2047, "commutes"),
    repeated("2,048 remainders", "long n;", "n = n % 7; ", 2048, "Large"),
    repeated("2,047 times not", "bool n;", "n = !n; ", 2047, "commutes"),
    repeated("2,048 times not", "bool n;", "n = !n; ", 2048, "Large"),
    repeated("2,047 times minus", "long n;", "n = -n; ", 2047, "commutes"),
    repeated("2,047 differences", "long n;", "n = 1 - n; ", 2047, "commutes"),
    repeated("an item of an item, 60 times", "long n; long a[4];", "n = a[n]; ", 60, "commutes"),
    repeated(
        "a value method of a value method, 60 times", "long n;", "n = f(n); ", 60, "commutes",
        "long f(long x) { return x; } ",
    ),
    single(
        "a field of a field, 1,000 times", "A *o; long n;",
        "void m(long p) { A *t = o; " + "t = t->o; " * 1000 + "n += p; }", "commutes",
    ),
    repeated("2,047 sums at an item", "long a[4];", "a[p] += p; ", 2047, "commutes"),
    repeated("2,048 sums at an item", "long a[4];", "a[p] += p; ", 2048, "Large"),
    # nodes
    pairs("nodes of sums", two("long s;", "s = s + s; ", 7), HEAVIER),
    pairs("an item of an array that is put", two("long n; long a[1];", "a[0] = 5; ", 7, "n = a[0]; "), HEAVIER),
    pairs(
        "a heavy operation before a field that differs",
        class_of(
            "long s; void dbl() { " + "s = s + s; " * 20
            + "} void aff(long p) { s = s + s + p; } void w() { dbl(); aff(1); }"
        ),
        """extent A::dbl
A::dbl A::dbl unproved Large
extent A::aff
A::aff A::aff unproved FieldDiffers s
extent A::w
A::dbl A::dbl unproved Large
A::dbl A::aff unproved Large
A::dbl A::w unproved Large
A::aff A::aff unproved FieldDiffers s
A::aff A::w commutes
A::w A::w commutes
""",
    ),
    # products
    single("16 factors", "long r; long c;", f"void m(long p) {{ r = {PRODUCT}; }}", "FieldDiffers r"),
    single("16 factors, and a sum", "long r; long c;", f"void m(long p) {{ r = {PRODUCT} + 1; }}", "Large"),
    single(
        "16 factors and a sum, overwritten", "long r; long c;",
        f"void m(long p) {{ r = {PRODUCT} + 1; r = 0; }}", "Large",
    ),
    single(
        "16 factors and a sum in a local", "long r; long c;",
        f"void m(long p) {{ long t = {PRODUCT} + 1; }}", "Large",
    ),
    single("16 factors in a local", "long r; long c;", f"void m(long p) {{ long t = {PRODUCT}; }}", "commutes"),
    single("a quotient of 16 factors", "long r; long c;", f"void m(long p) {{ long t = ({PRODUCT}) / 2; }}", "Large"),
    # conditions round a call are multiplied
    pairs("15 conditions round a call", by_conditions(15), k_and_m("commutes")),
    pairs("16 conditions round a call", by_conditions(16), k_and_m("Large")),
    # choices
    single(
        "7 times a value behind else", "long n; long c;",
        "void m(bool q) { " + "if (c == 0) ; else n = 1; " * 7 + "}", "commutes",
    ),
    single(
        "8 times a value behind else", "long n; long c;",
        "void m(bool q) { " + "if (c == 0) ; else n = 1; " * 8 + "}", "Large",
    ),
    single(
        "4 times a value under a condition", "long n; long c;", "void m(bool q) { " + "if (c == 0) n = 1; " * 4 + "}",
        "commutes",
    ),
    single(
        "5 times a value under a condition", "long n; long c;", "void m(bool q) { " + "if (c == 0) n = 1; " * 5 + "}",
        "Large",
    ),
    # operators of truth values
    pairs("truth values with `||`", two("bool b;", "b = b || q; ", 7, parameter="bool q", argument="true"), HEAVIER),
    pairs(
        "truth values with `==`", two("bool b;", "b = b == q; ", 7, parameter="bool q", argument="true"),
        HEAVIER.replace("A::u A::v commutes", "A::u A::v unproved Large"),
    ),
    single(
        "10 comparisons with `||`, from the right", "long n; long c;",
        "void m(long p) { bool t = " + " || (".join(["p > 0"] * 10) + ")" * 9 + "; n += p; }", "commutes",
    ),
    single(
        "11 comparisons with `||`, from the right", "long n; long c;",
        "void m(long p) { bool t = " + " || (".join(["p > 0"] * 11) + ")" * 10 + "; n += p; }", "Large",
    ),
    single(
        "10 comparisons with `||`, from the left", "long n; long c;",
        "void m(long p) { bool t = " + " || ".join(["p > 0"] * 10) + "; n += p; }", "commutes",
    ),
    single(
        "11 comparisons with `||`, from the left", "long n; long c;",
        "void m(long p) { bool t = " + " || ".join(["p > 0"] * 11) + "; n += p; }", "Large",
    ),
    single(
        "16 comparisons with `&&`", "long n; long c;",
        "void m(long p) { bool t = " + " && ".join(["p > 0"] * 16) + "; n += p; }", "commutes",
    ),
    single(
        "17 comparisons with `&&`", "long n; long c;",
        "void m(long p) { bool t = " + " && ".join(["p > 0"] * 17) + "; n += p; }", "Large",
    ),
]
