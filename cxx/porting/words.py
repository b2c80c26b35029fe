"""Not proved (README.md). Names in the ported text: the user's own where the language has room for them."""

import re

KEYS = set(
    "class public long bool int void if else while for return new nullptr this true false print main max min".split()
)
OPERATORS = {
    "+": "plus", "-": "minus", "*": "times", "/": "over", "%": "modulo", "==": "equals", "!=": "differs", "<": "less",
    ">": "greater", "<=": "at_most", ">=": "at_least", "[]": "item", "()": "call", "=": "assign", "+=": "add",
    "-=": "subtract", "*=": "multiply", "/=": "divide", "%=": "reduce", "<<": "shift_left", ">>": "shift_right",
    "++": "increment", "--": "decrement", "!": "negate", "->": "arrow", "&": "bits_and", "|": "bits_or",
    "^": "bits_xor", "~": "flip", "&=": "keep_bits", "|=": "set_bits", "^=": "toggle_bits", "<<=": "raise",
    ">>=": "lower", "&&": "both", "||": "either",
}  # fmt: skip


def spelled(name: str) -> str:
    """A name that the language takes, as near to the user's as may be."""
    if name.startswith("operator"):
        sign = name[len("operator") :].strip()
        name = OPERATORS.get(sign, "to_" + sign)
    name = re.sub(r"\W+", "_", name).strip() or "unnamed"
    return name + "_" if name in KEYS else name


def unique(name: str, used: set[str]) -> str:
    """The name, with a number behind it where it is used already; it is used from now on."""
    name = spelled(name)
    made, count = name, 2
    while made in used:
        made, count = f"{name}_{count}", count + 1
    used.add(made)
    return made
