"""The programs of marks/, written so that nothing is marked, and without their marked line."""

import os
import sys

FOLDER = os.path.join(os.path.dirname(os.path.abspath(__file__)), "marks")
# The calls of each program, as it is and written so that nothing is marked: an update behind a call, or a loop whose
# bound is another comparison. It does as much.
UNMARKED = {
    "heavy": [("i < 1000; i++) at[i]->work", "i <= 999; i++) at[i]->work")],
    "graph": [("    sum = sum + p;\n", ""), ("      c->visit(value);\n    }\n", "      c->visit(value);\n    }\n    sum = sum + p;\n")],
    "sums": [("i < 1000; i++) c->at[i]->add", "i <= 999; i++) c->at[i]->add")],
    "chain": [("    n = n + d;\n", ""), ("next->walk(d + 1);\n", "next->walk(d + 1);\n    n = n + d;\n")],
    "one": [("i < 1; i++", "i <= 0; i++")],
    "few": [("    n = n + v;\n    next->add(v + 1);\n", "    next->add(v + 1);\n    n = n + v;\n")],
    "many_sums": [("i < 1000; i++) at[i]->add", "i <= 999; i++) at[i]->add")],
    "tree": [("    a = a + v;\n    b = b + v * 2;\n", ""), ("right->walk(v + 2);\n", "right->walk(v + 2);\n    a = a + v;\n    b = b + v * 2;\n")],
    "one_sum": [("i < 40000", "i <= 39999")],
    "some_sums": [("i < 1000; i++) c->add", "i <= 999; i++) c->add")],
    "thirty": [("i < 30; i++) c->at[i]->add", "i <= 29; i++) c->at[i]->add")],
    "two_calls": [("i < 2; i++", "i <= 1; i++")],
}


def unmarked(name, text):
    for old, new in UNMARKED[name]:
        if text.count(old) != 1:
            sys.exit(f"{name}: {old!r} isn't there once")
        text = text.replace(old, new)
    return text


def started(text):
    """The program without its marked line."""
    return "".join(line for line in text.splitlines(True) if not line.endswith("// marked\n"))


def read(name):
    with open(os.path.join(FOLDER, name + ".cc"), encoding="utf-8") as lines:
        return lines.read()
