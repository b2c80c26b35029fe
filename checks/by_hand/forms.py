"""The forms of the rows of `checks/answers`.

A row has a label, the words of a command, the bytes of standard input, and the status and the bytes that answer them.
"""

from collections import namedtuple

Row = namedtuple("Row", "label words source status output")

RUN = "run 1 1000"
EMPTY = "int main() { }"
TRAPPED, SPENT = 3, 4
# The fields beside an operation `k`, and that operation.
FIELDS = "long n; long c; A *o; long a[4]; long q[4]; bool b;"
OPERATION = "void k(long x) { n += x; }"


def encoded(text):
    """The bytes of a text, a letter each."""
    return text.encode("latin-1") if isinstance(text, str) else text


def row(label, words, source, status, output):
    """A command with its status and bytes. Words in one text stand between spaces, a letter of a source is a byte."""
    listed = words.split() if isinstance(words, str) else words
    return Row(label, listed, encoded(source), status, encoded(output))


def ok(label, source, output="", words=RUN):
    """A command that is done."""
    return row(label, words, source, 0, output)


def refused(label, source, place, code, words=RUN):
    """A source that breaks a rule, or passes a limit, at a place."""
    is_limit = code in ("E03", "E04", "E11") or code >= "E50"
    return row(label, words, source, 8 if is_limit else 1, f"{'limit' if is_limit else 'error'} {place} {code}\n")


def refused_at(label, marked, code):
    """The same, with `@` before the place."""
    source, line, column = unmarked(marked)
    return refused(label, source, f"{line}:{column}", code)


def trapped(label, marked, kind, prints="", words=RUN):
    """A run that traps in the line of `@`."""
    source, line, _ = unmarked(marked)
    return row(label, words, source, TRAPPED, f"{prints}trap {line} {kind}\n")


def spent(label, source, budget, prints="", workers=1):
    """A run that needs more steps than its budget."""
    return row(label, f"run {workers} {budget}", source, SPENT, f"{prints}spent {budget}\n")


def unmarked(marked):
    """The text without its `@`, and the line and column of what stood behind it."""
    front, back = marked.split("@", 1)
    return front + back, front.count("\n") + 1, len(front) - front.rfind("\n")


def main_of(body):
    """A `main` with this body, which begins in column 14."""
    return f"int main() {{ {body} }}"


def class_of(members):
    """A class A from the first line on, and a `main` that does nothing."""
    return f"class A {{ public: {members} }};\nint main() {{ }}"


def class_and_main(members, body):
    """A class A with members from line 3 on, and a `main`, each of whole lines."""
    return f"class A {{\npublic:\n{members}}};\nint main() {{\n{body}}}\n"


def many(part, count, between=""):
    """A part so many times, with its number, from 0, for `#`."""
    return between.join(part.replace("#", str(number)) for number in range(count))


def pairs(label, source, text):
    """What `pairs` writes of a source."""
    return row(label, "pairs", source, 0, text)


def told(verdict):
    """A verdict as `pairs` writes it."""
    return verdict if verdict == "commutes" else f"unproved {verdict}"


def offence(line, cause):
    """The reason of a pair with an operation `m` of A that has an offence in this line."""
    return f"NotSeparable A::m {line} {cause}"


def k_and_m(verdict, alone=None, loops=()):
    """The text of `pairs` where `m` calls `k`, which commutes with itself: the verdict of both, that of `m` with
    itself if it is another, and the lines of call loops over `k`."""
    return (
        "extent A::k\nA::k A::k commutes\nextent A::m\nA::k A::k commutes\n"
        f"A::k A::m {told(verdict)}\nA::m A::m {told(alone or verdict)}\n"
        + "".join(f"loop {line}\nA::k A::k commutes\n" for line in loops)
    )


def beside_k(members):
    """Members from line 3 on, with the fields in line 1 and `k` in line 2."""
    return class_of(f"{FIELDS}\n{OPERATION}\n{members}")


def caller(label, members, verdict, alone=None, loops=()):
    """An operation `m` that calls `k`."""
    return pairs(label, beside_k(members), k_and_m(verdict, alone, loops))


def lone(label, members, verdict):
    """An operation `m` that doesn't call `k`."""
    return pairs(
        label, beside_k(members), f"extent A::k\nA::k A::k commutes\nextent A::m\nA::m A::m {told(verdict)}\n"
    )


def single(label, fields, members, verdict):
    """An operation `m` that is the only one."""
    return pairs(label, class_of(f"{fields} {members}"), f"extent A::m\nA::m A::m {told(verdict)}\n")


def repeated(label, fields, statement, count, verdict, members=""):
    """A body that is one statement so many times."""
    return single(label, fields, f"{members}void m(long p) {{ {statement * count}}}", verdict)


def doubled(label, fields, body, verdict, alone="commutes"):
    """The verdict of an operation `m` and one that doubles `n`: they commute only where `m` is seen to leave `n`, or
    to multiply it. The verdict of `m` with itself is the other."""
    members = f"long n; {fields} void d() {{ n *= 2; }} void m(long p) {{ {body} }} void w() {{ d(); m(1); }}"
    return pairs(label, class_of(members), (
        f"extent A::d\nA::d A::d commutes\nextent A::m\nA::m A::m {told(alone)}\nextent A::w\nA::d A::d commutes\n"
        f"A::d A::m {told(verdict)}\nA::d A::w commutes\nA::m A::m {told(alone)}\nA::m A::w commutes\n"
        "A::w A::w commutes\n"
    ))
