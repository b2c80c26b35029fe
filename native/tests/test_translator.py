"""Not proved: what the translator finds in texts: kinds, weights, walks."""

from __future__ import annotations

import pytest
from trials import programs
from trials.harness import emitted

from translator import pairs_of, read
from translator.apart import apart
from translator.kinds import Extent, Kind
from translator.tree import For, Program, within
from translator.walks import walk_of
from translator.weights import ENDLESS, Weights


def tree(members: str, main: str = "") -> Program:
    return read(
        emitted(
            "class A { public: long n, m; bool b; long a[8]; A *next; "
            f"{members} }}; int main() {{ A *x = new A(); {main} }}"
        )
    )


KINDS = {
    "n += v;": Kind.SUM,
    "n = n - v;": Kind.SUM,
    "n = v + n + 3;": Kind.SUM,
    "n = v - n;": Kind.OTHER,
    "n *= v;": Kind.PRODUCT,
    "n = n & v;": Kind.AND,
    "n |= 3;": Kind.OR,
    "n ^= v;": Kind.XOR,
    "n = max(v, n);": Kind.MAX,
    "if (n < v) n = v;": Kind.MAX,
    "if (n >= v) n = v;": Kind.MIN,
    "if (n < v) n = v; else m += 1;": Kind.OTHER,
    "n = min(n, v) + 1;": Kind.OTHER,
    "n = 5;": Kind.PUT,
    "n = next->m;": Kind.PUT,
    "n = n + n;": Kind.OTHER,
    "n += m; m += 1;": Kind.SUM,
    "n = m; m += 1;": Kind.OTHER,
    "n += 1; n *= 2;": Kind.OTHER,
    "n += 1; if (n > 3) m += 1;": Kind.OTHER,
    "if (n == 0) n += v;": Kind.OTHER,
    "a[n] += 1; n += 1;": Kind.OTHER,
}


@pytest.mark.usefixtures("program")
@pytest.mark.parametrize("body", KINDS)
def test_kinds(body: str) -> None:
    found = tree(f"void op(long v) {{ {body} }}")
    extent = Extent(found, [found.classes["A"].methods["op"]])
    assert extent.kinds[("A", "n")] is KINDS[body]
    assert extent.has_lock(found.classes["A"].methods["op"]) == (Kind.OTHER in extent.kinds.values())


@pytest.mark.usefixtures("program")
def test_flag() -> None:
    found = tree("void op() { if (!b) { b = true; n += 1; } }")
    assert Extent(found, [found.classes["A"].methods["op"]]).kinds == {("A", "b"): Kind.ONCE, ("A", "n"): Kind.SUM}


@pytest.mark.usefixtures("program")
def test_flag_that_is_read() -> None:
    """Then it is under the lock, and so is what is put under its condition."""
    found = tree("void op() { if (!b) { b = true; n = 1; } next->other(); } void other() { if (b) m += 1; }")
    kinds = Extent(found, [found.classes["A"].methods["op"]]).kinds
    assert kinds == {("A", "b"): Kind.OTHER, ("A", "n"): Kind.OTHER, ("A", "m"): Kind.SUM}


@pytest.mark.usefixtures("program")
def test_items() -> None:
    found = tree("void op(long i) { a[i % 8] += i; n = 7; }")
    assert Extent(found, [found.classes["A"].methods["op"]]).kinds == {("A", "a"): Kind.SUM, ("A", "n"): Kind.PUT}


@pytest.mark.usefixtures("program")
def test_weights() -> None:
    found = tree("long f() { return n; } long g(long k) { if (k == 0) return 0; return g(k - 1); }")
    methods = found.classes["A"].methods
    weights = Weights(found)
    assert weights.method(methods["f"]) == 3 and weights.method(methods["g"]) == ENDLESS


@pytest.mark.usefixtures("program")
def test_loop_weight() -> None:
    found = tree("void add() { n += 1; }", "for (long i = 2; i < 12; i++) x->add();")
    loop = next(each for each in within(found.main.body) if isinstance(each, For))
    assert 50 < Weights(found).statement(loop, "") < 200


WALKS = {
    "n += v; if (next != nullptr) next->op(v);": True,
    "if (next != nullptr) { next->op(v); }": True,
    "n += v; if (next != nullptr) next->op(v + 1);": False,
    "n += v; v = 3; if (next != nullptr) next->op(v);": False,
    "n += v; if (next != nullptr) next->op(v); else m += 1;": False,
    "if (v > 3) next->op(v); if (next != nullptr) next->op(v);": False,
    "n += v; next->op(v);": False,
}


@pytest.mark.usefixtures("program")
@pytest.mark.parametrize("body", WALKS)
def test_walks(body: str) -> None:
    found = tree(f"void op(long v) {{ {body} }}")
    method = found.classes["A"].methods["op"]
    assert (walk_of(method, Extent(found, [method])) is not None) == WALKS[body]


LOOPS = {
    "for (long i = 0; i < 500; i++) row[i]->compute(by + i);": True,
    "for (long i = 0; i < 500; i++) again[i]->note(by * i);": True,
    "for (long i = 3; i < 497; i++) place(i)->set(i, by);": True,
    "for (long i = 0; i < 500; i++) row[i]->source->note(i);": True,
    "row[i]->compute(2);": True,
    "row[i + 1]->note(i);": False,
    "for (long i = 0; i < 499; i++) row[i]->note(row[i + 1]->steps);": False,
    "row[i]->start(i, row[(i + 1) % 500]);": True,
    "r->row[i]->compute(i);": True,
    "row[i] = new Row();": False,
}


ASKING_LOOPS = {
    "cell[i]->fold(by + i);": True,
    "cell[i]->deepen(by * i);": True,
    "cell[i]->take(by + i);": False,
    "cell[i]->look(by + i);": False,
    "cell[i]->rise(by + i);": True,
    "cell[i]->cut(by + i);": False,
    "cell[by]->fold(by * i);": False,
}


@pytest.mark.usefixtures("program")
@pytest.mark.parametrize(
    "text,source", [*((one, programs.APART) for one in LOOPS), *((one, programs.ASKING) for one in ASKING_LOOPS)]
)
def test_loops_over_different_objects(text: str, source: str) -> None:
    """Only those whose turns have one receiver, and read nothing of others that the loop writes."""
    marked = emitted(source)
    found = read(marked)
    lines = marked.split("\n")
    chosen = [text_of(it, lines) for it in apart(found, pairs_of(marked))]
    assert any(squeezed(text) in each for each in chosen) == {**LOOPS, **ASKING_LOOPS}[text]


def text_of(it: For, lines: list[str]) -> str:
    """The lines of a loop, to the end of its body."""
    end = it.line
    while lines[it.line - 1].endswith("{") and lines[end] != "}":
        end += 1
    return squeezed(
        "".join(lines[it.line - 1 : end + 1] if lines[it.line - 1].endswith("{") else lines[it.line - 1 : it.line])
    )


def squeezed(text: str) -> str:
    return text.replace(" ", "").replace("i++", "i+=1")
