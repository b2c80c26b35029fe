# Not proved (../README.md).
"""The rewrites: alone and in pairs, that a wrong one is caught, and what is left alone."""

from pathlib import Path

import pytest
from porting import finishing, form
from porting.capacities import fitted
from porting.port import Ported, Porter
from porting.places import NOWHERE
from porting.shaping import accumulators, actions, search, turn, values
from porting.shaping.building import Shape
from porting.shaping.duplicates import duplicate
from porting.shaping.shaped import same

HERE = Path(__file__).resolve().parent


def shape_of(name: str) -> tuple[Porter, Ported, object, Shape]:
    porter = Porter([str(HERE / "programs" / f"{name}.cc")], [])
    plain, answer = fitted(porter)
    program, _ = porter.lowered(porter.capacities)
    finishing.begin(program)
    return porter, plain, answer, Shape(program)


def test_the_same_text_gives_the_same_result() -> None:
    porter, _, _, _ = shape_of("classic_bank")
    texts = []
    for _ in range(2):
        program, _ = porter.lowered(porter.capacities)
        texts.append(str(search.finished(search.searched(program))[1]))
    assert texts[0] == texts[1]


def ported_as(porter: Porter, plain: Ported, shape: Shape) -> Ported:
    done, text, stops = search.finished(shape)
    return Ported(porter.files, done.program, text, plain.sites, stops)


def loop_at(shape: Shape, line: int) -> tuple[form.Method, list[form.Statement], form.Count]:
    for method, block, loop in search.sites(shape):
        if loop.place.line == line and isinstance(loop, form.Count):
            return method, block, loop
    raise AssertionError(line)


def test_a_loop_whose_turns_hand_on_a_local_of_a_recursion_is_left() -> None:
    porter, _, _, shape = shape_of("queens")
    recursion = next(one for one in shape.program.methods() if one.name == "place")
    loop = next(one for one in form.statements(recursion.body) if isinstance(one, form.Count))
    local = form.Local("carried", form.LONG)
    recursion.body.insert(0, form.Let(local, form.Number(0), loop.place))
    loop.body.append(form.Put(local, "+", form.Number(1), loop.place))
    block = next(b for b in blocks_of(recursion.body) if any(one is loop for one in b))
    assert turn.turn(shape, recursion, block, loop, False, False) is None


def blocks_of(body: list[form.Statement]) -> list[list[form.Statement]]:
    return [body] + [inner for one in body for block in form.blocks(one) for inner in blocks_of(block)]


def test_a_loop_that_writes_another_object_is_no_value_method() -> None:
    _, _, _, shape = shape_of("classic_life")
    _, _, loop = loop_at(shape, 27)
    assert not values.may_be(loop)


X, P = form.Local("x", form.LONG), form.Local("p", form.LONG)
MORE = form.Binary(">", P, X, form.BOOL)


@pytest.mark.parametrize(
    "body, gathers",
    [
        ([form.Put(X, "+", P, NOWHERE), form.Put(X, "-", form.Number(1), NOWHERE)], True),
        ([form.Put(X, "", form.Binary("max", X, P, form.LONG), NOWHERE)], True),
        ([form.If(MORE, [form.Put(X, "", P, NOWHERE)], [], NOWHERE)], True),
        ([form.If(form.Binary("<", P, form.Number(3), form.BOOL), [form.Put(X, "", form.Number(1), NOWHERE)], [], NOWHERE)], True),
        ([form.Put(X, "", P, NOWHERE)], False),
        ([form.Put(X, "+", P, NOWHERE), form.Put(X, "*", form.Number(2), NOWHERE)], False),
        ([form.Put(X, "+", form.Binary("*", P, X, form.LONG), NOWHERE)], False),
        ([form.If(MORE, [form.Put(X, "", P, NOWHERE)], [], NOWHERE), form.Put(X, "", P, NOWHERE)], False),
        ([form.Put(X, "+", P, NOWHERE), form.Put(P, "", X, NOWHERE)], False),
    ],
)  # fmt: skip
def test_what_only_gathers(body: list[form.Statement], gathers: bool) -> None:
    assert accumulators.gathers(body, X) == gathers


# Objects that are one and the same where the text has two names: what gives an operation its form leaves what is written.
ALIASED = {
    "a loop reads the field that it adds to of another object": """
struct Item { long v = 1; Item *near[2], *next; void work(Item *, long) { for (int i = 0; i < 2; i++) v += near[i]->v; } };
""",
    "the member that names an object is written through it": """
struct Item {
  long v = 0;
  Item *near[2], *next;
  void work(Item *q, long x) { next->next = q; next->v += x; if (next->v > 3) next->v -= 2; }
};
""",
    "a condition that holds without a look at the object": """
struct Item {
  long v = 0, w = 0;
  Item *near[2], *next;
  void work(Item *q, long x) { if (x > 1 || q->v > 5) { if (q) { v += q->w; w = 1; } } }
};
""",
}
MAIN = """
int main() {
  Item *a = new Item, *b = new Item;
  a->near[0] = a; a->near[1] = b; b->near[0] = b; b->near[1] = a;
  a->next = a; b->next = b;
  a->work(FIRST, 4);
  b->work(a, 1);
  printf("%ld %ld\\n", a->v, b->v);
}
"""


@pytest.mark.parametrize("words", sorted(ALIASED))
def test_two_names_of_one_object(words: str, tmp_path: Path) -> None:
    source = tmp_path / "aliased.cc"
    main = MAIN.replace("FIRST", "nullptr" if "condition" in words else "b")
    source.write_text("#include <cstdio>\n" + ALIASED[words] + main, encoding="utf-8")
    porter = Porter([str(source)], [])
    plain, answer = fitted(porter)
    program, _ = porter.lowered(porter.capacities)
    finishing.begin(program)
    shape = Shape(program)
    actions.tidy(shape, next(one for one in program.methods() if one.name == "work"))
    assert answer.status == 0
    assert same(plain, answer, ported_as(porter, plain, shape))
