# Not proved (../README.md).
"""Each rewrite alone, in pairs, and made wrong on purpose: the check of the runs lets the right ones through, and no wrong one."""

from collections import Counter
from pathlib import Path
from random import Random

import pytest
from porting import finishing, form
from porting.capacities import fitted
from porting.engine import Answer
from porting.port import Ported, Porter
from porting.shaping import (
    aliases,
    asked,
    extremes,
    gather,
    given,
    group,
    guard,
    handed,
    inline,
    opaque,
    order,
    owned,
    owner,
    receiver,
    roles,
    search,
    seek,
    shaped,
    structs,
    sums,
    turn,
    values,
    walk,
    zeros,
)
from porting.shaping.building import Shape
from porting.shaping.duplicates import duplicate

HERE = Path(__file__).resolve().parent
NAMES = {
    aliases.NAME, asked.NAME, extremes.NAME, gather.NAME, given.NAME, group.NAME, guard.NAME, handed.NAME, inline.NAME, opaque.NAME, order.NAME,
    owned.NAME, owner.NAME, receiver.NAME, roles.NAME, seek.NAME, structs.NAME, sums.NAME, turn.NAME, turn.OUTSIDE, turn.SHARED, values.LOOP, values.DIVISION,
    values.SECTION, values.SHARED, walk.NAME, walk.REST, zeros.NAME,
}  # fmt: skip
PAIRS = 60


class Program:
    """A program of the tests: its plain port, and its form, which rewrites change."""

    def __init__(self, name: str, with_roles: bool = False) -> None:
        self.porter = Porter([str(HERE / "programs" / f"{name}.cc")], [])
        self.plain, self.answer = self.fitted()
        program, _ = self.porter.lowered(self.porter.capacities)
        self.shape = Shape(program)
        if with_roles:
            self.shape = structs.flattened(self.shape) or self.shape
            self.shape = roles.split(self.shape) or self.shape
        finishing.begin(self.shape.program)
        for one in self.shape.program.methods():
            owned.all_of(self.shape, one)

    def fitted(self) -> tuple[Ported, Answer]:
        return fitted(self.porter)

    def same(self, shape: Shape) -> bool:
        """Whether the run of the rewritten form stands for what the plain one's does."""
        done, text, stops = search.finished(shape)
        made = Ported(self.porter.files, done.program, text, self.plain.sites, stops)
        return shaped.same(self.plain, self.answer, made)


@pytest.fixture(scope="module", name="program")
def of_rewrites() -> Program:
    return Program("rewrites", with_roles=True)


def test_each_rewrite_alone_keeps_what_is_written(program: Program) -> None:
    """And each has something to do there."""
    done: Counter[str] = Counter(program.shape.done)
    for name, change in search.trials(program.shape).items():
        trial = duplicate(program.shape)
        if change(trial):
            assert program.same(trial), name
            done.update(trial.done)
    assert NAMES - set(done) == set()


def test_pairs_of_rewrites_keep_what_is_written(program: Program) -> None:
    random, tried = Random(7), 0
    names = list(search.trials(program.shape))
    while tried < PAIRS:
        first, second = random.sample(names, 2)
        trial = duplicate(program.shape)
        if search.trials(trial)[first](trial):
            change = search.trials(trial).get(second)
            if change is not None and change(trial):
                assert program.same(trial), f"{first}; {second}"
                tried += 1


def test_the_page_shows_each_rewrite() -> None:
    page = (HERE.parent.parent / "docs" / "guide" / "rewrites.md").read_text(encoding="utf-8")
    shown = {line[4:].lower() for line in page.splitlines() if line.startswith("### ")}
    assert {name.lower() for name in NAMES} == shown


# Wrong ones -----------------------------------------------------------------------------------------------------------


def loop_at(shape: Shape, line: int) -> tuple[form.Method, list[form.Statement], form.Count]:
    for method, block, loop in search.sites(shape):
        if loop.place.line == line and isinstance(loop, form.Count):
            return method, block, loop
    raise AssertionError(line)


def named(shape: Shape, name: str) -> form.Method:
    return next(one for one in shape.program.methods() if one.name == name)


def test_a_null_test_that_is_dropped_is_caught(monkeypatch: pytest.MonkeyPatch) -> None:
    """A function that asks whether its object is null becomes an operation, and callers don't ask."""
    program = Program("classic_marksweep")
    right = duplicate(program.shape)
    assert receiver.moved(right, named(right, "mark")) is not None
    assert program.same(right)
    found = receiver.parameter

    def without(method: form.Method) -> tuple[form.Local, bool] | None:
        it = found(method)
        return None if it is None else (it[0], False)

    monkeypatch.setattr(receiver, "parameter", without)
    wrong = duplicate(program.shape)
    assert receiver.moved(wrong, named(wrong, "mark")) is not None
    assert not program.same(wrong)


def test_a_condition_that_is_moved_past_a_write_is_caught(monkeypatch: pytest.MonkeyPatch) -> None:
    """What an operation does to its own object goes before its calls, also where these write what it asks for."""
    program = Program("rewrites")

    def ordered() -> Shape:
        shape = duplicate(program.shape)
        order.own_first(shape, named(shape, "settle"))
        return shape

    assert program.same(ordered())
    monkeypatch.setattr(order, "_bound", lambda first, second: False)
    assert not program.same(ordered())


def test_a_shared_argument_that_is_none_is_caught(monkeypatch: pytest.MonkeyPatch) -> None:
    """What differs from turn to turn goes into a field before the loop."""
    program = Program("classic_bank")
    right = duplicate(program.shape)
    assert turn.turn(right, *loop_at(right, 22), False, True) is not None
    assert program.same(right)
    wrong = duplicate(program.shape)
    method, block, loop = loop_at(wrong, 22)
    made = turn.turn(wrong, method, block, loop, False, False)
    call = loop.body[0]
    assert made is not None and isinstance(call, form.Do)
    # (the counter is what differs; the field has its first value)
    field = turn.to_field(wrong, made, made.parameters[call.arguments.index(loop.counter)])
    block.insert(block.index(loop), form.Put(field, "", loop.first, loop.place))
    at = call.arguments.index(loop.counter)
    del call.arguments[at], made.parameters[at]
    assert not program.same(wrong)


def test_a_guard_that_is_dropped_is_caught() -> None:
    program = Program("classic_reach")
    assert turn.turn(program.shape, *loop_at(program.shape, 21), False, False) is not None
    assert program.same(program.shape)
    made = next(one for one in program.shape.program.methods() if one.origin.startswith("a turn of the loop at 21"))
    at = next(k for k, one in enumerate(made.body) if isinstance(one, form.If))
    guard_ = made.body[at]
    assert isinstance(guard_, form.If)
    made.body[at : at + 1] = guard_.yes
    assert not program.same(program.shape)


def test_classes_in_one_role_that_are_split_are_caught() -> None:
    """A read of the other list goes to the own one."""
    program = Program("em3d", with_roles=True)
    assert program.same(program.shape)
    cls = program.shape.program.classes["Node_2"]
    put = next(one for one in form.statements(named(program.shape, "compute").body) if isinstance(one, form.Put))
    this = form.This(form.Pointer(cls.name))
    own = form.Field(this, "value", form.LONG)
    put.value = form.mapped(
        put.value, lambda part: own if isinstance(part, form.Field) and part.name == "value" else None
    )
    assert not program.same(program.shape)


def test_a_wrong_port_is_left_out_and_told(monkeypatch: pytest.MonkeyPatch, capsys: pytest.CaptureFixture[str]) -> None:
    program = Program("classic_reach")
    found = search.searched

    def wrong(given: form.Program) -> Shape:
        shape = found(given)
        made = next(one for one in shape.program.methods() if one.origin.startswith("a turn of the loop at 21"))
        made.body.clear()
        return shape

    monkeypatch.setattr(shaped, "searched", wrong)
    assert shaped.shaped(program.porter, program.plain, program.answer) is program.plain
    assert "is left out" in capsys.readouterr().err
