# Not proved (../README.md).
"""What the search finds of `phases.md`: as many phases as are asked for, and that prints stay; the count of steps by hand on a small program."""

from pathlib import Path

import pytest
from counting import known
from counting.steps import counted
from counting.table import Row, differing, row
from porting.capacities import fitted
from porting.port import Porter

# The phases that aren't found: results that come back up (bh, classic_power), one board (queens), objects made (classic_wordcount).
LOST = {"bh": [76], "queens": [33], "classic_power": [65, 26], "classic_wordcount": [31]}
# The least share of the kernel's steps that run marked.
SHARES = {
    "bh": 0.92, "em3d": 0.97, "graph": 0.41, "histogram": 0.99, "queens": 0.61, "shapes": 0.69, "treeadd": 0.99, "water": 0.96,
    "classic_bank": 0.55, "classic_em3d": 0.99, "classic_histogram": 0.99, "classic_life": 0.99, "classic_marksweep": 0.31,
    "classic_mst": 0.79, "classic_nbody": 0.99, "classic_pagerank": 0.81, "classic_power": 0.0, "classic_reach": 0.0,
    "classic_treeadd": 0.99, "classic_wordcount": 0.0,
}  # fmt: skip


def test_the_list_and_the_least_that_is_found() -> None:
    every = known.programs()
    assert len(every) == 20 and {one.name for one in every} == set(SHARES)
    assert sum(len(one.phases) for one in every) - sum(map(len, LOST.values())) >= 24
    assert sum(SHARES.values()) / 20 >= 0.6


@pytest.mark.parametrize("program", known.programs(), ids=[one.name for one in known.programs()])
def test_phases_are_found_and_prints_stay(program: known.Known) -> None:
    got: Row = row(program)
    assert set(got.lost) <= set(LOST.get(program.name, []))
    assert got.share >= SHARES[program.name]
    assert differing(program, got.rewritten, (1,)) == []


def test_steps_are_counted_as_the_language_counts(tmp_path: Path) -> None:
    """Three turns with a call each in the kernel; what makes the data isn't counted."""
    source = tmp_path / "small.cc"
    source.write_text(
        "#include <cstdio>\nstruct A { long n = 0; void add(long x) { n += x; } };\nint main() {\n  A *a = new A;\n"
        '  for (int i = 0; i < 5; i++) a->add(i);\n  for (int i = 0; i < 3; i++) a->add(i);\n  printf("%ld\\n", a->n);\n}\n'
    )
    plain, _ = fitted(Porter([str(source)], []))
    steps = counted(plain.program, set(), set(), frozenset({4, 5}))
    # (the method of main is a call itself)
    assert (steps.unmarked, steps.marked) == (1 + 2 * 3, 0)
