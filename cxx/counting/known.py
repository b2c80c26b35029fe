"""Not proved (../README.md). The list of phases that are known to be parallel, and of the lines that make the data."""

import re
from dataclasses import dataclass
from pathlib import Path

TESTS = Path(__file__).resolve().parent.parent / "tests"
PHASE = re.compile(r"\((\d+)[:)]")


@dataclass(frozen=True)
class Known:
    """A program: the lines of the loops and functions that are its phases, and the lines of main that make its data."""

    name: str
    phases: tuple[int, ...]
    setup: frozenset[int]

    @property
    def source(self) -> Path:
        return TESTS / "programs" / f"{self.name}.cc"


def _lines(cell: str) -> frozenset[int]:
    """The lines of `51-58, 60`."""
    found: set[int] = set()
    for part in filter(None, (one.strip() for one in cell.split(","))):
        first, _, last = part.partition("-")
        found |= set(range(int(first), int(last or first) + 1))
    return frozenset(found)


def programs(table: int = 0, page: Path = TESTS / "phases.md") -> list[Known]:
    """The programs of a table of the page: the twenty, those that were written later (1), those after these (2). The count that it tells of
    each is checked."""
    found = []
    tables = page.read_text(encoding="utf-8").split("\n## ")
    for line in tables[table].splitlines():
        cells = [one.strip() for one in line.strip("|").split("|")]
        if len(cells) != 5 or not cells[2].isdigit() or not cells[0]:
            continue
        phases = tuple(int(one) for one in PHASE.findall(cells[1]))
        if len(phases) != int(cells[2]):
            raise ValueError(f"{page.name}: {cells[0]} has {len(phases)} lines of phases, and tells {cells[2]}")
        found.append(Known(cells[0], phases, _lines(cells[3])))
    return found
