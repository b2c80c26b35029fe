"""Not proved (../README.md). How long the arrays behind vectors and `new T[n]` become, found by a run in which they
grow.

The run writes what the user's program writes, so it is the first check of the port, too.
"""

import os
import re

from porting.lowering.shapes import GREATEST_CAPACITY
from porting.port import Ported

from translator import Options

from . import building
from .building import Unbuilt
from .judging import Runner
from .runs import Run

PREFIX = "commute-length"
FIELD = re.compile(r"^  (long |bool |\w+_class \*)(\w+)_\[(\d+)\];$")
CLASS = re.compile(r"^struct (\w+)_class : Object \{$")
SHOWN = re.compile(rf"^{PREFIX} (\S+) (\d+)$", re.M)


def growing(ported: Ported) -> set[str]:
    """The arrays whose length isn't in the user's text, as `Class.field`."""
    return {f"{cls.name}.{slot.name}" for cls in ported.program.classes.values() for slot in cls.slots if slot.grows}


def with_growing(text: str, names: set[str]) -> str:
    """A unit in which these arrays grow, and are said at the end."""
    lines: list[str] = []
    numbers: dict[str, str] = {}
    owner = ""
    for line in text.split("\n"):
        begun, found = CLASS.match(line), FIELD.match(line)
        owner = begun[1] if begun else owner
        name = f"{owner}.{found[2]}" if found else ""
        if found and name in names:
            numbers[name] = f"Growing<{found[1].strip()}, {len(numbers)}>"
            line = f"  {numbers[name]} {found[2]}_;"
        lines.append(line)
    shown = [f'  std::fprintf(stderr, "{PREFIX} {name} %ld\\n", {kind}::longest);' for name, kind in numbers.items()]
    return "\n".join([*lines, "static void show_at_end() {", *shown, "}", ""])


def found(it: building.Marked, folder: str, how: Runner) -> tuple[dict[str, int], Run]:
    """The lengths, and the run that found them."""
    heads = ['#include "growing.h"', "static void show_at_end();"]
    text = building.unit(it, it.program(), Options(is_plain=True), heads)
    program = os.path.join(folder, "lengths")
    building.made(with_growing(text, growing(it.ported)), program, ["-O1"])
    run = how.run(program, 1)
    lengths = {name: int(longest) for name, longest in SHOWN.findall(run.errors)}
    missing = growing(it.ported) - lengths.keys()
    if missing:
        raise Unbuilt(f"the run that finds lengths ended with status {run.code}")
    too_long = [name for name, longest in lengths.items() if longest > GREATEST_CAPACITY]
    if too_long:
        raise Unbuilt(f"{shown(it.ported, too_long[0])}: more than {GREATEST_CAPACITY:,} items in one vector or array")
    return {name: max(1, longest) for name, longest in lengths.items()}, run


def shown(ported: Ported, name: str) -> str:
    """An array in the user's words, with its place."""
    cls = ported.program.classes[name.split(".")[0]]
    slot = cls.slot(name.split(".")[1])
    what = slot.origin or cls.origin or name
    return f"{slot.place}: {what}" if slot.place.line else what
