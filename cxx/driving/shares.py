"""Not proved (../README.md). How much of the run lies in each loop and recursion: a run by one thread with clocks at
them."""

import os
import re

from translator import Options, tree

from . import building
from .findings import Findings
from .judging import Runner
from .runs import Endless

SHOWN = re.compile(r"^commute-share (\S+) (\S+) (\d+)$", re.M)


class Clocks:
    """Puts clocks into a tree: at loops that call something, and at operations that come back to themselves."""

    def __init__(self, program: tree.Program, counted: list[int], uncounted: list[int], recursive: set[str]) -> None:
        self.heads: list[str] = []
        # The lines of the ported text in which its `for` and `while` stand, in their order.
        self._counted, self._uncounted = iter(counted), iter(uncounted)
        for method in [*program.methods(), program.main]:
            body = self._block(method.body, method.result == "void")
            if method.result == "void" and repr(method) in recursive:
                body = self._clocked(f"op {method!r}", body.items)
            method.body = body

    def _clocked(self, head: str, items: tuple[tree.Statement, ...]) -> tree.Block:
        number = len(self.heads)
        self.heads.append(head)
        return tree.Block(
            (tree.Print(tree.Word(f"Begun{{{number}}}")), *items, tree.Print(tree.Word(f"Ended{{{number}}}")))
        )

    def _block(self, it: tree.Block, may: bool) -> tree.Block:
        return tree.Block(tuple(self._statement(one, may) for one in it.items))

    def _statement(self, it: tree.Statement, may: bool) -> tree.Statement:
        if isinstance(it, tree.Block):
            return self._block(it, may)
        if isinstance(it, tree.If):
            no = None if it.no is None else self._statement(it.no, may)
            return tree.If(it.test, self._statement(it.yes, may), no)
        if isinstance(it, tree.While):
            line = next(self._uncounted, 0)
            again: tree.Statement = tree.While(it.test, self._statement(it.body, may))
        elif isinstance(it, tree.For):
            line = next(self._counted, 0)
            again = tree.For(it.first, it.test, it.after, self._statement(it.body, may), it.is_parallel, it.line)
        else:
            return it
        return self._clocked(f"loop {line}", (again,)) if may and _calls(it) else again


def _calls(it: tree.Statement) -> bool:
    return bool(tree.calls(it)) or any(isinstance(part, tree.Asked) for part in tree.all_inside(it))


def heads_of(found: Findings) -> set[str]:
    """The operations of what was found."""
    return {head[3:] for one in found.all for head in one.heads if head.startswith("op ")}


def clocked(clocks: Clocks) -> list[str]:
    """What stands in front of a program with clocks."""
    count = len(clocks.heads)
    return [
        '#include "clocks.h"',
        f"Clock clocks[{count + 1}];",
        f"static void show_at_end() {{ show_clocks({count}); }}",
    ]


def measured(it: building.Marked, found: Findings, folder: str, how: Runner) -> None:
    """Sets the shares of what was found; where they can't be had they stay unknown."""
    program = it.program()
    counted, uncounted = building.counted_lines(it.ported), building.uncounted_lines(it.ported)
    clocks = Clocks(program, counted, uncounted, heads_of(found))
    take(building.unit(it, program, Options(is_plain=True), clocked(clocks)), clocks, found, folder, how)


def take(text: str, clocks: Clocks, found: Findings, folder: str, how: Runner) -> None:
    """Runs the text of a program with clocks."""
    out = os.path.join(folder, "clocked")
    try:
        building.made(text, out, [])
        run = how.run(out, 1)
    except (building.Unbuilt, Endless):
        return
    seen = {name: (float(took), int(times)) for name, took, times in SHOWN.findall(run.errors)}
    whole = seen.get("all", (0.0, 0))[0]
    if whole <= 0:
        return
    by_head = {head: seen.get(str(number), (0.0, 0)) for number, head in enumerate(clocks.heads)}
    for one in found.all:
        mine = [by_head[head] for head in one.heads if head in by_head]
        if mine:
            one.share, one.runs = min(1.0, sum(took for took, _ in mine) / whole), sum(times for _, times in mine)
