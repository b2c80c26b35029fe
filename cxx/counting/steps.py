"""Not proved (../README.md). Steps of a program, counted by an instrumented C++ of its text.

A step is a call, of an operation or a value method, or a turn of a loop, as the language counts. It runs marked where it is in a call of a
marked loop of the user, or in an operation that is marked and is a recursion of the user, or a loop of his that became one: the turns of a
marked loop themselves don't. Other marks don't count.
"""

import re
import subprocess
import tempfile
from dataclasses import dataclass
from pathlib import Path

from porting import form
from porting.helpers import HELPERS, choosing
from porting.text import Text

HEAD = """#include <cstdio>
static long commute_steps[2][2];
static int commute_setup, commute_marked;
#define COMMUTE_STEP commute_steps[commute_setup > 0][commute_marked > 0]++
struct CommuteMarked { CommuteMarked() { commute_marked++; } ~CommuteMarked() { commute_marked--; } };
static void print(long n) { std::printf("%ld\\n", n); }
static long min(long a, long b) { return a < b ? a : b; }
static long max(long a, long b) { return a > b ? a : b; }
"""
TAIL = 'std::fprintf(stderr, "%ld %ld\\n", commute_steps[0][0], commute_steps[0][1]);'
FLAGS = ["-std=c++17", "-O1", "-w", "-fwrapv", "-fno-delete-null-pointer-checks"]
SECONDS = 120


@dataclass
class Steps:
    """The steps of a kernel."""

    unmarked: int
    marked: int

    @property
    def all(self) -> int:
        return self.unmarked + self.marked


class Counting(Text):
    """A text as C++ that counts. Its methods stand behind the classes, since they may name any class."""

    def __init__(
        self, program: form.Program, loops: set[int], methods: set[form.Method], setup: frozenset[int]
    ) -> None:
        self._loops, self._marked, self._setup, self._within = loops, methods, setup, False
        self._behind = ""
        super().__init__(program)
        for cls in program.classes.values():
            for method in cls.methods:
                self._behind = f"{cls.name}::"
                self._method(method)
        self.lines.insert(self.lines.index("  return 0;"), f"  {TAIL}")
        types: list[form.Type] = [form.LONG, form.BOOL, *(form.Pointer(name) for name in program.classes)]
        helpers = [*HELPERS.values(), *(choosing(one)[1] for one in types)]
        forward = [f"class {name};" for name in program.classes]
        self.lines = [HEAD, *forward, *map(_counted, helpers), *self.lines]

    def _class(self, cls: form.Class) -> None:
        self._line(f"class {cls.name} {{", cls.place, 0)
        self._line("public:", cls.place, 0)
        for slot in cls.slots:
            length = f"[{slot.length}]" if slot.length is not None else ""
            self._line(f"{_spelled(slot.type)}{slot.name}{length};", cls.place, 1)
        for method in cls.methods:
            self._line(self._head(method, "") + ";", cls.place, 1)
        self._line("};", cls.place, 0)

    def _head(self, method: form.Method, before: str) -> str:
        result = _spelled(method.result) if method.result is not None else "void "
        parameters = ", ".join(_spelled(one.type) + one.name for one in method.parameters)
        return f"{result}{before}{method.name}({parameters})"

    def _method(self, method: form.Method) -> None:
        self._hidden = {one.name for one in method.parameters}
        self._hidden |= {one.name for one in form.expressions(method.body) if isinstance(one, form.Local)}
        self._line(self._head(method, self._behind) + " {", method.place, 0)
        if method in self._marked:
            self._line("CommuteMarked commute_here;", method.place, 1)
        self._line("COMMUTE_STEP;", method.place, 1)
        self._block(method.body, 1)
        self._line("}", method.place, 0)

    def _statement(self, one: form.Statement, depth: int) -> None:
        begins = one.place.line in self._setup and not self._within
        if begins:
            self._within = True
            self._line("commute_setup++;", one.place, depth)
        super()._statement(one, depth)
        if begins:
            self._line("commute_setup--;", one.place, depth)
            self._within = False

    def _written(self, one: form.Statement, depth: int) -> None:
        if isinstance(one, (form.Loop, form.Count)):
            at = len(self.lines)
            super()._written(one, depth)
            marked = "CommuteMarked commute_here; " if id(one) in self._loops else ""
            self.lines[at] += f" COMMUTE_STEP; {marked}"
        else:
            super()._written(one, depth)


def _spelled(type_: form.Type) -> str:
    return type_.name + " " if isinstance(type_, form.Scalar) else f"{type_.cls} *"


def _counted(helper: str) -> str:
    """A helper that counts its call and its turns."""
    first, rest = helper.split("\n", 1)
    rest = re.sub(r"^(  for \(.*?\)) (.*;)$", r"\1 { COMMUTE_STEP; \2 }", rest, flags=re.M)
    return f"static {first} COMMUTE_STEP;\n{rest}"


def counted(program: form.Program, loops: set[int], methods: set[form.Method], setup: frozenset[int]) -> Steps:
    """The steps of a finished program: `loops` are the marked ones (by id), `methods` what is marked and stands for a
    recursion or loop."""
    with tempfile.TemporaryDirectory() as folder:
        source, out = Path(folder) / "counting.cc", Path(folder) / "counting"
        source.write_text(str(Counting(program, loops, methods, setup)), encoding="utf-8")
        built = subprocess.run(
            ["g++", *FLAGS, str(source), "-o", str(out)], capture_output=True, text=True, check=False
        )
        if built.returncode:
            raise RuntimeError(f"g++ refuses the instrumented text: {built.stderr[:2000]}")
        done = subprocess.run([str(out)], capture_output=True, text=True, timeout=SECONDS, check=True)
    unmarked, marked = done.stderr.split()
    return Steps(int(unmarked), int(marked))
