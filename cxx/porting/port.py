"""Not proved (README.md). One port from the files to the text, as often as its vectors and arrays have to grow."""

from dataclasses import dataclass, field

from . import clang, objectarrays
from .finishing import finish
from .form import Method, Program
from .lowering.program import Lowering
from .reading import read_program
from .reading.declarations import unknown_in
from .refusals import FAULTS, NOT_KNOWN, PutTogether, Refused, Unported
from .sites import Sites
from .places import Place
from .text import Text
from .tree import Member, Variable
from .tree import Program as Tree
from .types import INT


@dataclass
class Ported:
    """A ported program: its form, its text with the places of its lines, and how its run is read."""

    files: list[str]
    program: Program
    text: Text
    sites: Sites
    stops: list[int]
    # What was rewritten, in the user's lines, and which operations stand for a loop of the user.
    rewritten: list[tuple[Place, str]] = field(default_factory=list)
    loops: dict[Method, Place] = field(default_factory=dict)


# The face of the stub header's string whose letters are in a vector.
TOGETHER = "-DSTRINGS_PUT_TOGETHER_"


class Porter:
    """A program that was read once, and is lowered as often as is asked for. Where `arguments` is true, its main may
    have some: the port does what a run without any does."""

    def __init__(self, files: list[str], words: list[str], arguments: bool = False) -> None:
        self.files, self.words, self._arguments = files, words, arguments
        self._together = False
        try:
            self._unit = clang.unit(files, words)
        except Unported as unported:
            if unported.missing or not clang.mentions(files, "string"):
                raise
            self._put_together()
        self._tree: Tree | None = None
        # Whether arguments whose order C++ leaves open are evaluated as g++ does it.
        self.backwards = False
        self.capacities: dict[str, int] = {}

    def _put_together(self) -> None:
        self._together = True
        self._unit = clang.unit(self.files, [*self.words, TOGETHER])

    def tree(self) -> Tree:
        if self._tree is None:
            tree, refusals = read_program(self._unit, self._arguments)
            if not self._together and any(isinstance(one, PutTogether) for one in refusals.found):
                self._put_together()
                tree, refusals = read_program(self._unit, self._arguments)
            self._tree = tree
            refusals.found += objectarrays.turned(tree)
            if refusals.found:
                refusals.found += further(self._tree)
                refusals.raise_if_any()
        return self._tree

    def lowered(self, capacities: dict[str, int]) -> tuple[Program, Sites]:
        """The middle form, before it is finished."""
        lowering = Lowering(self.tree(), capacities, self.backwards)
        return lowering.lowered(), lowering.tables.sites

    def ported(self, capacities: dict[str, int]) -> Ported:
        self.capacities = dict(capacities)
        program, sites = self.lowered(capacities)
        stops = finish(program)
        return Ported(self.files, program, Text(program), sites, stops)


def further(tree: Tree) -> list[Refused]:
    """What the lowering refuses of a program of which reading refused a part: all of a program is told at once. What
    may follow from the statements that are missing is left out."""
    places: list[Member | Variable] = [*tree.globals, *(one for record in tree.records for one in record.members)]
    for one in places:
        if unknown_in(one.type) is not None:
            one.type = INT
    try:
        lowering = Lowering(tree, {})
    except (Refused, Unported, *FAULTS):
        return []
    try:
        lowering.lowered()
    except (Refused, Unported, *FAULTS):
        pass
    found = lowering.tables.refusals.found
    return [one for one in found if one.place.line and not one.follows and one.what != NOT_KNOWN]
