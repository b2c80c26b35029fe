"""Not proved (../README.md). Loops over different objects: the body of a loop that isn't marked, as an operation of the
object that it works on, where the translator then shares the loop (native/translator/apart.py).

It does so where the body changes nothing but that object, reads nothing of others that the loop changes, and calls
nothing that changes anything. Which loops these are the translator says, of the text that is made.
"""

from porting import form
from porting.places import Place
from porting.port import Ported
from porting.shaping import facts, turn, values
from porting.shaping.actions import sites
from porting.shaping.building import Shape
from porting.shaping.cover import Cover
from porting.shaping.duplicates import duplicate
from porting.shaping.marks import Marks, finished, marked
from porting.sites import Sites

from . import building


class Turning:
    """A shape in which bodies of loops become operations, one loop after another, as long as nothing that was marked is
    lost."""

    def __init__(self, shape: Shape, files: list[str], prints: Sites) -> None:
        self.shape, self._files, self._prints = shape, files, prints
        self._cover = Cover(shape)
        self._marks: Marks | None = None
        self.apart = set[Place]()
        found = self._looked(shape)
        if found is not None:
            self._marks, self.apart = found

    def _looked(self, shape: Shape) -> tuple[Marks, set[Place]] | None:
        """What is marked, and which other loops are shared where their objects are different; None where the text isn't
        accepted."""
        done, text, stops = finished(shape)
        got = marked(done, text)
        if got is None:
            return None
        return got, apart_places(Ported(self._files, done.program, text, self._prints, stops))

    def all(self) -> Shape:
        if self._marks is None:
            return self.shape
        places = {one[2].place for one in sites(self.shape)}
        # What has more within comes first.
        for place in sorted(places, key=lambda one: (-self._cover.size(("loop", one)), one.file, one.line, one.column)):
            if not self._is_shared(place, self._marks):
                self._try(place)
        return self.shape

    def _is_shared(self, place: Place, known: Marks) -> bool:
        """Whether the loop is shared, or runs within what is."""
        shared = {one for _, one in known.sites} | self.apart
        outer = [(kind, one) for one in shared for kind in ("loop", "recursion")]
        within = {one for site in outer for _, one in self._cover.within.get(site, set())}
        return place in shared | within

    def _try(self, place: Place) -> None:
        for lifts in (False, True):
            trial = duplicate(self.shape)
            if not turned(trial, place, lifts):
                continue
            found = self._looked(trial)
            if found is None or self._marks is None:
                continue
            if self._marks.sites <= found[0].sites and self.apart | {place} <= found[1]:
                self.shape, (self._marks, self.apart) = trial, found
                return


def shared_as_they_are(shape: Shape, files: list[str], prints: Sites) -> set[Place]:
    """Loops of the user's with more than a few turns that can be shared so."""
    it = Turning(shape, files, prints)
    it.all()
    cover = Cover(shape)
    return {place for place in it.apart if ("loop", place) in cover.within and ("loop", place) not in cover.few}


def turned(shape: Shape, place: Place, lifts: bool) -> bool:
    """Makes the bodies of the loops at a place operations; whether all of them change nothing but their object."""
    found = [one for one in sites(shape) if one[2].place == place]
    return bool(found) and all(_turned(shape, *one, lifts) for one in found)


def _turned(shape: Shape, method: form.Method, block: list[form.Statement], loop: form.Statement, lifts: bool) -> bool:
    effects = facts.effects([loop])
    if not isinstance(loop, form.Count) or effects.seen or effects.makes:
        return False
    made = turn.turn(shape, method, block, loop, True, lifts)
    if made is None:
        return False
    values.divisions(shape, made)
    return all(_is_own(one) for one in form.statements(made.body))


def _is_own(one: form.Statement) -> bool:
    """Whether the statement changes locals and its own object alone."""
    if isinstance(one, form.Put):
        return isinstance(one.target, form.Local) or isinstance(one.target.object, form.This)
    return not isinstance(one, (form.Do, form.Make, form.Tell, form.Fail))


def apart_places(it: Ported) -> set[Place]:
    """The user's loops that are shared where the objects on which they work are all different."""
    lines = building.apart_lines(building.marked(it))
    found: dict[Place, bool] = {}
    for at, one in enumerate(it.text.statements, 1):
        if isinstance(one, (form.Loop, form.Count)) and one.user:
            found[one.place] = found.get(one.place, True) and at in lines
    return {place for place, is_apart in found.items() if is_apart}
