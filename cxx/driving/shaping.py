"""Not proved (../README.md). The ported text of a program, in the shape that is analysed.

Rewrites of the form come in here, from `porting/shaping`: they change a program's shape, and not what it prints.
"""

from dataclasses import dataclass, field

from porting import form
from porting.places import Place
from porting.port import Ported, Porter
from porting.shaping.marks import finished
from porting.shaping.search import searched
from porting.text import Text

from . import different


@dataclass
class Shaped:
    """A port, and what was done to its shape: places of the user with a sentence each."""

    ported: Ported
    rewrites: list[tuple[Place, str]] = field(default_factory=list)
    # Methods that are a loop of the user, which begins at the place.
    turned: dict[form.Method, Place] = field(default_factory=dict)

    def sized(self, lengths: dict[str, int]) -> "Shaped":
        """The same with arrays of these lengths, which are named `Class.field`."""
        was = self.ported
        for name, length in lengths.items():
            cls, slot = name.split(".")
            was.program.classes[cls].slot(slot).length = length
        text = Text(was.program)
        return Shaped(Ported(was.files, was.program, text, was.sites, was.stops), self.rewrites, self.turned)


def plain(porter: Porter) -> Shaped:
    return Shaped(porter.ported({}))


def shaped(porter: Porter) -> Shaped:
    """The port in the best shape that is found."""
    program, sites = porter.lowered({})
    found = searched(program, around=lambda shape: different.shared_as_they_are(shape, porter.files, sites))
    done, text, stops = finished(different.Turning(found, porter.files, sites).all())
    ported = Ported(porter.files, done.program, text, sites, stops)
    return Shaped(ported, done.told, done.loops)
