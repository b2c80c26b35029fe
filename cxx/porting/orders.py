"""Not proved (README.md). The port that writes what the program of g++ writes: arguments whose order C++ leaves open are
evaluated from left to right, and where that writes something else, from right to left, as g++ does it."""

from . import check
from .capacities import fitted
from .engine import Answer
from .port import Ported, Porter


def agreed(porter: Porter) -> tuple[Ported, Answer]:
    """The port and its run; ends with `Differs` where it doesn't write what the program writes."""
    made, answer = fitted(porter)
    output, code = check.expected(made.files, porter.words)
    try:
        check.compare(check.written(made, answer), output, code, made.sites.open_orders)
    except check.Differs as differs:
        if not differs.checked or not made.sites.open_orders:
            raise
        porter.backwards = True
        made, answer = fitted(porter)
        try:
            check.compare(check.written(made, answer), output, code)
        except check.Differs:
            raise differs from None
    return made, answer
