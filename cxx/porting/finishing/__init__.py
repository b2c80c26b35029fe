"""Not proved (README.md). From the middle form to what the language has, one step after another.

    temporaries  a local that only the next statement asks for is left out
    results      what an operation gives back goes into a field of its receiver
    jumps        break, continue and return become conditions
    foreign      what is written to another object becomes an operation of that object
    root         how an object finds the one of `Program`
    reached      only what main may call stays
    stops        ends of the program become traps
"""

from ..form import Program
from . import foreign, jumps, reached, results, root, stops, temporaries


def finish(program: Program) -> list[int]:
    """Changes the program in place; the stops' numbers, in the order in which their methods stand in the text."""
    begin(program)
    return end(program)


def begin(program: Program) -> None:
    """Takes away results and jumps; what is left may write to other objects, and is what rewrites work on."""
    results.finish(program)
    temporaries.finish(program)
    jumps.finish(program)


def end(program: Program) -> list[int]:
    """Takes away the rest; the stops' numbers, in the order in which their methods stand in the text."""
    foreign.finish(program)
    reached.finish(program)
    numbers = stops.finish(program)
    root.finish(program)
    return numbers
