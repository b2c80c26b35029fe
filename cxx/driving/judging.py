"""Not proved (../README.md). The built program against the user's own: what they write, and how long they take."""

import re
from dataclasses import dataclass, field

from .runs import Endless, Run, run

TIMES = re.compile(r"^seconds (\S+) regions (\d+) tasks (\d+)$", re.M)
PLACES = re.compile(r"^forced places (\d+) shared (\d+)$", re.M)
# Rounds of timing, by turns: where runs take long, fewer, and where they are short, more.
ROUNDS, MOST_ROUNDS, SHORT, LONG = 5, 25, 1.5, 20.0
# How many times as fast the built program has to be: below, what is seen may be chance.
LEAST = 1.05
# Processor times aren't known below, in seconds.
TICK = 0.001
# On a busy machine other threads may not get to run at all.
TRIES = 3


class Differs(Exception):
    """The built program doesn't do what the user's does: a fault of ours, since the port was accepted."""


class Useless(Exception):
    """It does, but it isn't worth giving: why."""


@dataclass
class Judgement:
    """What was seen: how many pieces of work were given to other threads where that was forced, at how many of the
    places where work is shared; and the walls, in seconds."""

    given: int = 0
    places: int = 0
    shared: int = 0
    own: float = 0.0
    walls: dict[int, float] = field(default_factory=dict)
    # The program of g++ over the built one, of which one thread is judged by the processor time, which others don't
    # disturb.
    ratios: dict[int, float] = field(default_factory=dict)

    def times(self, count: int) -> float:
        return self.ratios.get(count, 0.0)

    def least_threads(self) -> int:
        """By so many threads and by all more that were measured the built program is as fast as that of g++."""
        least = max(self.ratios, default=1)
        for count in sorted(self.ratios, reverse=True):
            if self.ratios[count] < 1:
                break
            least = count
        return least if least > min(self.ratios, default=1) else 1


def compare(wanted: Run, seen: Run, how: str) -> None:
    if seen.code != wanted.code:
        raise Differs(f"{how} it ends with {seen.code}, the program of g++ with {wanted.code}")
    if seen.output != wanted.output:
        raise Differs(f"{how} {_difference(wanted.output, seen.output)}")


def _difference(wanted: bytes, seen: bytes) -> str:
    ours, theirs = seen.split(b"\n"), wanted.split(b"\n")
    for at in range(max(len(ours), len(theirs))):
        one = ours[at] if at < len(ours) else None
        other = theirs[at] if at < len(theirs) else None
        if one != other:
            return f"line {at + 1} of its output is {_quoted(one)}, that of the program of g++ {_quoted(other)}"
    return "its output differs"


def _quoted(line: bytes | None) -> str:
    return "missing" if line is None else repr(line.decode(errors="replace"))[:100]


@dataclass
class Runner:
    """How programs are run: the longest that a run may take, in seconds, and what they are called with."""

    seconds: float
    arguments: tuple[str, ...] = ()

    def run(self, program: str, threads: int | None = None) -> Run:
        return run(program, self.seconds, threads, self.arguments)


def checked(wanted: Run, built: str, forced: str, most: int, how: Runner) -> Judgement:
    """Compares runs of the built program by one thread and by many, and one in which all is shared that may be."""
    longest = min(how.seconds, 10.0 + 10.0 * wanted.seconds)
    for count in dict.fromkeys((1, most)):
        try:
            compare(wanted, run(built, longest, count, how.arguments), f"by {threads(count)}")
        except Endless:
            raise Useless(f"by {threads(count)} the built program takes more than {longest:.0f} seconds") from None
    for _ in range(TRIES):
        try:
            seen = how.run(forced, max(2, most))
        except Endless as endless:
            raise Useless(f"with all that may be shared shared, {endless}, so that couldn't be compared") from None
        compare(wanted, seen, "with all that may be shared shared")
        told, places = TIMES.search(seen.errors), PLACES.search(seen.errors)
        if told and int(told[3]) > 0:
            return Judgement(int(told[3]), *((int(places[1]), int(places[2])) if places else (0, 0)))
    raise Useless("no thread gave work to another, so that sharing couldn't be compared")


def timed(judgement: Judgement, own: str, built: str, counts: list[int], how: Runner) -> None:
    """The least wall of each, by turns."""
    spent, rounds = 0.0, 0
    seen: dict[int, list[Run]] = {count: [] for count in (0, *counts)}
    while rounds == 0 or (rounds < ROUNDS and spent < LONG) or (rounds < MOST_ROUNDS and spent < SHORT):
        for count, each in seen.items():
            each.append(how.run(own) if count == 0 else how.run(built, count))
            spent += each[-1].seconds
        rounds += 1
    walls = {count: min(one.seconds for one in each) for count, each in seen.items()}
    busy = {count: max(min(one.busy for one in each), TICK) for count, each in seen.items()}
    judgement.own, judgement.walls = walls[0], {count: walls[count] for count in counts}
    judgement.ratios = {count: busy[0] / busy[1] if count == 1 else walls[0] / walls[count] for count in counts}


def threads(count: int) -> str:
    return "one thread" if count == 1 else f"{count} threads"
