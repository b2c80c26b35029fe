"""Not proved (../README.md). The report as text: a line a loop, in the form of compilers, so that editors go there."""

from dataclasses import dataclass, field

from porting.places import Place

from .findings import Finding, Findings
from .judging import Judgement, threads

PROVED = "Proved: that the marked calls of the ported text may run in any order. Checked by running: the rest."
RANKED = (
    "Reasons are ranked: first what no order can mend (it prints, it makes objects, each call goes on from the one before it), then what stands within the loop "
    "or function itself, then what stands elsewhere, then what has no line."
)


@dataclass
class About:
    """What a report is about."""

    files: list[str]
    is_parallel: bool
    why: str
    found: Findings
    judgement: Judgement | None
    threads: int
    rewrites: list[tuple[Place, str]] = field(default_factory=list)
    # Each thing that isn't understood, with its place.
    refused: list[str] = field(default_factory=list)
    # Of a text of the language no program is made.
    is_language: bool = False

    def title(self) -> str:
        return f"{', '.join(self.files)}: {self.found.summary()}"

    def given(self) -> str:
        """Which program was given, in a sentence."""
        if self.is_language:
            return "The text is one of the language itself: no program was made."
        if not self.is_parallel:
            return f"The program is what g++ makes: {self.why}."
        return "The program runs in parallel" + ("." if self.judgement is not None else "; it wasn't checked.")

    def speeds(self) -> str:
        """What was measured, in a sentence; empty where nothing was."""
        if self.judgement is None or not self.judgement.walls:
            return ""
        told = ", ".join(f"{self.judgement.times(count):.2f} by {count}" for count in self.judgement.walls)
        return (
            f"Times as fast as the program of g++ ({self.judgement.own:.3f} s), by threads: {told}. "
            "Each is the least of some runs by turns, on this machine as it was."
        )

    def checks(self) -> str:
        if self.judgement is None:
            return ""
        return (
            "Output and exit code are those of the program of g++, by one thread, by several, and where all is shared "
            f"that may be: there {self.judgement.given:,} pieces of work went to other threads."
        )


def percent(share: float | None) -> str:
    return "" if share is None else f"{share * 100:.1f} %"


def shown_share(one: Finding) -> str:
    if one.share is None:
        return ""
    times = "once" if one.runs == 1 else f"{one.runs:,} times"
    return f", {percent(one.share)} of the run, begun {times}"


def of(one: Finding, found: Findings) -> list[str]:
    lines = [f"{one.place}: {one.what}: {one.state}{shown_share(one)}"]
    if found.says_why(one):
        lines.append(f"    because: {one.reasons[0].said}")
        if one.reasons[0].mended:
            lines.append(f"    change:  {one.reasons[0].mended}")
    return lines


def report(about: About) -> list[str]:
    """The lines of the text."""
    head = [f"{about.title()}", about.given(), about.checks(), about.speeds(), PROVED]
    body = [line for one in about.found.all for line in of(one, about.found)]
    rewrites = [f"{place}: rewritten for the analysis: {what}" for place, what in about.rewrites]
    return [line for line in head if line] + [""] + body + rewrites


def why(found: Findings, line: int, kept: str) -> list[str]:
    """All that stands in the way of what is at a line, or of the last that begins before it."""
    at = [one for one in found.all if one.place.line == line]
    if not at:
        before = [one for one in found.all if one.place.line < line]
        at = before[-1:]
    if not at:
        return [f"no loop and no recursion is known at line {line}" + (f": {kept}" if kept else "")]
    lines: list[str] = []
    for one in at:
        lines += of(one, found)[:1]
        for number, reason in enumerate(one.reasons, 1):
            lines.append(f"    {number}. {reason.said}")
            if reason.mended:
                lines.append(f"       change: {reason.mended}")
        free = sum(pair.reason is None for pair in one.pairs)
        if one.pairs:
            lines.append(f"    {free} of {len(one.pairs)} pairs of functions may change places")
            lines += [
                f"       {pair.one} and {pair.other}: {pair.reason.said}"
                for pair in one.pairs
                if pair.reason is not None
            ]
    return lines
