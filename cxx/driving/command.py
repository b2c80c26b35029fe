"""Not proved (../README.md). The whole way of a command, and its statuses."""

import os
import shutil
import signal
import subprocess
import sys
import tempfile
from concurrent.futures import ThreadPoolExecutor
from dataclasses import dataclass, field

from porting import clang
from porting.port import Porter
from porting.refusals import FAULTS, Unported

from translator import Options

from . import building, findings, judging, language, lengths, lines, ranges, remarks, reports, runs, shares, words
from .building import Unbuilt
from .findings import Findings
from .judging import Differs, Judgement, Useless
from .remarks import Progress
from .shaping import Shaped, plain, shaped
from .words import Words

DONE, REFUSED = 0, 1
NOTHING = "nothing is shown to run in any order"


class Kept(Exception):
    """The user's own binary stays: why, as `PLACE: what` or what alone."""


@dataclass
class Outcome:
    """What became of a program."""

    is_parallel: bool = False
    why: str = ""
    # Each thing that isn't understood, with its place.
    refused: list[str] = field(default_factory=list)
    shaped: Shaped | None = None
    found: Findings = field(default_factory=lambda: Findings(is_known=False))
    judgement: Judgement | None = None
    threads: int = 1


def main(given: list[str]) -> int:
    building.deep()
    # So that what lies in temporary folders goes away, too.
    signal.signal(signal.SIGTERM, signal.default_int_handler)
    try:
        return whole(words.read(given))
    except KeyboardInterrupt:
        return 130
    except BrokenPipeError:
        return DONE


def whole(said: Words) -> int:
    if said.language:
        return language.told(said)
    if shutil.which("g++") is None:
        print(f"{remarks.NAME}: g++ isn't there: install Debian's package g++", file=sys.stderr)
        return REFUSED
    status = subprocess.run(["g++", *said.gxx], check=False).returncode
    if status != 0 or said.is_left_to_gxx():
        return status
    outcome = Outcome(threads=len(os.sched_getaffinity(0)))
    progress = Progress()
    with tempfile.TemporaryDirectory(prefix="commute++.") as folder:
        attempted(said, outcome, folder, progress)
        progress.end()
        tell(said, outcome)
    return REFUSED if said.must and not outcome.is_parallel else DONE


def attempted(said: Words, outcome: Outcome, folder: str, progress: Progress) -> None:
    """Puts the built program in the place of g++'s, or says in the outcome why not."""
    try:
        built = os.path.join(folder, "built")
        make(said, outcome, folder, built, progress)
        shutil.copyfile(built, said.out + ".new")
        shutil.copymode(said.out, said.out + ".new")
        os.replace(said.out + ".new", said.out)
        outcome.is_parallel = True
    except Unported as unported:
        outcome.why = unported.lines[0]
        if not unported.missing:
            outcome.refused = unported.lines
            place, what = remarks.placed("", unported.lines[0])
            said_so = f"not understood: {what.removeprefix('fatal ').removeprefix('error: ')}"
            outcome.why = f"{place}: {said_so}" if place else said_so
    except (Kept, Useless, Unbuilt, runs.Endless) as kept:
        outcome.why = str(kept)
    except Differs as differs:
        outcome.why = f"a fault of commute++, please report it: {differs}"
    except OSError as error:
        outcome.why = f"{error.filename or ''}: {error.strerror}"
    except (*FAULTS, NotImplementedError, RecursionError) as fault:
        outcome.why = f"a fault of commute++, please report it: {type(fault).__name__}: {fault}"


def make(said: Words, outcome: Outcome, folder: str, built: str, progress: Progress) -> None:
    """The way of a program, as far as it goes."""
    progress.say("reading")
    porter = Porter(said.sources, said.reading)
    progress.say("looking for what may run in parallel")
    outcome.shaped = shaped(porter)
    it = building.marked(outcome.shaped.ported)
    outcome.found = looked(outcome.shaped, it)
    has_shares = building.shares(building.unit(it, it.program(), Options()))
    if not has_shares and not said.has_shares():
        raise Kept(NOTHING)
    wanted = own_run(said, progress)
    progress.say("finding lengths")
    it = sized(said, outcome, porter, wanted, folder)
    outcome.found = looked(outcome.shaped, it)
    if said.has_shares():
        progress.say("measuring shares")
        shares.measured(it, outcome.found, folder, said.runner())
    text = building.unit(it, it.program(), Options())
    if not building.shares(text):
        raise Kept(NOTHING)
    progress.say("compiling")
    within, forced = building.Within(folder, said.out, said.code), os.path.join(folder, "forced")
    compile_all(said, it, within, text, None if wanted is None else forced)
    within.link(built, 1)
    if wanted is not None:
        judge(said, outcome, wanted, (built, forced), progress)
        assert outcome.judgement is not None
        within.link(built, outcome.judgement.least_threads())


def compile_all(said: Words, it: building.Marked, within: building.Within, text: str, forced: str | None) -> None:
    """Compiles the built program, and beside it the one in which all is shared that may be, if that is wanted."""
    if forced is None:
        return within.compile(text)
    shared = building.unit(it, it.program(), Options(is_forced=True))
    with ThreadPoolExecutor(max_workers=1) as beside:
        other = beside.submit(building.made, shared, forced, said.code, True)
        within.compile(text)
        other.result()


def looked(it: Shaped, marked: building.Marked) -> Findings:
    """What was found, with the reasons that say most in front."""
    made = findings.found(it, building.apart_lines(marked))
    ranges.rank(made, ranges.texts_of([one.place.file for one in made.all]))
    return made


def sized(said: Words, outcome: Outcome, porter: Porter, wanted: runs.Run | None, folder: str) -> building.Marked:
    """The port with arrays as long as its run has them; the plain one where the rewritten one writes something else."""
    assert outcome.shaped is not None
    it = building.marked(outcome.shaped.ported)
    try:
        long = compared_lengths(said, outcome, it, wanted, folder)
    except (Differs, Unbuilt, runs.Endless) as differs:
        if not outcome.shaped.rewrites:
            raise
        remarks.remark(said.sources[0], f"rewrites for the analysis are left out, please report it: {differs}")
        outcome.shaped = plain(porter)
        return sized(said, outcome, porter, wanted, folder)
    outcome.shaped = outcome.shaped.sized(long)
    return building.marked(outcome.shaped.ported)


def compared_lengths(
    said: Words, outcome: Outcome, it: building.Marked, wanted: runs.Run | None, folder: str
) -> dict[str, int]:
    """The lengths of arrays, from a run of the port that has to write what the program of g++ writes."""
    long, seen = lengths.found(it, folder, said.runner())
    try:
        if wanted is not None:
            judging.compare(wanted, seen, "ported")
    except Differs:
        if outcome.shaped is not None and not outcome.shaped.rewrites:
            look_for_open_orders(said, folder, seen)
        raise
    return long


def look_for_open_orders(said: Words, folder: str, seen: runs.Run) -> None:
    """Ends with `Kept` where clang++'s program writes what the port does: then g++ and clang++ don't agree on the
    user's text."""
    other = os.path.join(folder, "other")
    words = [clang.compiler(), "-std=c++17", "-w", *said.reading, *said.sources, "-o", other]
    if subprocess.run(words, capture_output=True, check=False).returncode != 0:
        return
    run = said.runner().run(other)
    if (run.output, run.code) == (seen.output, seen.code):
        raise Kept(
            "what it writes depends on an order that C++ leaves open, such as that of a call's arguments: "
            "as clang++ compiles it, it writes something else"
        )


def own_run(said: Words, progress: Progress) -> runs.Run | None:
    """The run of g++'s program, which is wanted unless there is to be no check."""
    if not said.check:
        return None
    progress.say("running the program of g++")
    wanted = said.runner().run(os.path.abspath(said.out))
    if wanted.code >= 128:
        raise Kept(f"the program ends by signal {wanted.code - 128}")
    return wanted


def judge(said: Words, outcome: Outcome, wanted: runs.Run, built: tuple[str, str], progress: Progress) -> None:
    """Looks at the built program and at the one in which all is shared; ends by an exception where the first isn't
    worth giving."""
    progress.say("comparing")
    outcome.judgement = judging.checked(wanted, *built, max(2, outcome.threads), said.runner())
    if said.any_speed:
        return
    progress.say("timing")
    counts = sorted({1, 2, outcome.threads} | ({4} if said.has_shares() else set()))
    judging.timed(outcome.judgement, os.path.abspath(said.out), built[0], counts, said.runner())
    times = outcome.judgement.times(outcome.threads)
    if times < judging.LEAST:
        raise Kept(f"by {outcome.threads} threads the built program is {times:.2f} times as fast as that of g++")


def tell(said: Words, outcome: Outcome) -> None:
    """The report, what is said on standard output, and remarks, the last of which says what came of it."""
    about = lines.About(
        said.sources, outcome.is_parallel, outcome.why, outcome.found, outcome.judgement, outcome.threads
    )
    about.rewrites = outcome.shaped.rewrites if outcome.shaped is not None else []
    about.refused = outcome.refused
    reports.give(said, about)
    file = said.sources[0]
    if said.remarks:
        for line in outcome.refused[1:]:
            remarks.remark(*remarks.placed(file, line))
    if outcome.is_parallel:
        remarks.remark(file, f"built to run in parallel: {parts(outcome)}; {speed(outcome)}")
        return
    place, what = remarks.placed(file, outcome.why)
    others = len(outcome.refused) - 1
    more = f" (and {others} more: --remarks)" if others > 0 and not said.remarks else ""
    remarks.remark(place, f"compiled as it is: {what}{more}")


def parts(outcome: Outcome) -> str:
    """What of the program runs in parallel."""
    if outcome.found.parallel():
        return outcome.found.summary()
    return "parts of its loops, or calls of functions that only compute"


def speed(outcome: Outcome) -> str:
    judgement = outcome.judgement
    if judgement is None:
        return "not checked"
    if not judgement.ratios:
        return "not timed"
    return f"{judgement.times(outcome.threads):.2f} times as fast by {outcome.threads} threads"
