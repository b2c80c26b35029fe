"""Not proved (../README.md). Programs run within limits: seconds, memory, no input."""

import os
import resource
import signal
import subprocess
import tempfile
import time
from dataclasses import dataclass

# The part of the machine's memory that the user's program may have. What is built of it reserves more than it uses,
# and isn't limited.
PART = 0.5
GREATEST_OUTPUT = 1 << 30


@dataclass
class Run:
    """What a run wrote, its exit code as a shell has it, its wall and what it took of processors, in seconds."""

    output: bytes
    errors: str
    code: int
    seconds: float
    busy: float = 0.0


class Endless(Exception):
    """A run that didn't end in time."""

    def __init__(self, seconds: float) -> None:
        super().__init__(f"it doesn't end within {seconds:.0f} seconds")


def _limit(kind: int, most: int) -> None:
    """A limit that is there already stays where it is lower."""
    soft, hard = resource.getrlimit(kind)
    resource.setrlimit(kind, (most if soft == resource.RLIM_INFINITY else min(soft, most), hard))


def _limits() -> None:
    _limit(resource.RLIMIT_FSIZE, GREATEST_OUTPUT)
    _limit(resource.RLIMIT_CORE, 0)


def _limits_of_own() -> None:
    _limits()
    _limit(resource.RLIMIT_DATA, int(os.sysconf("SC_PAGE_SIZE") * os.sysconf("SC_PHYS_PAGES") * PART))


def run(program: str, seconds: float, threads: int | None = None, words: tuple[str, ...] = ()) -> Run:
    """A run of a program with words behind its name, by so many threads where it is a built one."""
    environment = dict(os.environ)
    if threads is not None:
        environment |= {"COMMUTE_THREADS": str(threads), "COMMUTE_TIMES": "1"}
    with tempfile.TemporaryFile() as out, tempfile.TemporaryFile() as errors:
        begun, before = time.monotonic(), _spent()
        limits = _limits_of_own if threads is None else _limits
        started = subprocess.Popen(
            [program, *words],
            stdin=subprocess.DEVNULL,
            stdout=out,
            stderr=errors,
            env=environment,
            preexec_fn=limits,
            start_new_session=True,
        )
        try:
            code = started.wait(seconds)
        except BaseException as error:
            _end(started)
            if isinstance(error, subprocess.TimeoutExpired):
                raise Endless(seconds) from None
            raise
        took, busy = time.monotonic() - begun, _spent() - before
        out.seek(0)
        errors.seek(0)
        return Run(out.read(), errors.read().decode(errors="replace"), 128 - code if code < 0 else code, took, busy)


def _spent() -> float:
    """The processor time of all runs that are over."""
    used = resource.getrusage(resource.RUSAGE_CHILDREN)
    return used.ru_utime + used.ru_stime


def _end(started: "subprocess.Popen[bytes]") -> None:
    """Ends a run that we began, with what it may have begun: it is the first of a session of its own."""
    try:
        os.killpg(started.pid, signal.SIGKILL)
    except ProcessLookupError:
        pass
    started.wait()
