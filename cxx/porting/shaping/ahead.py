"""Not proved (README.md). What will be asked for in a row, computed ahead in processes of their own, as many at a time as may run.

The answers are the same as without that, and come in the same order; what was computed in vain is dropped.
"""

import os
import pickle
import signal
from collections import deque
from dataclasses import dataclass
from typing import Callable, Generator, Generic, Iterable, TypeVar

Answer = TypeVar("Answer")
Job = Callable[[], Answer]
# More of them take memory, and there are seldom more questions.
MOST = 8
PIECE = 1 << 16


@dataclass
class Begun(Generic[Answer]):
    """A process that computes an answer, and the end of the pipe at which it comes out."""

    job: Job[Answer]
    process: int
    end: int


def answers(jobs: Iterable[Job[Answer]], most: int = 0) -> Generator[Answer, None, None]:
    """The answer of each job, in their order. A job changes nothing that is used behind it."""
    most = most or min(MOST, len(os.sched_getaffinity(0)))
    running: deque[Begun[Answer]] = deque()
    waiting = iter(jobs)
    try:
        while True:
            while len(running) < most and (job := next(waiting, None)) is not None:
                if most == 1:
                    yield job()
                else:
                    running.append(_begun(job))
            if not running:
                return
            yield _answer(running)
    finally:
        for one in running:
            os.close(one.end)
            os.kill(one.process, signal.SIGKILL)
            os.waitpid(one.process, 0)


def _begun(job: Job[Answer]) -> Begun[Answer]:
    ours, its = os.pipe()
    process = os.fork()
    if process == 0:
        try:
            told = pickle.dumps(job())
            with os.fdopen(its, "wb") as out:
                out.write(told)
        finally:
            os._exit(0)
    os.close(its)
    return Begun(job, process, ours)


def _answer(running: deque[Begun[Answer]]) -> Answer:
    """The answer of the first; where its process has none, it is computed here, and what is raised is raised here."""
    first = running[0]
    pieces = []
    while piece := os.read(first.end, PIECE):
        pieces.append(piece)
    running.popleft()
    os.close(first.end)
    os.waitpid(first.process, 0)
    if not pieces:
        return first.job()
    answer: Answer = pickle.loads(b"".join(pieces))
    return answer
