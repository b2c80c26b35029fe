"""Not proved: built programs write what `run 1` writes, by any number of threads, plain and with sharing forced."""

from __future__ import annotations

import os

from trials import programs
import pytest
from trials.harness import Answer, Builds, FORCED, SANITIZED, THREADS, benchmarks, due, ran, random_programs, samples

# Forced ones are random programs, half of them larger than those of the other checks; under the sanitizer fewer.
COUNT = int(os.environ.get("NATIVE_RANDOM", "20"))
FIRST = int(os.environ.get("NATIVE_SEED", "0"))
KNOWN = dict([*samples(), *benchmarks()])


def runs(program: str, text: str) -> int:
    """Runs by all numbers of threads; how many tasks were given."""
    want, tasks = due(text), 0
    for threads in THREADS:
        answer = ran(program, threads)
        assert_alike(answer, want, threads)
        tasks += answer.tasks()
    return tasks


def assert_alike(answer: Answer, want: bytes, threads: int) -> None:
    assert b"WARNING" not in answer.told, answer.told.decode()[:3000]
    assert answer.status == 0, answer.told.decode()[:3000]
    assert answer.written == want, f"{threads} threads: {answer.written[:200]!r}, due: {want[:200]!r}"


@pytest.mark.parametrize("name", KNOWN)
def test_known(builds: Builds, name: str) -> None:
    runs(builds.built(KNOWN[name]), KNOWN[name])


@pytest.mark.parametrize("name", dict(samples()))
def test_forced(builds: Builds, name: str) -> None:
    runs(builds.forced(KNOWN[name]), KNOWN[name])


@pytest.mark.parametrize("shares_apart", [True, False])
@pytest.mark.parametrize("name", programs.ALL)
def test_own_forced(builds: Builds, name: str, shares_apart: bool) -> None:
    program = builds.forced(programs.ALL[name], FORCED, shares_apart)
    given = runs(program, programs.ALL[name])
    # (Nothing else is shared of a program whose loops are all over different objects.)
    assert given > 0 or (name in programs.UNMARKED and not shares_apart), "no task was given"


@pytest.mark.parametrize("name", [*dict(samples()), *programs.ALL])
def test_sanitized(builds: Builds, name: str) -> None:
    text = {**KNOWN, **programs.ALL}[name]
    runs(builds.forced(text, SANITIZED), text)


def test_random(builds: Builds) -> None:
    tasks = 0
    for count, (name, text) in enumerate(random_programs(COUNT, FIRST)):
        try:
            tasks += runs(builds.forced(text, FORCED, count % 2 == 0), text)
        except AssertionError as error:
            raise AssertionError(f"{name}: {error}\n{text}") from error
    assert tasks > 0, "no task was given"
    print(f"{COUNT} random programs: {tasks} tasks given")


def test_random_sanitized(builds: Builds) -> None:
    for count, (name, text) in enumerate(random_programs(COUNT // 4, FIRST + 1000)):
        try:
            runs(builds.forced(text, SANITIZED, count % 2 == 0), text)
        except AssertionError as error:
            raise AssertionError(f"{name}: {error}\n{text}") from error
