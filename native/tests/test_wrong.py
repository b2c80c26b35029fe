"""Not proved: each kind with wrong code on purpose: what the other tests look at has to tell it."""

from __future__ import annotations

import shutil
import subprocess
from pathlib import Path

from trials import programs
import pytest
from trials.harness import Builds, RUNTIME, SANITIZED, due, emitted, ran

from translator import Compiler, Options, compiled, pairs_of, read, written
from translator.kinds import Extent, Kind

# Of the runtime: the file, what stands there once, what is put in its place, and the program that tells it.
EDITS = {
    "a sum isn't folded": (
        "copies.h",
        "    if (!is_touched) continue;",
        "    if (kind == SUM || !is_touched) continue;",
        "kinds",
    ),
    "a copy is folded twice": ("copies.h", "    from[k] = 0;", "", "kinds"),
    "pages aren't marked": ("workers.h", "/ PAGE] = true;", "/ PAGE] = false;", "pages"),
    "products begin at 0": ("copies.h", "case PRODUCT: return value - 1;", "case PRODUCT: return value;", "kinds"),
    "greatest numbers begin at 0": ("copies.h", "case MAX: return value ^ ", "case MAX: return value ^ 0 * ", "kinds"),
    "least numbers begin at 0": ("copies.h", "case MIN: return value ^ ", "case MIN: return value ^ 0 * ", "kinds"),
    "bits of all begin at 0": ("copies.h", "case AND: return ~value;", "case AND: return value;", "kinds"),
    "bits of any are lost": ("copies.h", "case OR: return field | value;", "case OR: return value;", "kinds"),
    "odd bits are lost": ("copies.h", "default: return field ^ value;", "default: return value;", "kinds"),
    "locks are left out": ("copies.h", "it(is_shared ? of : nullptr)", "it(nullptr)", "kinds"),
    "a flag is set by several": (
        "copies.h",
        "return !__atomic_exchange_n(&field, true, __ATOMIC_RELAXED);",
        "return field = true;",
        "kinds",
    ),
    "a put is no atomic step": (
        "copies.h",
        "__atomic_store_n(&field, static_cast<Value>(value), __ATOMIC_RELAXED);",
        "field = value;",
        "kinds",
    ),
    "who folds looks at those who fold": ("copies.h", "!w.has_copies", "w.taken == 0", "pages"),
    "the rest of a body is run twice": (
        "calls.h",
        "if (!frame.is_given) rest(w, levels);",
        "rest(w, levels);",
        "recursion",
    ),
    "the rest of a body is lost": ("calls.h", "rest(w, LEVELS);", "", "recursion"),
    "half of a list is done twice": ("walks.h", "  it.left = kept;", "", "walks"),
    "nobody waits for a value": (
        "values.h",
        "while (!branches[i].is_done.load(std::memory_order_acquire))",
        "while (false)",
        "values",
    ),
    "objects that come twice are shared": ("apart.h", "it->stamp == last_stamp", "false", "apart"),
    "objects that come twice go without locks": ("apart.h", "it->stamp == last_stamp", "false", "kinds"),
    "turns are done twice": ("loops.h", "  it.end -= part;", "", "loops"),
    "turns that are given back are done twice": ("loops.h", "  it.end = it.at;", "", "kinds"),
    "turns that are tried again are done twice": ("loops.h", "  frame.at = trial.at;", "", "kinds"),
    "what is given back is lost": (
        "closing.h",
        "    (gave_up ? it->task.run_alone : it->task.run)(w, it->task);",
        "",
        "kinds",
    ),
}
TRIES = 4


def is_told(program: str, text: str) -> bool:
    """Whether a run of several writes otherwise, ends otherwise or is told of by the sanitizer."""
    want = due(text)
    for threads in (4, 2, 16, 4)[:TRIES]:
        try:
            answer = ran(program, threads)
        except subprocess.TimeoutExpired:
            return True
        if b"WARNING" in answer.told or answer.status != 0 or answer.written != want:
            return True
    return False


@pytest.mark.parametrize("name", EDITS)
def test_runtime(builds: Builds, name: str, tmp_path: Path) -> None:
    file, old, new, program = EDITS[name]
    shutil.copytree(RUNTIME, tmp_path / "runtime")
    header = tmp_path / "runtime" / file
    assert header.read_text().count(old) == 1, f"{old!r} doesn't stand in {file} once"
    header.write_text(header.read_text().replace(old, new))
    text, out = programs.ALL[program], str(tmp_path / "program")
    compiler = Compiler(words=(*SANITIZED, "-w"), first=(str(tmp_path / "runtime"),))
    marked = emitted(text)
    # (Loops over different objects have no copies, so they are left alone where copies are wrong.)
    options = Options(is_forced=True, shares_apart=file != "copies.h")
    compiled(written(read(marked), options, pairs_of(marked)), out, compiler)
    assert is_told(out, text)


def test_sum_for_put(builds: Builds, monkeypatch: pytest.MonkeyPatch) -> None:
    right = Extent.one_kind
    monkeypatch.setattr(
        Extent, "one_kind", lambda self, place: Kind.PUT if right(self, place) is Kind.SUM else right(self, place)
    )
    assert is_told(builds.forced(programs.KINDS, SANITIZED), programs.KINDS)


def test_no_lock(builds: Builds, monkeypatch: pytest.MonkeyPatch) -> None:
    monkeypatch.setattr(Extent, "has_lock", lambda self, method: False)
    assert is_told(builds.forced(programs.KINDS, SANITIZED), programs.KINDS)


def test_other_for_sum(builds: Builds, monkeypatch: pytest.MonkeyPatch) -> None:
    """What others read is no sum: a read is left out."""
    monkeypatch.setattr("translator.kinds.Uses.read", lambda self, it: None)
    assert is_told(builds.forced(programs.KINDS, SANITIZED), programs.KINDS)
