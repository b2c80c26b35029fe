"""Which files are code."""

from __future__ import annotations

import pytest
import sources


def test_git_and_the_walk_find_the_same_code(monkeypatch: pytest.MonkeyPatch) -> None:
    by_git = [*sources.tools()]
    monkeypatch.setattr(sources, "tracked", lambda: None)
    assert {*by_git} <= {*sources.tools()}
    assert {"build/proving.py", "checks/docs", "checks/sources.py", "bench/fib.py"} <= {*by_git}
    assert not {"commute", "build/which", "x", "native/program.h"} & {*by_git}
