"""What bash completes behind commute."""

from __future__ import annotations

import pathlib
import shutil
import subprocess

import pytest

ROOT = pathlib.Path(__file__).resolve().parent.parent.parent
SCRIPT = ROOT / "share" / "bash-completion" / "completions" / "commute"
COMMANDS = ["run", "pairs", "plan", "emit", "gen", "load", "trace", "verify"]

pytestmark = pytest.mark.skipif(shutil.which("bash") is None, reason="bash isn't installed")


def completed(*words: str) -> list[str]:
    """What the last of the words may become."""
    script = 'source "$1"; shift; COMP_WORDS=("$@"); COMP_CWORD=$(($# - 1)); _commute; printf "%s\\n" "${COMPREPLY[@]}"'
    done = subprocess.run(
        ["bash", "-uc", script, "bash", str(SCRIPT), *words], stdout=subprocess.PIPE, text=True, check=True
    )
    return done.stdout.split()


def test_commands() -> None:
    assert completed("commute", "") == [*COMMANDS, "--prove"]
    assert completed("commute", "p") == ["pairs", "plan"]
    assert completed("./commute", "--prove", "") == COMMANDS


def test_numbers() -> None:
    assert completed("commute", "run", "3") == ["32"]
    assert "1000000" in completed("commute", "run", "4", "")
    assert "20000" in completed("./commute", "--prove", "gen", "7", "")
    assert completed("commute", "load", "7", "3", "4") == ["4"]


def test_nothing_more() -> None:
    assert completed("commute", "plan", "") == []
    assert completed("commute", "run", "4", "100", "") == []
