"""What is planted in a clone is found: a page that names what isn't there, a function of nine arguments. What a look finds
is the status of quick."""

from __future__ import annotations

import importlib.util
import pathlib
import shutil
import subprocess
import sys
from importlib.machinery import SourceFileLoader
from types import ModuleType

import pytest
import sources


@pytest.fixture(scope="module")
def clone(tmp_path_factory: pytest.TempPathFactory) -> pathlib.Path:
    if shutil.which("git") is None or not (sources.ROOT / ".git").exists():
        pytest.skip("this is no clone of git")
    folder = tmp_path_factory.mktemp("clone") / "commute"
    if subprocess.run(["git", "clone", "-q", "--shared", sources.ROOT, folder], check=False).returncode != 0:
        pytest.skip("git makes no clone here")
    return folder


def plant(path: pathlib.Path, old: str, new: str) -> None:
    text = path.read_text(encoding="utf-8")
    assert text.count(old) == 1
    path.write_text(text.replace(old, new), encoding="utf-8")


def asked(clone: pathlib.Path, *words: str) -> tuple[int, str]:
    done = subprocess.run(words, cwd=clone, stdout=subprocess.PIPE, text=True, check=False)
    return done.returncode, done.stdout


def test_a_stale_page(clone: pathlib.Path) -> None:
    plant(clone / "README.md", "[all 50 lines](samples/page_scores.cc)", "[all 50 lines](samples/page_score.cc)")
    status, told = asked(clone, "checks/docs", "-")
    assert status == 1 and "page_score.cc" in told


def test_a_function_of_nine_arguments(clone: pathlib.Path) -> None:
    nine = "\n\ndef nine(a: int, b: int, c: int, d: int, e: int, f: int, g: int, h: int, i: int) -> None:\n    pass\n"
    path = clone / "checks" / "sources.py"
    path.write_text(path.read_text(encoding="utf-8") + nine, encoding="utf-8")
    status, told = asked(clone, "checks/bounds")
    assert status == 1 and "nine has 9 arguments" in told


@pytest.fixture
def quick() -> ModuleType:
    loader = SourceFileLoader("quick", str(sources.ROOT / "checks" / "quick"))
    spec = importlib.util.spec_from_loader("quick", loader)
    assert spec is not None
    module = importlib.util.module_from_spec(spec)
    # (a dataclass looks up the module that it stands in)
    sys.modules["quick"] = module
    loader.exec_module(module)
    return module


@pytest.mark.parametrize("words, status", [(["true"], 0), (["false"], 1)])
def test_the_status_is_what_is_found(
    quick: ModuleType, monkeypatch: pytest.MonkeyPatch, words: list[str], status: int
) -> None:
    looks = [quick.Look("found", words), quick.Look("left out", ["false"], lacks="it isn't there")]
    monkeypatch.setattr(quick, "looks", lambda: iter(looks))
    assert quick.main([]) == status


def test_quick_looks_at_pages_and_bounds(quick: ModuleType) -> None:
    told = [look.told for look in quick.looks()]
    assert any(it.startswith("checks/docs") for it in told) and "checks/bounds" in told
