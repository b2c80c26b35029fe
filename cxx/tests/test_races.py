# Not proved (../README.md).
"""Built programs under the thread sanitizer, with all shared that may be: no race, and the bytes of g++'s program."""

import os
import re
import shutil
import subprocess
import sys
from pathlib import Path

import pytest

HERE = Path(__file__).resolve().parent
sys.path.insert(0, str(HERE.parent.parent / "native"))

from driving import building, lengths, shaping  # noqa: E402
from driving.judging import Runner  # noqa: E402
from porting.port import Porter  # noqa: E402
from translator import Options  # noqa: E402

TASKS = re.compile(r"^seconds \S+ regions \d+ tasks (\d+)", re.M)
NAMES = ["bh", "water", "graph", "histogram", "shapes", "classic_nbody", "classic_bank", "treeadd"]


@pytest.mark.skipif(shutil.which("setarch") is None, reason="setarch isn't installed (Debian: util-linux)")
@pytest.mark.parametrize("name", NAMES)
def test_no_race(tmp_path: Path, name: str) -> None:
    building.deep()
    source = str(HERE / "programs" / f"{name}.cc")
    own, out = str(tmp_path / "own"), str(tmp_path / "out")
    subprocess.run(["g++", "-O1", "-w", source, "-o", own], check=True)
    shaped = shaping.shaped(Porter([source], []))
    long, _ = lengths.found(building.marked(shaped.ported), str(tmp_path), Runner(60))
    it = building.marked(shaped.sized(long).ported)
    text = building.unit(it, it.program(), Options(is_forced=True))
    building.made(text, out, ["-O1", "-g", "-fsanitize=thread"], True)
    due = subprocess.run([own], capture_output=True, check=False)
    given = 0
    for _ in range(3):
        environment = {**os.environ, "COMMUTE_THREADS": "4", "COMMUTE_TIMES": "1"}
        done = subprocess.run(["setarch", "-R", out], capture_output=True, env=environment, check=False)
        errors = done.stderr.decode(errors="replace")
        if "FATAL: ThreadSanitizer" in errors:
            pytest.skip("the thread sanitizer doesn't run here")
        assert "WARNING: ThreadSanitizer" not in errors, errors[:3000]
        assert (done.stdout, done.returncode) == (due.stdout, due.returncode)
        told = TASKS.search(errors)
        given += int(told[1]) if told else 0
        if given:
            break
    assert given > 0, "no thread gave work to another"
