# Not proved (../README.md).
"""Texts that must be refused, each with what is said of it: `// refused: LINE:COLUMN: words` at its end, one for each
line that is told, in order; of the whole program without a place. `// status: N` at its beginning, where it isn't 1."""

import re
import subprocess
import sys
from pathlib import Path

import pytest

HERE = Path(__file__).resolve().parent
CXX = HERE.parent
TEXTS = sorted((HERE / "refused").glob("*.cc"))
STATUS = re.compile(r"^// status: (\d)$", re.MULTILINE)
REFUSED = re.compile(r"^// refused: (.*)$", re.MULTILINE)


def told(name: str, *words: str, folder: Path) -> tuple[int, list[str]]:
    command = [sys.executable, str(CXX / "port"), "--plain", *words, name]
    done = subprocess.run(command, capture_output=True, text=True, cwd=folder, check=False)
    assert done.stdout == "" and "Traceback" not in done.stderr
    return done.returncode, done.stderr.splitlines()


@pytest.mark.parametrize("text", TEXTS, ids=lambda path: path.stem)
def test_each_refusal_by_its_place(text: Path, tmp_path: Path) -> None:
    written = text.read_text(encoding="utf-8")
    wanted = REFUSED.findall(written)
    status = STATUS.search(written)
    code, lines = told(text.name, "-o", str(tmp_path / "out.cc"), folder=text.parent)
    places = [line.replace(f"{text.name}:", "", 1) for line in lines if not line.startswith("of the standard library ")]
    assert (code, places) == (int(status.group(1)) if status else 1, wanted)
    assert wanted and not (tmp_path / "out.cc").exists()
