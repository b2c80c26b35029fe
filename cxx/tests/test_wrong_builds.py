# Not proved (../README.md).
"""A wrong mark and a wrong translation, made on purpose, are found by the check, and the program of g++ is given."""

import subprocess
import sys
from pathlib import Path

import pytest

HERE = Path(__file__).resolve().parent
sys.path.insert(0, str(HERE.parent.parent / "native"))

from driving import building, command  # noqa: E402
from driving.building import Marked  # noqa: E402
from porting.port import Ported  # noqa: E402
from translator import Options, tree  # noqa: E402

MIX = """#include <cstdio>
#include <vector>
struct Mix {
  long x = 1;
  void add(long v) { x += v; }
  void mix(long v) { x = x * 3 + v; }
};
struct Turn {
  Mix *to = nullptr;
  void add(long v) { to->add(v); }
  void mix(long v) { to->mix(v); }
};
int main() {
  Mix *one = new Mix;
  std::vector<Turn *> all;
  for (int i = 0; i < 4000; i++) {
    all.push_back(new Turn);
    all.back()->to = one;
  }
  for (int i = 0; i < 4000; i++) all[i]->add(i);
  for (int i = 0; i < 4000; i++) all[i]->mix(i);
  printf("%ld\\n", one->x);
}
"""


def built(folder: Path, capfd: pytest.CaptureFixture[str]) -> str:
    """What the driver says; the program that it gives has to write what that of g++ writes."""
    source, own, out = folder / "mix.cc", folder / "own", folder / "out"
    source.write_text(MIX, encoding="utf-8")
    subprocess.run(["g++", "-O1", str(source), "-o", str(own)], check=True)
    assert command.main(["-O1", str(source), "-o", str(out)]) == 0
    one, other = (subprocess.run([str(program)], capture_output=True, check=True).stdout for program in (own, out))
    assert one == other
    return capfd.readouterr().err


def test_a_wrong_mark_is_found(
    tmp_path: Path, monkeypatch: pytest.MonkeyPatch, capfd: pytest.CaptureFixture[str]
) -> None:
    right = building.marked

    def wrong(ported: Ported) -> Marked:
        it = right(ported)
        head = [line for line in it.text.split("\n") if line.startswith("for (")][-1]
        return Marked(ported, it.text.replace(head, f"/*@parallel*/ {head}"), it.pairs)

    monkeypatch.setattr(building, "marked", wrong)
    assert "compiled as it is: a fault of commute++" in built(tmp_path, capfd)


def test_a_wrong_translation_is_found(
    tmp_path: Path, monkeypatch: pytest.MonkeyPatch, capfd: pytest.CaptureFixture[str]
) -> None:
    right = building.unit

    def wrong(it: Marked, program: tree.Program, options: Options, heads: list[str] | None = None) -> str:
        text = right(it, program, options, heads)
        return text if options.is_plain else text.replace("* 3L", "* 5L")

    monkeypatch.setattr(building, "unit", wrong)
    assert "compiled as it is: a fault of commute++" in built(tmp_path, capfd)
