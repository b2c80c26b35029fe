# Not proved (../README.md).
"""A program of a thousand lines is ported, and judged as it is written, within three seconds beside clang: of processor
time, with the runs of its port and all that is asked of the program that judges."""

import resource
import subprocess
import sys
from pathlib import Path

HERE = Path(__file__).resolve().parent
CXX = HERE.parent
SECONDS, LINES = 3, 950
PARTS = ("bank_of_queues", "event_simulation", "quadtree", "bh", "classic_power", "shapes")


def thousand_lines(folder: Path) -> Path:
    """Several programs as one, each in a namespace of its own."""
    made: list[str] = []
    for part in PARTS:
        text = (
            (HERE / "programs" / f"{part}.cc").read_text(encoding="utf-8").rstrip().replace("int main()", "int run()")
        )
        lines = text.removesuffix("}").splitlines()
        heads = [line for line in lines if line.startswith("#include")]
        made = (
            heads
            + made
            + [f"namespace {part} {{", *(line for line in lines if line not in heads), "  return 0;", "}", "}"]
        )
    made += ["int main() {", *(f"  if ({part}::run() != 0) return 1;" for part in PARTS), "}"]
    assert len(made) > LINES
    source = folder / "thousand.cc"
    source.write_text("\n".join(made) + "\n", encoding="utf-8")
    return source


def spent(command: list[str], folder: Path) -> tuple[float, str]:
    """The processor time of a command and of all that it starts, and what it writes."""
    before = resource.getrusage(resource.RUSAGE_CHILDREN)
    done = subprocess.run(command, capture_output=True, text=True, cwd=folder, check=False)
    after = resource.getrusage(resource.RUSAGE_CHILDREN)
    assert done.returncode == 0, done.stderr
    return after.ru_utime + after.ru_stime - before.ru_utime - before.ru_stime, done.stdout


def test_a_thousand_lines_take_three_seconds(tmp_path: Path) -> None:
    source = thousand_lines(tmp_path)
    for words in (["port", "--plain", "--no-check"], ["told", "--plain", "--no-check"]):
        seconds, told = spent([sys.executable, str(CXX / words[0]), *words[1:], source.name], tmp_path)
        assert seconds < SECONDS
        # All parts of it were read, and not the first alone.
        assert words[0] == "port" or any(line.startswith(f"{source.name}:9") for line in told.splitlines())
