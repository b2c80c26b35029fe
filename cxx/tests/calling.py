# Not proved (../README.md).
"""`commute++` called as a user calls it, and two programs for that."""

import os
import subprocess
import sys
from pathlib import Path

CXX = Path(__file__).resolve().parent.parent
DRIVER = CXX / "commute++"
HEAVY = """#include <cstdio>
#include <vector>
struct Cell {
  long n = 0;
  long much(long v) const {
    long sum = 0;
    for (long i = 0; i < 20000; i++) sum += (sum ^ v) + i;
    return sum;
  }
  void add(long v) { n += much(v); }
};
int main() {
  std::vector<Cell *> all;
  for (int i = 0; i < 4000; i++) all.push_back(new Cell);
  for (Cell *c : all) c->add(3);
  long sum = 0;
  for (Cell *c : all) sum += c->n;
  printf("%5ld|%-4d|%x\\n", sum, 7, 255);
  return 3;
}
"""
SERIAL = """#include <cstdio>
int main() {
  long x = 1;
  for (int i = 0; i < 9; i++) x = x * 3 + i;
  printf("%ld\\n", x);
}
"""


def call(folder: Path, *words: str) -> subprocess.CompletedProcess[str]:
    return subprocess.run(
        [sys.executable, str(DRIVER), *words], capture_output=True, text=True, cwd=folder, check=False
    )


def ran(folder: Path, name: str = "out", threads: str = "") -> tuple[str, int]:
    environment = {**os.environ, **({"COMMUTE_THREADS": threads} if threads else {})}
    done = subprocess.run([str(folder / name)], capture_output=True, text=True, env=environment, check=False)
    return done.stdout, done.returncode


def written(folder: Path, name: str, text: str) -> str:
    (folder / name).write_text(text, encoding="utf-8")
    return name
