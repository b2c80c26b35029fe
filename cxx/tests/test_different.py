# Not proved (../README.md).
"""Loops over different objects: which of them are shared, and that what is built of them writes what g++'s program does."""

import os
import subprocess
from pathlib import Path

import pytest

from driving import building, findings, lengths, shaping
from driving.findings import SERIAL, SHARED
from driving.judging import Runner
from porting.port import Porter
from translator import Options

PROGRAM = """#include <cstdio>
#include <vector>
struct Row {
  int number;
  std::vector<int> items;
  long total = 0;
  Row *next = nullptr;
  explicit Row(int n) : number(n) {
    for (int i = 0; i < 20; i++) items.push_back(i * n % 17);
  }
  long sum() const {
    long s = 0;
    for (int item : items) s = s * 3 % 1000 + item;
    return s;
  }
  void fill(int seed) {
    for (size_t i = 0; i < items.size(); i++) items[i] = (items[i] * 5 + seed) % 101;
    total = total * 7 % 10007 + sum();
  }
  void pass(int by) {
    total = total * 3 % 10007 + by;
    next->total += total;
  }
};
int main() {
  std::vector<Row *> rows, twice;
  for (int i = 0; i < 300; i++) rows.push_back(new Row(i));
  for (int i = 0; i < 300; i++) rows[i]->next = rows[(i + 1) % 300];
  for (int i = 0; i < 300; i++) twice.push_back(rows[i * 2 % 300]);
  for (int step = 0; step < 9; step++) {
    for (Row *row : rows) row->fill(step); // shared
    for (Row *row : rows) { // shared
      int at = row->number % 20;
      row->items[at] += step;
      row->total -= row->items[19 - at] * row->sum();
    }
    for (Row *row : twice) row->fill(step + 1); // shared
    for (Row *row : rows) row->pass(step); // serial
    for (Row *row : rows) row->total = row->total * 2 % 1009 + row->next->sum(); // shared
    for (Row *row : rows) row->items[0] = row->next->items[1] + row->items[0] % 50; // serial
  }
  long all = 0;
  for (Row *row : rows) all = all * 31 % 1000003 + row->total + row->sum();
  printf("%ld\\n", all);
}
"""


@pytest.fixture(scope="module", name="source")
def of_program(tmp_path_factory: pytest.TempPathFactory) -> str:
    building.deep()
    file = tmp_path_factory.mktemp("different") / "rows.cc"
    file.write_text(PROGRAM, encoding="utf-8")
    return str(file)


def test_which_loops_are_shared(source: str) -> None:
    it = shaping.shaped(Porter([source], []))
    found = findings.found(it, building.apart_lines(building.marked(it.ported)))
    states = {one.place.line: one.state for one in found.all}
    for number, line in enumerate(PROGRAM.split("\n"), 1):
        if "// shared" in line:
            assert states[number] in SHARED, line
        elif "// serial" in line:
            assert states[number] == SERIAL, line


def test_what_is_built_writes_the_same(source: str, tmp_path: Path) -> None:
    subprocess.run(["g++", "-O1", source, "-o", str(tmp_path / "own")], check=True)
    shaped = shaping.shaped(Porter([source], []))
    long, _ = lengths.found(building.marked(shaped.ported), str(tmp_path), Runner(60))
    it = building.marked(shaped.sized(long).ported)
    building.made(building.unit(it, it.program(), Options(is_forced=True)), str(tmp_path / "out"), ["-O1"], True)
    due = subprocess.run([str(tmp_path / "own")], capture_output=True, check=True)
    for threads in ("1", "2", "4", "4", "4"):
        environment = {**os.environ, "COMMUTE_THREADS": threads}
        seen = subprocess.run([str(tmp_path / "out")], capture_output=True, env=environment, check=True)
        assert seen.stdout == due.stdout
