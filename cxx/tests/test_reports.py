# Not proved (../README.md).
"""What the driver says of a program and of a text of the language: ranked reasons, JSON, the rule by which a program
is given."""

import json
import subprocess
import sys
from pathlib import Path

HERE = Path(__file__).resolve().parent
CXX = HERE.parent
sys.path.insert(0, str(CXX.parent / "native"))

from driving import building, findings, language, ranges, remarks, words  # noqa: E402
from driving.findings import PARALLEL, SERIAL, WITHIN, Finding, Findings  # noqa: E402
from driving.judging import Judgement  # noqa: E402
from driving.shaping import shaped  # noqa: E402
from porting.places import Place  # noqa: E402
from porting.port import Porter  # noqa: E402
from porting.reasons import Reason  # noqa: E402

LANGUAGE = """class Sum {
public:
  long total;
  void add(long v) { total += v; }
};
class Node {
public:
  Sum *sum;
  Node *next;
  void set(Sum *s, Node *n) { sum = s; next = n; }
  // a walk for (that isn't one)
  void walk(long v) {
    sum->add(v);
    next->walk(v);
  }
};
void main() {
  Sum *s = new Sum;
  Node *last = null;
  for (long i = 0; i < 10; i++) {
    Node *n = new Node;
    n->set(s, last);
    last = n;
  }
}
"""


WALK = """#include <cstdio>
struct Node {
  long value = 1;
  Node *next = nullptr;
  long much() const {
    long sum = 0;
    for (long i = 0; i < 900; i++) sum += (sum ^ value) + i;
    return sum;
  }
  void grow() { value += much(); }
};
int main() {
  Node *list = nullptr;
  for (int i = 0; i < 50; i++) {
    Node *made = new Node;
    made->next = list;
    list = made;
  }
  for (Node *n = list; n; n = n->next) n->grow();
  for (Node *n = list; n; n = n->next) printf("%ld\\n", n->value);
}
"""


def test_walks_and_what_runs_within_them_are_found(tmp_path: Path) -> None:
    building.deep()
    source = tmp_path / "walk.cc"
    source.write_text(WALK, encoding="utf-8")
    it = shaped(Porter([str(source)], []))
    found = findings.found(it, building.apart_lines(building.marked(it.ported)))
    states = {one.place.line: one.state for one in found.all}
    assert states == {7: WITHIN, 14: SERIAL, 19: PARALLEL, 20: SERIAL}


def test_loops_and_operations_of_the_language_have_places() -> None:
    source = language.Source("walk.cc", LANGUAGE)
    assert [(kind, place.line) for kind, place in source.loops] == [("for", 20)]
    assert {name: place.line for name, place in source.operations.items()} == {
        "Sum::add": 4,
        "Node::set": 10,
        "Node::walk": 12,
    }


def test_a_sample_of_the_language_as_json() -> None:
    sample = CXX.parent / "samples" / "page_scores.cc"
    words_ = [sys.executable, str(CXX / "commute++"), "--language", str(sample), "--json", "--no-check"]
    done = subprocess.run(words_, capture_output=True, text=True, check=False)
    assert done.returncode == 0, done.stderr
    told = json.loads(done.stdout)
    states = {(one["line"], one["what"]): one["state"] for one in told["loops"]}
    assert states[27, "recursion Page::visit"] == PARALLEL
    assert states[41, "loop"] == SERIAL
    reasons = {one["line"]: one["reasons"] for one in told["loops"]}
    assert "text" in reasons[41][0]["said"]


def test_a_wrong_text_of_the_language_has_status_1(tmp_path: Path) -> None:
    (tmp_path / "wrong.cc").write_text("class {", encoding="utf-8")
    words_ = [sys.executable, str(CXX / "commute++"), "--language", "wrong.cc"]
    done = subprocess.run(words_, capture_output=True, text=True, cwd=tmp_path, check=False)
    assert (done.returncode, done.stdout) == (1, "")
    assert done.stderr.startswith("commute++: wrong.cc: error ")


def test_reasons_of_the_loop_itself_come_first() -> None:
    text = "void f() {\n  for (;;) {\n    g();\n  }\n}\nvoid g() {}\n"
    said = ["two calls write n", "it divides (a.cc:6)", "it uses its own members (a.cc:3)", "it makes objects (a.cc:3)"]
    one = Finding(Place("a.cc", 2, 3), "loop", SERIAL, [Reason(each, "") for each in said], [], ["loop 2"])
    ranges.rank(Findings([one]), {"a.cc": text})
    assert [reason.said for reason in one.reasons] == list(reversed(said))


def test_by_which_threads_the_built_program_runs() -> None:
    assert Judgement(ratios={1: 1.2, 2: 1.5, 4: 3.0}).least_threads() == 1
    assert Judgement(ratios={1: 0.8, 2: 1.5, 4: 3.0}).least_threads() == 2
    assert Judgement(ratios={1: 1.1, 2: 0.9, 4: 3.0}).least_threads() == 4
    assert Judgement().least_threads() == 1


def test_arguments_of_the_check_are_split_as_a_shell_does() -> None:
    assert words.read(["a.cc", "--check", "-n 3 'two words'"]).arguments == ("-n", "3", "two words")


def test_progress_is_for_terminals() -> None:
    progress = remarks.Progress()
    progress.say("reading")
    progress.end()
