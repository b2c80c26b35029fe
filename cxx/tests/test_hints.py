# Not proved (../README.md).
"""The first reason that is told is one that helps: small programs, the line of one of their loops or recursions, what is
said of it; and where that is about a shape, the program as the hint says, whose loop runs in parallel."""

import subprocess
import sys
from pathlib import Path

import pytest

CXX = Path(__file__).resolve().parent.parent
HEAD = "#include <algorithm>\n#include <cstdio>\n#include <vector>\n"
MAIN = """int main() {
  std::vector<Truck *> all;
  for (int i = 0; i < 9; i++) all.push_back(new Truck(i));
  for (Truck *t : all) t->step();
  printf("%ld\\n", all[3]->at);
}
"""
# A function that reads the members which its caller changes.
ASKS = """struct Truck {
  long at, goal = 100, went = 0;
  explicit Truck(long from) : at(from) {}
  long rest() const { return goal - at; }
  long next() const { return rest() < 7 ? goal : at + rest() / 7; }
  void step() {
    at += 3;
    went += next();
    at = 5;
  }
};
"""
PASSES = ASKS.replace(
    "long next() const { return rest() < 7 ? goal : at + rest() / 7; }",
    "long next(long at) const { return goal - at < 7 ? goal : at + (goal - at) / 7; }",
).replace("next();", "next(at);")
TREE = """struct Node {
  int key;
  Node *left = nullptr, *right = nullptr;
  explicit Node(int k) : key(k) {}
  int depth() const { return 1 + std::max(left ? left->depth() : 0, right ? right->depth() : 0); }
  long sum() const { return key + (left ? left->sum() : 0) + (right ? right->sum() : 0); }
};
static Node *insert(Node *t, int k) {
  if (!t) return new Node(k);
  if (k < t->key) t->left = insert(t->left, k);
  else t->right = insert(t->right, k);
  return t;
}
int main() {
  Node *root = nullptr;
  for (int i = 0; i < 9; i++) root = insert(root, i * 7 % 9);
  std::vector<int> keys;
  for (int i = 0; i < 9; i++) keys.push_back(i * 5 % 7);
  int best = 0;
  long total = 0, code = 1;
  for (int k : keys) if (k > best) best = k;
  for (int k : keys) total += k;
  for (int k : keys) code = code * 3 + k;
  printf("%d %ld %d %ld %ld\\n", root->depth(), root->sum(), best, total, code % 1000);
}
"""


def told(text: str, folder: Path) -> dict[str, str]:
    """What is said of each line, in the program as it is written."""
    (folder / "it.cc").write_text(HEAD + text, encoding="utf-8")
    command = [sys.executable, str(CXX / "told"), "--plain", "it.cc"]
    done = subprocess.run(command, capture_output=True, text=True, cwd=folder, check=False)
    assert done.returncode == 0, done.stderr
    return {line.split(": ")[0]: line.split(": ", 1)[1] for line in done.stdout.splitlines() if line[:3] == "it."}


def line_of(text: str, part: str) -> str:
    return f"it.cc:{(HEAD + text)[: (HEAD + text).index(part)].count(chr(10)) + 1}"


def test_a_function_that_asks_for_what_its_caller_changes(tmp_path: Path) -> None:
    said = told(ASKS + MAIN, tmp_path)[line_of(ASKS + MAIN, "for (Truck *t")]
    asked = line_of(ASKS, "next();")
    assert said == (
        f"loop is serial: Truck::step asks Truck::next for at, which it changes itself ({asked}); "
        "pass at to it as arguments, or write what it computes here"
    )
    assert told(PASSES + MAIN, tmp_path)[line_of(PASSES + MAIN, "for (Truck *t")] == "loop runs in parallel"


@pytest.mark.parametrize(
    "part, ending",
    [
        (
            "int depth()",
            "pass the value so far along as an argument, and an object that keeps the greatest or the least of them",
        ),
        ("long sum()", "pass an object along to which each call adds"),
        (
            "for (int i = 0; i < 9; i++) root",
            "let an object keep root as a member, and let each iteration call a member function of it",
        ),
        (
            "for (int k : keys) if",
            "let an object keep the greatest or the least as a member, which each iteration puts by std::max or std::min",
        ),
        ("for (int k : keys) total", "let each add to a member of an object"),
        (
            "for (int k : keys) code",
            "let each leave what it finds in a member, where that may be a sum, the greatest or the least",
        ),
    ],
)
def test_what_is_passed_on(part: str, ending: str, tmp_path: Path) -> None:
    assert told(TREE, tmp_path)[line_of(TREE, part)].endswith("; " + ending)


FILLED = """#include <map>
struct Shop {
  std::map<int, long> stock;
  std::vector<long> order;
  void sell(int what) { stock[what] += 2; }
  void note(long what) { order.push_back(what); }
};
struct Client {
  Shop *shop;
  int wants;
  Client(Shop *s, int w) : shop(s), wants(w) {}
  void buy() { shop->sell(wants); }
  void ask() { shop->note(wants); }
};
int main() {
  Shop shop;
  std::vector<Client *> all;
  for (int i = 0; i < 9; i++) all.push_back(new Client(&shop, i % 4));
  for (Client *c : all) c->buy();
  for (Client *c : all) c->ask();
  printf("%ld %zu\\n", shop.stock[2], shop.order.size());
}
"""


@pytest.mark.parametrize(
    "part, said",
    [
        (
            "for (Client *c : all) c->buy",
            "stock (it.cc:6), a container of the library, is changed, and the order of the",
        ),
        ("for (Client *c : all) c->ask", "each adds an item to order (it.cc:7), behind those that are there"),
    ],
)
def test_containers_that_are_filled(part: str, said: str, tmp_path: Path) -> None:
    assert said in told(FILLED, tmp_path)[line_of(FILLED, part)]
