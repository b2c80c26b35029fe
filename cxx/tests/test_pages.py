# Not proved (../README.md).
"""Reports in a browser: four programs and a text of the language, on small and wide windows, on dark and white, by
keyboard and by what a screen reader is told. PAGES=FOLDER keeps pictures."""

import os
import re
import shutil
import subprocess
import sys
from pathlib import Path
from typing import Iterator

import pytest

from browser import Browser
from calling import HEAVY

HERE = Path(__file__).resolve().parent
CXX = HERE.parent
CHROMIUM = shutil.which("chromium") or shutil.which("chromium-browser") or shutil.which("google-chrome")
pytestmark = pytest.mark.skipif(CHROMIUM is None, reason="chromium isn't installed (Debian: chromium)")

WIDTHS = (400, 1400)
# Each page, its source, and more words. One is checked, so that its page has a table of times; one isn't understood.
PAGES = {
    "bh": ["-O2", str(HERE / "programs" / "bh.cc"), "--no-check"],
    "graph": ["-O2", str(HERE / "programs" / "graph.cc"), "--no-check"],
    "heavy": ["-O2", "heavy.cc"],
    "refused": ["-O2", "refused.cc"],
    "language": ["--language", str(CXX.parent / "samples" / "page_scores.cc")],
}
REFUSED = """#include <cstdio>
double half(double x) { return x / 2; }
int main() {
  for (int i = 0; i < 3; i++) printf("%f <& \\"%d\\"\\n", half(i), i);
}
"""
# The least contrast of texts with what is behind them, and what is wider than the window.
LOOK = """(() => {
  const numbers = text => { const all = (text.match(/[\\d.]+/g) || []).map(Number); return all.length < 4 ? [...all, 1] : all; };
  const light = color => color.slice(0, 3).map(it => it / 255).map(it => it <= 0.03928 ? it / 12.92 : ((it + 0.055) / 1.055) ** 2.4)
    .reduce((sum, it, at) => sum + it * [0.2126, 0.7152, 0.0722][at], 0);
  const behind = element => {
    for (let at = element; at; at = at.parentElement) {
      const color = numbers(getComputedStyle(at).backgroundColor);
      if (color[3] > 0.99) return color;
    }
    return [255, 255, 255, 1];
  };
  let least = 99, where = "";
  const texts = document.createTreeWalker(document.body, NodeFilter.SHOW_TEXT);
  while (texts.nextNode()) {
    const element = texts.currentNode.parentElement;
    if (!texts.currentNode.data.trim() || !element.getClientRects().length) continue;
    const [one, other] = [light(numbers(getComputedStyle(element).color)), light(behind(element))].sort((a, b) => b - a);
    const contrast = (one + 0.05) / (other + 0.05);
    if (contrast < least) { least = contrast; where = texts.currentNode.data; }
  }
  const ids = [...document.querySelectorAll("[id]")].map(it => it.id);
  return {
    contrast: least, where,
    wide: document.documentElement.scrollWidth - innerWidth,
    twice: ids.filter((it, at) => ids.indexOf(it) !== at),
    lost: [...document.querySelectorAll("a[href^='#']")].map(it => it.hash.slice(1)).filter(it => !ids.includes(it)),
    heads: [...document.querySelectorAll("h1, h2, h3, h4")].map(it => Number(it.tagName[1])),
    dark: matchMedia("(prefers-color-scheme: dark)").matches,
    order: [...document.querySelectorAll("a[href], summary, [tabindex='0']")].filter(it => it.checkVisibility()).length,
  };
})()"""
FOCUS = """(() => {
  const it = document.activeElement, style = getComputedStyle(it);
  const all = [...document.querySelectorAll("a[href], summary, [tabindex='0']")].filter(it => it.checkVisibility());
  return { at: all.indexOf(it), name: it.getAttribute("aria-label") || it.textContent.trim(),
           outline: style.outlineStyle !== "none" && parseFloat(style.outlineWidth) >= 1 };
})()"""


@pytest.fixture(scope="module")
def pages(tmp_path_factory: pytest.TempPathFactory) -> dict[str, Path]:
    folder = tmp_path_factory.mktemp("pages")
    (folder / "refused.cc").write_text(REFUSED, encoding="utf-8")
    (folder / "heavy.cc").write_text(HEAVY, encoding="utf-8")
    made = {}
    for name, words in PAGES.items():
        out = [] if name == "language" else ["-o", "out"]
        command = [sys.executable, str(CXX / "commute++"), *words, *out, "--report", f"{name}.html"]
        done = subprocess.run(command, cwd=folder, capture_output=True, text=True, check=False)
        assert done.returncode == 0, done.stderr
        made[name] = folder / f"{name}.html"
    return made


@pytest.fixture(scope="module")
def browser(tmp_path_factory: pytest.TempPathFactory) -> Iterator[Browser]:
    assert CHROMIUM is not None
    made = Browser(CHROMIUM, tmp_path_factory.mktemp("browser"))
    yield made
    made.close()


@pytest.mark.parametrize("is_dark", [False, True])
@pytest.mark.parametrize("width", WIDTHS)
@pytest.mark.parametrize("name", PAGES)
def test_page_is_readable(browser: Browser, pages: dict[str, Path], name: str, width: int, is_dark: bool) -> None:
    browser.show(pages[name], width, is_dark)
    seen = browser.value(LOOK)
    assert browser.complaints() == []
    assert seen["dark"] == is_dark
    assert seen["wide"] <= 0, "the page is wider than the window"
    assert seen["contrast"] >= 4.5, seen["where"]
    assert (seen["twice"], seen["lost"]) == ([], [])
    assert seen["heads"][0] == 1 and seen["heads"].count(1) == 1
    assert all(after <= before + 1 for before, after in zip(seen["heads"], seen["heads"][1:])), seen["heads"]
    if "PAGES" in os.environ:
        browser.picture(Path(os.environ["PAGES"]) / f"{name}.{width}.{'dark' if is_dark else 'white'}.png")


@pytest.mark.parametrize("name", PAGES)
def test_page_goes_by_keyboard(browser: Browser, pages: dict[str, Path], name: str) -> None:
    """Tab comes to all that can be followed or opened, in the order of the page, and one sees where it is."""
    browser.show(pages[name], WIDTHS[1], False)
    count = browser.value(LOOK)["order"]
    seen = []
    for _ in range(count):
        browser.press("Tab", 9)
        seen.append(browser.value(FOCUS))
    assert [one["at"] for one in seen] == list(range(count))
    assert all(one["name"] and one["outline"] for one in seen), seen
    assert seen[0]["name"] == "To the loops and recursions"


@pytest.mark.parametrize("name", PAGES)
def test_page_is_told_whole(browser: Browser, pages: dict[str, Path], name: str) -> None:
    """Parts have roles and names, and states are words: a screen reader says of each loop's line what it is."""
    browser.show(pages[name], WIDTHS[1], False)
    tree = browser.tree()
    roles = {role for role, _, _ in tree}
    assert {"banner", "main", "complementary", "heading"} <= roles
    assert ("region", "Source") in {(role, name) for role, name, _ in tree}
    for role, said, properties in tree:
        if properties.get("focusable") and role != "RootWebArea":
            assert said, (role, properties)
    links = [said for role, said, _ in tree if role == "link" and re.match(r"line \d+: ", said)]
    text = pages[name].read_text(encoding="utf-8")
    cards = text.count('<section class="card ')
    assert (cards > 0) == (name != "refused")
    assert len(links) > 0 or cards == 0
    assert all(re.search(r"(parallel|serial)", said) for said in links), links
