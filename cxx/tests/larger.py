# Not proved (../README.md).
"""The natural programs at sizes at which a user would ask for threads: what is written in their texts instead."""

from pathlib import Path

PROGRAMS = Path(__file__).resolve().parent / "programs"
# By program: what stands in its text, each once, and what stands there instead.
SIZES: dict[str, list[tuple[str, str]]] = {
    "bh": [("sim(40)", "sim(6000)"), ("t < 3", "t < 4")],
    "em3d": [("NODES 60", "NODES 20000"), ("DEGREE 4", "DEGREE 20"), ("ITERS 5", "ITERS 40")],
    "graph": [("g.build(200)", "g.build(600000)")],
    "histogram": [("i < 50;", "i < 4000;"), ("measure(stats, 20)", "measure(stats, 4000)")],
    "queens": [("Queens q(7)", "Queens q(14)"), ("Board b(6)", "Board b(10)")],
    "shapes": [("i < 60;", "i < 20000;"), ("t < 20;", "t < 400;")],
    "treeadd": [("levels = 12", "levels = 21")],
    "water": [("Box box(4)", "Box box(16)")],
    "classic_bank": [("n = 100, m = 3000", "n = 5000, m = 1000000")],
    "classic_em3d": [("N = 160, D = 10, STEPS = 8", "N = 20000, D = 10, STEPS = 40")],
    "classic_histogram": [("n = 4000", "n = 1000000"), ("pass < 4", "pass < 24")],
    "classic_life": [("n = 24", "n = 500"), ("step < 10", "step < 50")],
    "classic_marksweep": [("n = 900", "n = 300000")],
    "classic_mst": [("n = 96", "n = 600")],
    "classic_nbody": [("n = 40", "n = 700")],
    "classic_pagerank": [("n = 400", "n = 200000")],
    "classic_power": [("F = 4, L = 5, B = 3", "F = 10, L = 20, B = 10"), ("round < 6", "round < 60")],
    "classic_reach": [("n = 700", "n = 500000")],
    "classic_treeadd": [("Tree(11, 1)", "Tree(20, 1)"), ("pass < 5", "pass < 20")],
    "classic_wordcount": [("docs = 50, length = 60", "docs = 1600, length = 600"), ("rnd(300); x", "rnd(3000); x")],
}


def larger(name: str) -> str:
    """The text of a program at its larger size."""
    text = (PROGRAMS / f"{name}.cc").read_text(encoding="utf-8")
    for old, new in SIZES[name]:
        assert text.count(old) == 1, (name, old)
        text = text.replace(old, new)
    return text
