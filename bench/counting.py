"""Instructions by callgrind: what all threads of a run take, and what the first takes, which is its longest way where workers have alike to do."""

import os
import pathlib
import re
import shutil
import subprocess
import sys
import tempfile
from concurrent.futures import ThreadPoolExecutor

BUDGET = "1000000000"
# Threads take turns fairly, as they would on processors of their own, so that each gets its share of the work.
WORDS = ["valgrind", "--tool=callgrind", "--separate-threads=yes", "--fair-sched=yes"]


def can_count() -> bool:
    return shutil.which("valgrind") is not None


def counted(program: str, workers: int, text: str) -> tuple[int, int]:
    """The instructions of all threads of a run by so many workers, and those of the first."""
    with tempfile.TemporaryDirectory() as folder:
        out = os.path.join(folder, "counts")
        words = [*WORDS, f"--callgrind-out-file={out}", program, "run", str(workers), BUDGET]
        done = subprocess.run(
            words, input=text.encode(), stdout=subprocess.DEVNULL, stderr=subprocess.PIPE, check=False
        )
        if done.returncode != 0:
            sys.exit(f"valgrind: status {done.returncode}: {done.stderr.decode()[-500:]}")
        files = sorted(pathlib.Path(folder).glob("counts*"))
        found = [re.search(r"^(?:summary|totals): (\d+)", file.read_text(), flags=re.M) for file in files]
    threads = [int(each[1]) for each in found if each]
    return sum(threads), threads[0]


def all_counted(program: str, runs: list[tuple[int, str]]) -> list[tuple[int, int]]:
    """The counts of these workers and texts in order, as many at a time as there are processors: instructions don't mind other work."""
    with ThreadPoolExecutor(os.cpu_count()) as pool:
        return list(pool.map(lambda run: counted(program, *run), runs))
