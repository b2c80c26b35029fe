"""How the places that say want of memory are found, by small files of Rattle."""

from __future__ import annotations

import pathlib
import subprocess

MEMORY = pathlib.Path(__file__).resolve().parent.parent / "memory"


def told(tmp_path: pathlib.Path, text: str) -> list[str]:
    """Line and function of each place."""
    path = tmp_path / "lib.rt"
    path.write_text(text)
    done = subprocess.run([MEMORY, path], stdout=subprocess.PIPE, text=True, check=True)
    return [line.removeprefix(f"{path}:") for line in done.stdout.splitlines()[:-1]]


def test_values_are_places(tmp_path: pathlib.Path) -> None:
    text = "fn one() {\n    return Err(AllocError);\n}\nfn two() {\n    n.ok_or(Memory)\n}\nfn three() {\n    Halt::Memory\n}\n"
    assert told(tmp_path, text) == ["2: one", "5: two", "8: three"]


def test_types_imports_and_clauses_are_none(tmp_path: pathlib.Path) -> None:
    text = (
        "use std::alloc::{AllocError, Global};\nghost use A.specs.{Memory};\n"
        "impl From<AllocError> for Memory {\n    fn from(_error: AllocError) -> Memory\n        ensures { λ e. e ≡ Memory }\n"
        "    {\n        it // Memory\n    }\n}\nenum Halt {\n    Ends,\n    Memory,\n}\n"
        'fn one() -> Result<Vec<u8>, Memory>\n    requires { Memory }\n{\n    f("Memory")\n}\n'
    )
    assert told(tmp_path, text) == []


def test_patterns_are_none(tmp_path: pathlib.Path) -> None:
    text = (
        "fn one(a: A) -> B {\n    if let Err(Memory) = a {\n    }\n    let Err(AllocError) = a else {\n    };\n"
        "    let it = matches!(a, Err(Fault::Memory));\n    match a {\n        Ok(x) => { x }\n"
        "        Err(Fault::Memory) => f(x),\n        Err(_) => Err(Fault::Memory),\n    }\n}\n"
    )
    assert told(tmp_path, text) == ["10: one"]


def test_each_place_of_the_crates_has_a_reason() -> None:
    done = subprocess.run([MEMORY], stdout=subprocess.PIPE, text=True)
    assert done.returncode == 0, done.stdout
