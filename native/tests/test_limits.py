"""Not proved: programs end right where memory is limited, and with compilers and words that users choose."""

from __future__ import annotations

import os
import shutil
import subprocess

from trials import programs
import pytest
from trials.harness import Answer, Builds, NATIVE, asked, due

from translator import Compiler


def limited(program: str, kilobytes: int, threads: int) -> Answer:
    return asked(
        ["bash", "-c", f"ulimit -v {kilobytes} && exec {program}"], COMMUTE_THREADS=str(threads), COMMUTE_TIMES="1"
    )


@pytest.mark.parametrize("name", ["kinds", "pages", "recursion"])
@pytest.mark.parametrize("kilobytes", [4_000_000, 1_000_000, 300_000])
def test_limited_addresses(builds: Builds, name: str, kilobytes: int) -> None:
    """16 threads where there is room for few copies or none: the rest is done alone."""
    text = programs.ALL[name]
    answer = limited(builds.forced(text), kilobytes, 16)
    assert (answer.status, answer.written) == (0, due(text)), answer.told


def test_no_memory(builds: Builds) -> None:
    """What can't be had is told in a line."""
    text = "class A { public: long at[1000000]; }; int main() { for (long i = 0; i < 3; i++) { A *a = new A(); } }"
    answer = limited(builds.built(text), 30_000, 2)
    assert (answer.status, answer.told) == (1, b"no memory\n")


@pytest.mark.parametrize("compiler", ["g++", "clang++"])
def test_warnings(builds: Builds, compiler: str) -> None:
    if shutil.which(compiler) is None:
        pytest.skip(f"{compiler} isn't there")
    for name, text in programs.ALL.items():
        source = builds.folder / f"{name}.cc"
        source.write_text(text)
        out = builds.folder / f"{name}_{compiler[0]}.cc"
        subprocess.run([str(NATIVE / "build"), str(source), "-o", str(out)], check=True)
        command = Compiler(compiler, ("-Wall", "-Wextra", "-Werror", "-fsyntax-only")).command()
        done = subprocess.run([*command, str(out)], capture_output=True, check=False)
        assert done.returncode == 0, done.stderr.decode()[:3000]


def test_clang(builds: Builds) -> None:
    if shutil.which("clang++") is None:
        pytest.skip("clang++ isn't there")
    source, out = builds.folder / "recursion.cc", builds.folder / "recursion_by_clang"
    source.write_text(programs.RECURSION)
    subprocess.run(
        [str(NATIVE / "build"), str(source), "-o", str(out), "-DFORCED=100"],
        env={**os.environ, "CXX": "clang++"},
        check=True,
    )
    for threads in 1, 4:
        assert asked([str(out)], COMMUTE_THREADS=str(threads)).written == due(programs.RECURSION)


@pytest.mark.parametrize("name", ["kinds", "recursion", "apart"])
def test_arm(builds: Builds, name: str) -> None:
    """On 64-bit Arm, emulated. More than two threads take minutes there where many copies are reserved."""
    compiler = "aarch64-linux-gnu-g++-12"
    if shutil.which(compiler) is None or shutil.which("qemu-aarch64") is None:
        pytest.skip(
            f"{compiler} and qemu-aarch64 aren't there: Debian's packages g++-12-aarch64-linux-gnu and qemu-user"
        )
    text, out = programs.ALL[name], builds.folder / f"{name}_arm"
    source = builds.folder / f"{name}_arm.cc"
    source.write_text(text)
    words = [str(NATIVE / "build"), str(source), "-o", str(out), "--forced", "-O1", "-static"]
    subprocess.run(words, env={**os.environ, "CXX": compiler}, check=True)
    for threads in 1, 2:
        assert asked(["qemu-aarch64", str(out)], COMMUTE_THREADS=str(threads)).written == due(text)


def test_faults(builds: Builds) -> None:
    """No traceback reaches a user."""
    source = builds.folder / "refused.cc"
    source.write_text("int main() { x = 1; }")
    told = asked([str(NATIVE / "build"), str(source), "-o", "none"])
    assert told.told == f"{source}: error 1:14 E24\n".encode() and told.status == 1
    told = asked([str(NATIVE / "build"), "/no/such/file", "-o", "none"])
    assert told.told == b"/no/such/file: No such file or directory\n" and told.status == 1
    assert asked([str(NATIVE / "build")]).told.startswith(b"Not proved:")
