"""Not proved: one folder of builds for all tests of a run."""

import os
import shutil

import pytest
from trials.harness import Builds, COMMUTE


@pytest.fixture(scope="session")
def program() -> str:
    if not COMMUTE:
        pytest.skip("the variable COMMUTE names no program")
    return COMMUTE


@pytest.fixture(scope="session")
def builds(program: str, tmp_path_factory: pytest.TempPathFactory) -> Builds:
    """What is built takes minutes, so checks/native asks for it, and others leave it out."""
    if "NATIVE_RANDOM" not in os.environ:
        pytest.skip("checks/native builds and runs programs")
    if shutil.which("g++") is None:
        pytest.skip("g++ isn't there: Debian's package g++ has it")
    return Builds(tmp_path_factory.mktemp("builds"))
