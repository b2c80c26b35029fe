# Not proved (../README.md).
"""Each program is ported, and its port writes what g++'s program writes."""

from pathlib import Path

import pytest
from porting import check
from porting.orders import agreed
from porting.port import Porter

HERE = Path(__file__).resolve().parent
PROGRAMS = sorted((HERE / "constructs").glob("*.cc")) + sorted((HERE / "programs").glob("*.cc"))


@pytest.mark.parametrize("source", PROGRAMS, ids=lambda path: f"{path.parent.name}/{path.stem}")
def test_port_writes_what_the_program_writes(source: Path) -> None:
    made, answer = agreed(Porter([str(source)], [], arguments=True))
    output, code = check.expected([str(source)], [])
    check.compare(check.written(made, answer), output, code)
