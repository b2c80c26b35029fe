"""Not proved (../README.md). What a user asked to be told of the loops and recursions: remarks, reasons, a report as a
page or as text, JSON."""

import json
import sys
from typing import Any

from . import lines, page, remarks
from .findings import Finding
from .lines import About
from .words import Words


def give(said: Words, about: About) -> None:
    if said.report:
        _write(said.report, text(about, said.report.endswith((".html", ".htm"))))
    if said.why:
        print("\n".join(lines.why(about.found, said.why, about.why)))
    if said.json:
        print(json.dumps(value(about), indent=2, ensure_ascii=False))
    if said.remarks:
        for one in about.found.all:
            remarks.remark(str(one.place), one.sentence(about.found.says_why(one)))


def text(about: About, is_page: bool) -> str:
    return page.page(about) if is_page else "\n".join(lines.report(about)) + "\n"


def _write(name: str, told: str) -> None:
    try:
        with open(name, "w", encoding="utf-8") as out:
            out.write(told)
    except OSError as error:
        print(f"{remarks.NAME}: {name}: {error.strerror}", file=sys.stderr)


def value(about: About) -> dict[str, Any]:
    """All that a report has, for other tools."""
    judgement = about.judgement
    return {
        "files": about.files,
        "parallel": about.is_parallel,
        "why": about.why,
        "not_understood": about.refused,
        "loops": [of(one) for one in about.found.all],
        "rewrites": [{**placed(place.file, place.line, place.column), "what": what} for place, what in about.rewrites],
        "given_tasks": judgement.given if judgement is not None else None,
        "seconds_of_gxx": judgement.own if judgement is not None and judgement.walls else None,
        "times_as_fast": {str(count): ratio for count, ratio in judgement.ratios.items()} if judgement else {},
    }


def placed(file: str, line: int, column: int) -> dict[str, Any]:
    return {"file": file, "line": line, "column": column}


def of(one: Finding) -> dict[str, Any]:
    return {
        **placed(one.place.file, one.place.line, one.place.column),
        "what": one.what,
        "state": one.state,
        "share": one.share,
        "runs": one.runs,
        "reasons": [{"said": reason.said, "change": reason.mended} for reason in one.reasons],
        "pairs": [
            {"first": pair.one, "second": pair.other, "why": None if pair.reason is None else pair.reason.said}
            for pair in one.pairs
        ],
    }
