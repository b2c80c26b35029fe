"""Not proved (../README.md). The report as a page: one file, without scripts, that says its state in words and not by
colours alone."""

import os
from html import escape

from . import lines, remarks
from .findings import APART, MIXED, PARALLEL, WITHIN, Finding, Pair
from .judging import threads
from .lines import About, percent
from .ranges import Ranges, texts_of
from .style import STYLE

SHORT = {PARALLEL: "par", APART: "par", MIXED: "mix", WITHIN: "mix"}
# A matrix of more functions than these can't be read.
MOST_FUNCTIONS = 12
# Below these a share has no piece of the bar.
LEAST_SHARE = 0.004
# Below these its piece has no label.
LABELLED = 0.08
# What may be wider than the window is moved by keys, too.
WIDE = ' tabindex="0" role="region" aria-label="{}"'


def state(one: Finding) -> str:
    return SHORT.get(one.state, "ser")


class Page:
    """A page that is made of the files of a program."""

    def __init__(self, about: About) -> None:
        self.about = about
        files = list(dict.fromkeys([*about.files, *(one.place.file for one in about.found.all)]))
        self.texts = texts_of(files)
        self.ranges = {file: Ranges(text, file, about.found) for file, text in self.texts.items()}
        self.numbers = {id(one): number for number, one in enumerate(about.found.all, 1)}
        self.outer = [
            one for each in self.ranges.values() for one in each.outermost(about.found.parallel()) if one in each.mine
        ]

    def line(self, file: str, line: int) -> str:
        """The name of a line on the page."""
        return f"f{list(self.texts).index(file) + 1}l{line}" if file in self.texts else "source"

    def text(self) -> str:
        about = self.about
        return "\n".join(
            [
                "<!doctype html>",
                '<html lang="en"><head><meta charset="utf-8">',
                '<meta name="viewport" content="width=device-width, initial-scale=1">',
                f"<title>{escape(about.title())}</title><style>{STYLE}</style></head><body>",
                '<a class="skip" href="#cards">To the loops and recursions</a>',
                *self.head(),
                '<main><div class="code" id="source" tabindex="0" role="region" aria-label="Source">',
                *(line for file in self.texts for line in self.source(file)),
                '</div><aside id="cards" aria-label="Loops and recursions">',
                *self.cards(),
                "</aside></main></body></html>",
                "",
            ]
        )

    # The whole in a sentence and a bar
    # -----------------------------------------------------------------------------------

    def head(self) -> list[str]:
        about = self.about
        told = [about.given(), about.checks()]
        made = [f"<header><h1>{escape(about.title())}</h1>", *(f"<p>{escape(one)}</p>" for one in told if one)]
        shares = [one for one in self.outer if one.share is not None]
        if any(one.share is not None for one in about.found.all):
            whole = min(1.0, sum(one.share or 0 for one in shares))
            least = 1 / (1 - whole + whole / about.threads)
            made.append(
                f"<p>{percent(whole)} of the run, by one thread, lies in what may run in parallel: "
                f"at most {least:.2f} times as fast by {about.threads} threads.</p>"
            )
            made += self.bar(shares, whole)
        made += self.speeds()
        if about.found.all:
            made.append(f'<p class="soft">{lines.PROVED} A share has the calls inside in it. {lines.RANKED}</p>')
        return [*made, "</header>"]

    def speeds(self) -> list[str]:
        """What was measured, as a table."""
        judgement = self.about.judgement
        if judgement is None or not judgement.walls:
            return []
        heads = "".join(f'<th scope="col">{threads(count)}</th>' for count in judgement.walls)
        times = "".join(f"<td>{judgement.times(count):.2f}</td>" for count in judgement.walls)
        walls = "".join(f"<td>{wall:.3f} s</td>" for wall in judgement.walls.values())
        return [
            f'<div class="scroll"{WIDE.format("Times")}><table><thead><tr><td></td>{heads}</tr></thead><tbody>',
            f'<tr><th scope="row">it takes (that of g++ {judgement.own:.3f} s)</th>{walls}</tr>',
            f'<tr><th scope="row">times as fast as that of g++</th>{times}</tr></tbody></table></div>',
        ]

    def bar(self, shares: list[Finding], whole: float) -> list[str]:
        pieces, left = [], 1.0
        for one in sorted(shares, key=lambda it: -(it.share or 0)):
            share = min(one.share or 0, left)
            if share >= LEAST_SHARE:
                where = f"line {one.place.line}"
                label = where if share >= LABELLED else ""
                pieces.append(
                    f'<span class="par" style="width:{share * 100:.2f}%" title="{where}: {percent(share)}">{label}</span>'
                )
                left -= share
        pieces.append('<span style="flex:1" title="the rest">rest</span>')
        return [
            f'<div class="bar" role="img" aria-label="{percent(whole)} of the run lies in what may run in parallel">',
            *pieces,
            "</div>",
        ]

    # The source
    # ----------------------------------------------------------------------------------------------------------

    def source(self, file: str) -> list[str]:
        ranges = self.ranges[file]
        at = {one.place.line: one for one in reversed(ranges.mine)}
        why = {
            (where[1]): one
            for one in self.about.found.all
            if (where := one.conflict()) and where[0] == file and self.about.found.says_why(one)
        }
        made = [f"<h2>{escape(file)}</h2><ol>"]
        for number, line in enumerate(self.texts[file].split("\n"), 1):
            made.append(self.source_line(file, number, line, at.get(number), ranges.innermost(number), why.get(number)))
        return [*made, "</ol>"]

    def source_line(
        self, file: str, number: int, text: str, at: Finding | None, around: Finding | None, why: Finding | None
    ) -> str:
        classes = [state(at)] if at else []
        classes += [f"in-{state(around)}"] if around else []
        classes += ["why"] if why else []
        link, share = str(number), ""
        if at is not None:
            label = f"line {number}: {at.what}, {at.state}"
            link = f'<a href="#c{self.numbers[id(at)]}" aria-label="{escape(label)}">{number}</a>'
            share = percent(at.share)
        title = (
            f' title="{escape("in the way of line " + str(why.place.line) + ": " + why.reasons[0].said)}"'
            if why
            else ""
        )
        shown = f'<span class="n">{link}</span><span class="s">{share}</span><span{title}>{escape(text) or " "}</span>'
        return f'<li id="{self.line(file, number)}" class="{" ".join(classes)}">{shown}</li>'

    # A card for each loop
    # ------------------------------------------------------------------------------------------------

    def cards(self) -> list[str]:
        ones = self.about.found.by_share()
        made = ["<h2>Loops and recursions, by their share of the run</h2>" if ones else "<h2>Loops and recursions</h2>"]
        if any(one.share is not None for one in ones):
            made.append('<p class="soft">Of those with about the same share loops over objects come first.</p>')
        if not ones:
            made.append(f"<p>{escape(self.about.found.summary())}.</p>")
        made += self.refused()
        for one in ones:
            made += self.card(one)
        if self.about.rewrites:
            made.append("<h2>Rewritten for the analysis</h2><ul>")
            made += [f"<li>{escape(str(place))}: {escape(what)}</li>" for place, what in self.about.rewrites]
            made.append("</ul>")
        return made

    def refused(self) -> list[str]:
        """All that isn't understood, each with a way to its line."""
        if not self.about.refused:
            return []
        made = ["<h2>Not understood</h2><ul>"]
        for line in self.about.refused:
            place, what = remarks.placed("", line)
            file, _, numbers = place.partition(":")
            at = numbers.partition(":")[0]
            shown = f'<a href="#{self.line(file, int(at))}">{escape(place)}</a>: ' if at else ""
            made.append(f"<li>{shown}{escape(what)}</li>")
        return [*made, "</ul>"]

    def card(self, one: Finding) -> list[str]:
        number, place = self.numbers[id(one)], one.place
        name = f"Line {place.line}" if len(self.texts) == 1 else f"{os.path.basename(place.file)}:{place.line}"
        where = f'<a href="#{self.line(place.file, place.line)}">{escape(name)}</a>'
        made = [f'<section class="card {state(one)}" id="c{number}" aria-labelledby="h{number}">']
        made.append(
            f'<h3 id="h{number}">{where}: {escape(one.what)}, <span class="state">{escape(one.state)}</span></h3>'
        )
        text = self.texts.get(place.file, "").split("\n")
        code = text[place.line - 1].strip() if place.line <= len(text) else ""
        shown = lines.shown_share(one).lstrip(", ")
        made.append(f"<p><code>{escape(code)}</code></p>" + (f'<p class="soft">{shown}</p>' if shown else ""))
        if one.state == MIXED:
            part = self.about.found.shared_part(one)
            known = "" if part is None else f" ({percent(part)} of it)"
            made.append(
                '<p class="soft">Its iterations come one after the other; '
                f"what is parallel inside{known} runs in parallel within each.</p>"
            )
        elif one.state == WITHIN:
            made.append('<p class="soft">It is a part of what runs in parallel, each time by one thread.</p>')
        if self.about.found.says_why(one):
            made += self.reason(one)
        return [*made, *self.matrix(one), "</section>"]

    def reason(self, one: Finding) -> list[str]:
        reason, where = one.reasons[0], one.conflict()
        link = f' <a href="#{self.line(*where)}">Go to line {where[1]}.</a>' if where else ""
        made = [f"<p>Because {escape(reason.said)}.{link}</p>"]
        if reason.mended:
            made.append(f"<p>What usually mends it: {escape(reason.mended)}.</p>")
        if len(one.reasons) > 1:
            rest = "".join(f"<li>{escape(str(other))}</li>" for other in one.reasons[1:6])
            made.append(f"<details><summary>{len(one.reasons) - 1} more</summary><ul>{rest}</ul></details>")
        return made

    def matrix(self, one: Finding) -> list[str]:
        names = list(dict.fromkeys(name for pair in one.pairs for name in (pair.one, pair.other)))
        if not 1 <= len(names) <= MOST_FUNCTIONS:
            return []
        pairs = {key: pair for pair in one.pairs for key in ((pair.one, pair.other), (pair.other, pair.one))}
        free = sum(pair.reason is None for pair in one.pairs)
        made = [f"<details><summary>{free} of {len(one.pairs)} pairs of functions may change places</summary>"]
        made.append(f'<div class="scroll"{WIDE.format("Pairs of functions")}><table><thead><tr><td></td>')
        made += [f'<th scope="col">{number}</th>' for number in range(1, len(names) + 1)]
        made.append("</tr></thead><tbody>")
        for number, name in enumerate(names, 1):
            cells = "".join(_cell(pairs.get((name, other))) for other in names)
            made.append(f'<tr><th scope="row">{number} {escape(name)}</th>{cells}</tr>')
        return [*made, "</tbody></table></div></details>"]


def _cell(pair: Pair | None) -> str:
    if pair is None:
        return '<td title="nothing is shared"></td>'
    if pair.reason is None:
        return '<td class="yes" title="in any order">any</td>'
    return f'<td class="no" title="{escape(str(pair.reason))}">order</td>'


def page(about: About) -> str:
    return Page(about).text()
