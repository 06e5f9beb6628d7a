"""What sessions have met of the machine, and what they have not: as a table, as a page, and for tools that read lcov."""

from __future__ import annotations

from collections.abc import Iterable, Iterator, Sequence
from html import escape
from pathlib import Path
from typing import NamedTuple, Optional

from .covered import Coverage, Met
from .goals import words_of

_SECTIONS = {
    "process": "changes of processes",
    "lwp": "changes of LWPs",
    "stop": "stops",
    "reply": "replies",
    "refusal": "refusals",
}
_FEW = 6


class Section(NamedTuple):
    """The rows of one sort, each with what was met of it."""

    title: str
    rows: Sequence[tuple[str, Optional[Met]]]

    @property
    def met(self) -> int:
        return sum(met is not None for _, met in self.rows)


def sections(coverage: Coverage, goals: Iterable[str]) -> list[Section]:
    """The goals that are asked for, in their order."""
    goals = list(goals)
    found = []
    for head, title in _SECTIONS.items():
        rows = [(goal, coverage.met.get(goal)) for goal in goals if goal.partition(" ")[0] == head]
        if rows:
            found.append(Section(title, rows))
    return found


def percent(met: int, of: int) -> float:
    """Not 100 before all are met."""
    return 100.0 if met == of else min(99.9, round(100 * met / of, 1))


def total(found: Iterable[Section]) -> tuple[int, int]:
    found = list(found)
    return sum(section.met for section in found), sum(len(section.rows) for section in found)


# ---- the table


def table(coverage: Coverage, found: Sequence[Section]) -> list[str]:
    """What was met, how much there is, and by name what was never met."""
    lines = [f"{'rows of the machine':24} {'met':>5} {'of':>5}"]
    for title, met, of in _sums(found):
        lines.append(f"{title:24} {met:5} {of:5} {percent(met, of):6.1f} %")
    lines.append(f"{coverage.traces} traces, {coverage.steps} steps")
    for section in found:
        missing = [goal for goal, met in section.rows if met is None]
        if missing:
            lines += ["", f"never met, {section.title}:", *_missing(missing)]
    return lines


def _sums(found: Sequence[Section]) -> Iterator[tuple[str, int, int]]:
    for section in found:
        yield section.title, section.met, len(section.rows)
    yield ("all", *total(found))


def _missing(goals: Sequence[str]) -> Iterator[str]:
    """A line for each, those of the same words in one: a condition with the calls that it may refuse."""
    names: dict[str, list[str]] = {}
    for goal in goals:
        name, words = words_of(goal)
        names.setdefault(words, []).append(name)
    for words, subjects in names.items():
        more = f" and {len(subjects) - _FEW} more" if len(subjects) > _FEW else ""
        yield f"  {', '.join(subjects[:_FEW])}{more}: {words}" if subjects[0] else f"  {words}"


# ---- the page

_STYLE = """
:root { color-scheme: light dark; font: 16px/1.4 system-ui, sans-serif }
body { max-width: 70rem; margin: 2rem auto; padding: 0 1rem }
table { border-collapse: collapse; margin: 0.5rem 0 2rem }
th, td { text-align: left; padding: 0.15rem 1rem 0.15rem 0; vertical-align: top }
td.number { text-align: right; font-variant-numeric: tabular-nums }
tr.never td { background: color-mix(in srgb, CanvasText 12%, Canvas) }
"""
_HEAD = """<!DOCTYPE html>
<html lang="en">
<head>
<meta charset="utf-8">
<meta http-equiv="Content-Security-Policy" content="default-src 'none'; style-src 'unsafe-inline'">
<meta name="viewport" content="width=device-width">
<title>Coverage of the model</title>
<style>{style}</style>
</head>
<body>
<h1>Coverage of the model</h1>
<p>{counts}</p>
"""


def page(coverage: Coverage, found: Sequence[Section]) -> str:
    """Each row with how often it was met, and where first; those that were never met are marked."""
    parts = [_HEAD.format(style=_STYLE, counts=escape(f"{coverage.traces} traces, {coverage.steps} steps."))]
    if coverage.unread:
        parts += ["<h2>Not read</h2>\n<ul>\n", *(f"<li>{escape(why)}</li>\n" for why in coverage.unread), "</ul>\n"]
    parts.append("<table>\n<tr><th>rows</th><th>met</th><th>of</th><th>%</th></tr>\n")
    for title, *numbers in _sums(found):
        met, of = numbers
        cells = "".join(f'<td class="number">{value}</td>' for value in (met, of, percent(met, of)))
        parts.append(f"<tr><th>{title}</th>{cells}</tr>\n")
    parts.append("</table>\n")
    for section in found:
        parts.append(f"<h2>{section.title}</h2>\n<table>\n<tr><th>row</th><th></th><th>met</th><th>first at</th></tr>\n")
        parts += [_row(goal, met) for goal, met in section.rows]
        parts.append("</table>\n")
    return "".join([*parts, "</body>\n</html>\n"])


def _row(goal: str, met: Optional[Met]) -> str:
    name, words = words_of(goal)
    times, first = ("never", "") if met is None else (str(met.times), f"{met.first.trace}, step {met.first.step}")
    kind = ' class="never"' if met is None else ""
    cells = f"<td>{escape(name)}</td><td>{escape(words)}</td>"
    return f'<tr{kind}>{cells}<td class="number">{times}</td><td>{escape(first)}</td></tr>\n'


# ---- lcov


def source_text(found: Sequence[Section]) -> str:
    """The rows as the lines of a file, which the tracefile of lcov is of."""
    lines = (": ".join(filter(None, words_of(goal))) for section in found for goal, _ in section.rows)
    return "".join(f"{line}\n" for line in lines)


def lcov(found: Sequence[Section], source: Path) -> str:
    """A tracefile, as geninfo(1) describes it: a line of `source` for each row."""
    counts = [0 if met is None else met.times for section in found for _, met in section.rows]
    lines = [f"DA:{number},{count}" for number, count in enumerate(counts, 1)]
    ends = [f"LF:{len(counts)}", f"LH:{sum(count > 0 for count in counts)}", "end_of_record"]
    return "".join(f"{line}\n" for line in ["TN:", f"SF:{source}", *lines, *ends])
