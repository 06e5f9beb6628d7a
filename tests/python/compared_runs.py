"""Two runs for tests of the viewer's page of two runs, and which of their steps belong together, in plain quadratic Python."""

from __future__ import annotations

import json
import re
import subprocess
from collections.abc import Sequence
from pathlib import Path
from typing import Any, NamedTuple

from checking import TOP
from viewer_pages import MAKER

Line = dict[str, Any]  # of a trace
Step = dict[str, Any]
SOURCE = TOP / "viewer" / "src"
LONGER = 2  # a run that only asks the same is taken if it is more than so many times as long as one with the same replies


class Run(NamedTuple):
    """Steps of both sequences, one after the other, that ask the same."""

    left: int
    right: int
    length: int


class Steps(NamedTuple):
    """Of each step what it asks, and that with its reply."""

    asked: Sequence[object]
    whole: Sequence[object]


class Part(NamedTuple):
    left: int
    left_end: int
    right: int
    right_end: int


def longest(left: Sequence[object], right: Sequence[object], part: Part) -> Run:
    """Each place of the left one with each of the right one: the longest run; nearest to the middle on the left; nearest to
    the same distance from the begin on the right; the first."""
    best, best_key = Run(0, 0, 0), None
    for at in range(part.left, part.left_end):
        for other in range(part.right, part.right_end):
            most = min(part.left_end - at, part.right_end - other)
            length = next((count for count in range(most) if left[at + count] != right[other + count]), most)
            distance = abs(2 * at + length - part.left - part.left_end)
            key = (-length, distance, at, abs((at - part.left) - (other - part.right)), other)
            if length and (best_key is None or key < best_key):
                best, best_key = Run(at, other, length), key
    return best


def best_run(left: Steps, right: Steps, part: Part) -> Run:
    whole, asked = longest(left.whole, right.whole, part), longest(left.asked, right.asked, part)
    run = whole if LONGER * whole.length >= asked.length else asked
    if run.length == 0:
        return run
    begin, end = 0, run.length
    while run.left + begin > part.left and run.right + begin > part.right:
        if left.asked[run.left + begin - 1] != right.asked[run.right + begin - 1]:
            break
        begin -= 1
    while run.left + end < part.left_end and run.right + end < part.right_end:
        if left.asked[run.left + end] != right.asked[run.right + end]:
            break
        end += 1
    return Run(run.left + begin, run.right + begin, end - begin)


def common_runs(left: Steps, right: Steps) -> list[Run]:
    """What both begin with, what both end with, and between the best run, and what is before and behind it likewise."""
    most = min(len(left.whole), len(right.whole))
    begin = next((count for count in range(most) if left.whole[count] != right.whole[count]), most)
    ends = zip(reversed(left.whole[begin:]), reversed(right.whole[begin:]))
    end = next((count for count, (one, other) in enumerate(ends) if one != other), most - begin)
    runs = [Run(0, 0, begin), Run(len(left.whole) - end, len(right.whole) - end, end)]

    def between(part: Part) -> None:
        run = best_run(left, right, part)
        if run.length:
            runs.append(run)
            between(Part(part.left, run.left, part.right, run.right))
            between(Part(run.left + run.length, part.left_end, run.right + run.length, part.right_end))

    between(Part(begin, len(left.whole) - end, begin, len(right.whole) - end))
    return sorted(run for run in runs if run.length)


def node(code: str, given: object) -> Any:
    """What a module of JavaScript, with the viewer's parts at hand, prints as JSON of `given`."""
    head = "import { readFileSync } from 'node:fs'; const given = JSON.parse(readFileSync(0, 'utf8'));\n"
    done = subprocess.run(
        ["node", "--input-type=module", "-e", head + code.replace("SOURCE", SOURCE.as_uri())],
        input=json.dumps(given).encode(), capture_output=True, check=False, timeout=300,
    )  # fmt: skip
    assert done.returncode == 0, done.stderr.decode()
    return json.loads(done.stdout)


PAIRS = """
import { compareRuns } from "SOURCE/compare_runs.mjs";
import { Line } from "SOURCE/compare_lines.mjs";
const number = (line) => line && line.index + 1;
const pairs = ({ files, values }) =>
  compareRuns(...files.map(({ rows }) => rows.map((row, index) => new Line(row, values, index))));
console.log(JSON.stringify(given.map((data) => pairs(data)
  .map((one) => ({ user: one.user, kind: one.kind, left: number(one.left), right: number(one.right), first: one.isFirst,
    counts: { left: one.onLeft, right: one.onRight } })))));
"""


def compared(texts: list[tuple[str, str]]) -> list[list[dict[str, Any]]]:
    """The pairs of steps of each of these pairs of traces, in the order of the page."""
    runs = [[MAKER.reading.Read(name, text) for name, text in zip(("left", "right"), pair)] for pair in texts]
    found: list[list[dict[str, Any]]] = node(PAIRS, [MAKER.compare.Runs(pair).data([]) for pair in runs])
    return found


def names_in(pair: tuple[str, str]) -> dict[int, dict[int, int]]:
    """For each user the numbers of the right run that the page takes for others of the left one."""
    runs = [MAKER.reading.Read(name, text) for name, text in zip(("left", "right"), pair)]
    found: dict[int, dict[int, int]] = {}
    for user, old, new in MAKER.compare.Runs(runs).data([])["names"]:
        found.setdefault(user, {})[new] = old
    return found


def with_names(line: Line, names: dict[int, int]) -> Line:
    """The line with the left run's numbers: no other numbers of a line are as high, but a status and a system call's code."""
    kept = {key: line[key] for key in ("word", "code", "status", "argument", "step", "index", "user") if key in line}
    text = re.sub(
        r"(?<![\w.-])\d{4,6}(?!\w)",
        lambda found: str(names.get(int(found[0]), -int(found[0]) if int(found[0]) in names.values() else found[0])),
        json.dumps(line),
    )
    return {**json.loads(text), **kept}


def trace_of(program: Path, steps: Sequence[Step], how: str = "trace+rows", kills: bool = True) -> str:
    given = {"kill_on_debugger_exit": int(kills), "steps": list(steps)}
    done = subprocess.run([program, f"--json={how}"], input=json.dumps(given).encode(), capture_output=True, check=True)
    return done.stdout.decode()


def lines_of(trace: str) -> list[Line]:
    return [json.loads(line) for line in trace.splitlines()]


def said(line: Line) -> Line:
    """A line's step and reply, without its numbers and rows."""
    return {key: value for key, value in line.items() if key not in ("user", "step", "index", "rows")}
