"""Blocks of scenarios, each run by one `tracehost --expect-list`. Workers of other machines get this module as its text.

A block whose process is ended by a signal, hangs, or doesn't answer for all of its rows is run again by halves. So the row
that does it is found, and the others are run.
"""

from __future__ import annotations

import hashlib
import os
import re
import shutil
import signal
import socket
import subprocess
import tempfile
from collections.abc import Sequence
from typing import NamedTuple, Optional

NOTHING = "/dev/null"
"""In place of expected lines: the scenario is only run."""
REFUSED = ": tracehost: refused: "
"""How the line of a scenario that is refused goes on after its name."""
_UNREAD = ": cannot read"
_COUNTS = re.compile(r"^tracehost: (\d+) compared: (\d+) differ, (\d+) refused, (\d+) not read$", re.MULTILINE)
_STATUSES = (0, 1, 3, 4)
TRIES = 3


class Row(NamedTuple):
    """Two names, without a tab or a line feed. The second may be `NOTHING`."""

    scenario: str
    expected: str


class Line(NamedTuple):
    """What was said of a row: behind the name of its scenario, or of its expected lines."""

    row: int
    of_expected: bool
    text: str


class Outcome(NamedTuple):
    """What came of a block. A row that is only run differs if it has any lines, which isn't told."""

    lines: list[Line]
    differ: int = 0
    refused: int = 0
    unread: int = 0
    crashed: int = 0
    again: tuple[str, ...] = ()
    """Why rows were run again, which then did well."""

    def and_then(self, other: Outcome, rows: int) -> Outcome:
        """Both, if the other one is of what comes behind so many rows."""
        lines = [*self.lines, *(line._replace(row=line.row + rows) for line in other.lines)]
        differ, refused = self.differ + other.differ, self.refused + other.refused
        unread, crashed = self.unread + other.unread, self.crashed + other.crashed
        return Outcome(lines, differ, refused, unread, crashed, self.again + other.again)


def compare(model: str, rows: Sequence[Row], seconds: float, folder: Optional[str] = None, tries: int = TRIES) -> Outcome:
    """Runs the rows, whose names are relative to the folder. Each process may take so long."""
    text = "".join(f"{row.scenario}\t{row.expected}\n" for row in rows)
    words = [model, "--expect-list", "/dev/stdin"]
    try:
        ended = subprocess.run(
            words, input=text.encode("utf-8", "surrogateescape"), capture_output=True, cwd=folder, timeout=seconds, check=False
        )
    except subprocess.TimeoutExpired:
        return _in_parts(model, rows, seconds, folder, f"it hasn't ended after {seconds:g} seconds", 1)
    counts = _counts(ended.returncode, ended.stderr.decode("utf-8", "replace"), len(rows))
    if counts is None:
        left = tries if ended.returncode == -signal.SIGKILL else 1  # which others have sent, as if memory runs out
        return _in_parts(model, rows, seconds, folder, _said(ended.returncode, ended.stderr), left)
    return Outcome(_lines(rows, ended.stdout.decode("utf-8", "surrogateescape")), *counts)


def _counts(status: int, errors: str, rows: int) -> Optional[tuple[int, int, int]]:
    """How many differ, are refused and weren't read; None if the process doesn't say so of all rows."""
    if status == 0 and not errors:
        return 0, 0, 0
    found = _COUNTS.search(errors)
    if status not in _STATUSES or found is None or int(found[1]) != rows:
        return None
    return int(found[2]), int(found[3]), int(found[4])


def _said(status: int, errors: bytes) -> str:
    if status < 0:
        return f"tracehost was ended by {signal.Signals(-status).name}"
    return f"tracehost has ended with status {status}: {errors.decode('utf-8', 'replace').strip()[-200:]}"


def _in_parts(model: str, rows: Sequence[Row], seconds: float, folder: Optional[str], why: str, tries: int) -> Outcome:
    """The same by halves, and a single row once more if it may be tried."""
    if len(rows) > 1:
        middle = len(rows) // 2
        first = compare(model, rows[:middle], seconds, folder)
        both = first.and_then(compare(model, rows[middle:], seconds, folder), middle)
    elif tries > 1:
        both = compare(model, rows, seconds, folder, tries - 1)
    else:
        return Outcome([Line(0, False, f": {why}")], crashed=1)
    return both if both.crashed else both._replace(again=(*both.again, why))


def _lines(rows: Sequence[Row], text: str) -> list[Line]:
    """The program's lines, which come in the order of the rows. Of rows that are only run, those that weren't read, or refused."""
    lines: list[Line] = []
    row = 0
    for said in text.split("\n")[:-1]:
        while row < len(rows) and not said.startswith((f"{rows[row].scenario}:", f"{rows[row].expected}:")):
            row += 1
        if row == len(rows):
            raise ValueError(said)
        scenario, expected = rows[row].scenario, rows[row].expected
        of_expected = said.startswith(f"{expected}:") and not said.startswith(f"{scenario}: ")
        line = Line(row, of_expected, said[len(expected if of_expected else scenario) :])
        if expected != NOTHING or line == Line(row, False, _UNREAD) or (not of_expected and line.text.startswith(REFUSED)):
            lines.append(line)
        row += 1
    return lines


Answer = tuple[str, str, str, Optional[tuple[object, ...]]]
"""A worker's name, what is wrong there, the digest of its program, and the outcome as plain values."""


def compare_files(digest: str, files: Sequence[tuple[bytes, Optional[bytes]]], seconds: float) -> Answer:
    """Runs scenarios on the worker, with the bytes of their expected lines if they have any."""
    worker, model = socket.gethostname(), shutil.which(os.environ.get("TRACEHOST") or "tracehost")
    if model is None:
        return worker, "there is no tracehost on the path", "", None
    there = digest_of(model)
    if there != digest:
        return worker, "", there, None
    rows = []
    with tempfile.TemporaryDirectory(prefix="tracehost-") as room:
        for number, (scenario, expected) in enumerate(files):
            row = Row(f"{number}.json", NOTHING if expected is None else f"{number}.out")
            _write(os.path.join(room, row.scenario), scenario)
            if expected is not None:
                _write(os.path.join(room, row.expected), expected)
            rows.append(row)
        outcome = compare(model, rows, seconds, room)
    return worker, "", there, ([tuple(line) for line in outcome.lines], *outcome[1:])


def _write(path: str, data: bytes) -> None:
    with open(path, "wb") as file:
        file.write(data)


def digest_of(path: str) -> str:
    with open(path, "rb") as file:
        return hashlib.sha256(file.read()).hexdigest()[:16]
