"""Runs of the player, and what came of them."""

from __future__ import annotations

import csv
import os
import re
import subprocess
from collections import Counter
from collections.abc import Iterable, Sequence
from pathlib import Path
from typing import NamedTuple, Optional

SAME, DIFFERS, WRONG, NOT_DONE = range(4)
_SUMMARY = re.compile(r"(?P<system>\S+): \d+ sessions, \d+ steps, \d+ of them compared; (?P<rows>\d+) rows compared")
# far longer than any session takes, so that a run that is over it hangs
_SECONDS_PER_SESSION = 30


class Player(NamedTuple):
    program: Path
    differences: Optional[Path]
    seconds: int = 20
    """How long the kernel may take to settle after a step."""


class Result(NamedTuple):
    """What came of a session; the fields after `steps` are of its first difference, and empty without one."""

    session: str
    verdict: str
    compared: int
    steps: int
    line: int
    step: str
    model: str
    kernel: str

    @property
    def is_told(self) -> bool:
        """Whether all that was compared was the same, or is listed."""
        return self.verdict == "same" or self.verdict.startswith("listed ")


class Played(NamedTuple):
    """A run of the player over some sessions."""

    status: int
    results: Sequence[Result]
    rows: int
    differed: Counter[str]
    """How often each listed difference occurred; those that didn't are there too."""
    met: Counter[str]
    said: str
    """The lines that the player printed."""

    def fault(self, sessions: int) -> str:
        """Why the run says nothing, or not all that it should; "" if it did its work."""
        if self.status not in (SAME, DIFFERS):
            return f"the player ended with status {self.status}: {self.said.strip()[-600:]}"
        if len(self.results) != sessions:
            return f"the player has results of {len(self.results)} sessions of {sessions}"
        told = all(result.is_told for result in self.results)
        if told != (self.status == SAME):
            return f"the player ended with status {self.status}, and its results say otherwise"
        return ""


def play(player: Player, sessions: Path, results: Path) -> Played:
    """Plays a file of sessions. A player that hangs is ended, and has status NOT_DONE."""
    count = sessions.read_text(encoding="utf-8").count("# ")
    words = [str(player.program), "--time", str(player.seconds), "--results", str(results), "--parent", str(os.getpid())]
    words += [] if player.differences is None else ["--differences", str(player.differences)]
    results.unlink(missing_ok=True)
    status, said = _run([*words, str(sessions)], _SECONDS_PER_SESSION * (count + 1))
    found = list(csv.reader(_lines(results), delimiter="\t", quoting=csv.QUOTE_NONE))[1:]
    differences = [row for row in found if row[0] == "difference"]
    summary = _SUMMARY.search(said)
    return Played(
        status,
        [_result(row) for row in found if row[0] != "difference"],
        int(summary["rows"]) if summary else 0,
        Counter({row[1]: int(row[2]) for row in differences}),
        Counter({row[1]: int(row[3]) for row in differences}),
        said,
    )


def _run(words: Sequence[str], seconds: float) -> tuple[int, str]:
    with subprocess.Popen(
        words, stdin=subprocess.DEVNULL, stdout=subprocess.PIPE, stderr=subprocess.STDOUT, text=True, errors="replace"
    ) as run:
        try:
            said, _ = run.communicate(timeout=seconds)
        except subprocess.TimeoutExpired:
            run.kill()
            said, _ = run.communicate()
            return NOT_DONE, f"{said}\nit took more than {seconds} seconds"
        return run.returncode, said


def _lines(file: Path) -> Iterable[str]:
    return file.read_text(encoding="utf-8").splitlines() if file.exists() else ()


def _result(row: Sequence[str]) -> Result:
    session, verdict, compared, steps, line, step, model, kernel = row
    return Result(session, verdict, int(compared), int(steps), int(line or 0), step, model, kernel)
