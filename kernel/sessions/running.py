"""usage: kernel/run [--kinds NAME] [--users N] [--count N] [--seed N] [--jobs J] ..

Makes sessions, plays them on this machine's kernel, and says what differs. The status is 0 if all were played and nothing
differs but what is listed, 1 if something does, 2 for wrong words, and 3 if it couldn't be done.
"""

from __future__ import annotations

import argparse
import csv
import os
import platform
import sys
import tempfile
from collections import Counter
from collections.abc import Sequence
from concurrent.futures import ThreadPoolExecutor
from pathlib import Path
from subprocess import PIPE, STDOUT, run
from typing import NamedTuple

from .ending import status_of
from .faults import found_by
from .kinds import KINDS
from .playing import DIFFERS, NOT_DONE, SAME, Played, Player, play

KERNEL = Path(__file__).resolve().parents[1]
MAKE_SESSIONS = KERNEL / "make-sessions"
_SESSIONS_OF_A_PART = 250
# a corpus in which each listed difference has to occur if it was possible
WHOLE = 10_000
# how often a listed difference may be possible for each time that it occurs; and times that chance may have kept from it
_MOST_MET, _SPARE = 100, 5


class Part(NamedTuple):
    """Some of the sessions, which one player plays."""

    number: int
    sessions: int
    said: str
    played: Played | None

    @property
    def fault(self) -> str:
        if self.played is None:
            return f"part {self.number}: no sessions were made: {self.said.strip()[-600:]}"
        fault = self.played.fault(self.sessions)
        return f"part {self.number}: {fault}" if fault else ""


def _part(options: argparse.Namespace, folder: Path, number: int, count: int) -> Part:
    """Makes sessions and plays them."""
    file, goals = folder / f"{number}.txt", folder / f"{number}.goals.tsv"
    words = ["--kinds", options.kinds, "--users", str(options.users), "--count", str(count), "--goals", str(goals)]
    words += ["--seed", f"{options.seed}{number:03}", str(file)]
    made = run([sys.executable, str(MAKE_SESSIONS), *words], stdout=PIPE, stderr=STDOUT, text=True, check=False)
    if made.returncode:
        return Part(number, count, made.stdout, None)
    player = Player(options.player, options.differences, options.time)
    return Part(number, count, made.stdout, play(player, file, folder / f"{number}.tsv"))


def _parts(options: argparse.Namespace, folder: Path) -> list[Part]:
    sizes = [min(_SESSIONS_OF_A_PART, options.count - first) for first in range(0, options.count, _SESSIONS_OF_A_PART)]
    with ThreadPoolExecutor(options.jobs) as pool:
        return list(pool.map(lambda place: _part(options, folder, place, sizes[place]), range(len(sizes))))


def _merge_goals(folder: Path, parts: int, into: Path) -> None:
    """Writes what all parts together have reached."""
    tables = [_rows_of(folder / f"{number}.goals.tsv") for number in range(parts)]
    with into.open("w", encoding="utf-8") as file:
        writer = csv.writer(file, delimiter="\t", quoting=csv.QUOTE_NONE, lineterminator="\n")
        for rows in zip(*tables):
            goal, first, why = rows[0]
            writer.writerow((goal, sum(int(row[1]) for row in rows) if first.isdecimal() else first, why))


def _rows_of(table: Path) -> list[list[str]]:
    with table.open(newline="", encoding="utf-8") as file:
        return list(csv.reader(file, delimiter="\t", quoting=csv.QUOTE_NONE))


class Total:
    """What came of all parts."""

    def __init__(self, parts: Sequence[Part]) -> None:
        self.faults = [part.fault for part in parts if part.fault]
        played = [part.played for part in parts if part.played is not None]
        self.results = [result for one in played for result in one.results]
        self.rows = sum(one.rows for one in played)
        self.differed: Counter[str] = Counter()
        self.met: Counter[str] = Counter()
        for one in played:
            self.differed.update(one.differed)
            self.met.update(one.met)
        self.verdicts = Counter(result.verdict.split()[0] for result in self.results)

    def unlisted(self) -> list[str]:
        return [
            f"{result.session}: {result.step}: kernel {result.kernel}, model {result.model}"
            for result in self.results
            if not result.is_told
        ]

    def gone(self) -> list[str]:
        """The listed differences that didn't occur although they were possible."""
        return [name for name, met in self.met.items() if met and not self.differed[name]]

    def untried(self) -> list[str]:
        """The listed differences that weren't possible in these sessions, so nothing is known of them."""
        return [name for name, met in self.met.items() if not met]

    def wide(self) -> list[str]:
        """The listed differences that would hide others: they were possible far more often than they occurred."""
        return [name for name, met in self.met.items() if met > _MOST_MET * (self.differed[name] + _SPARE)]

    def lines(self) -> list[str]:
        compared, steps = (sum(getattr(result, field) for result in self.results) for field in ("compared", "steps"))
        return [
            f"{len(self.results)} sessions: " + ", ".join(f"{count} {verdict}" for verdict, count in sorted(self.verdicts.items())),
            f"{steps} steps, {compared} of them compared; {self.rows} rows compared",
            *(f"listed {name}: {self.differed[name]} of {self.met[name]}" for name in sorted(self.met)),
        ]


_SYSTEM = platform.system().lower()


def add_player(parser: argparse.ArgumentParser) -> None:
    """Adds the options that say how sessions are played."""
    parser.add_argument("--time", type=int, metavar="SECONDS", default=20, help="how long a step may take")
    parser.add_argument("--player", type=Path, metavar="FILE", default=KERNEL / "tracehost-play")
    parser.add_argument("--differences", type=Path, metavar="FILE", default=KERNEL / f"differences/{_SYSTEM}.tsv")


def _arguments() -> argparse.ArgumentParser:
    parser = argparse.ArgumentParser(prog="run", description=__doc__, formatter_class=argparse.RawDescriptionHelpFormatter)
    parser.add_argument("--kinds", choices=sorted(KINDS), default="shared" if _SYSTEM == "linux" else "all")
    parser.add_argument("--users", type=int, choices=range(1, 65), metavar="N", default=1)
    parser.add_argument("--count", type=int, metavar="N", default=1000, help="how many sessions; 1000 if it is missing")
    parser.add_argument("--seed", type=int, metavar="N", default=1)
    parser.add_argument("--jobs", type=int, metavar="J", default=os.cpu_count() or 1, help="players side by side")
    add_player(parser)
    parser.add_argument("--goals", type=Path, metavar="FILE", help="gets a table of what the sessions have reached")
    parser.add_argument("--faults", type=int, metavar="N", default=0, help="plants N faults of each kind in the first part too")
    parser.add_argument("--folder", type=Path, metavar="FOLDER", help="keeps sessions and results here")
    return parser


def report(total: Total, count: int) -> int:
    """Prints what came of the sessions, and returns the status."""
    print("\n".join(total.lines()))
    unlisted, gone, wide = total.unlisted(), total.gone(), total.wide()
    for line in unlisted:
        print(f"unlisted: {line}")
    if gone:
        print(f"listed, but it didn't occur: {', '.join(gone)}")
    if total.untried():
        print(f"listed, but it wasn't possible here: {', '.join(total.untried())}")
    if wide:
        print(f"listed for far more than where it occurs: {', '.join(wide)}")
    for fault in total.faults:
        print(f"run: {fault}", file=sys.stderr)
    if total.faults or not total.results:
        return NOT_DONE
    return DIFFERS if unlisted or wide or (gone and count >= WHOLE) else SAME


def _report_faults(options: argparse.Namespace, folder: Path, parts: Sequence[Part]) -> int:
    """Prints how many planted faults were found, and returns the status."""
    results = [result for part in parts[:1] if part.played is not None for result in part.played.results]
    player = Player(options.player, options.differences, options.time)
    counts, fault = found_by(player, folder / "0.txt", results, options.faults, folder)
    for kind, times in sorted(counts.planted.items()):
        print(f"fault, {kind}: {counts.found[kind]} of {times} found")
    if fault:
        print(f"run: {fault}", file=sys.stderr)
        return NOT_DONE
    return DIFFERS if counts.missed() else SAME


def main(words: list[str] | None = None) -> int:
    return status_of("run", lambda: _main(words))


def _main(words: list[str] | None) -> int:
    options = _arguments().parse_args(words)
    if options.count < 1 or options.jobs < 1:
        print("run: --count and --jobs are 1 or more", file=sys.stderr)
        return 2
    if not options.player.exists():
        print(f"run: there is no {options.player}: `make` in {KERNEL} builds it", file=sys.stderr)
        return NOT_DONE
    with tempfile.TemporaryDirectory(prefix="tracehost-kernel-") as room:
        folder = options.folder or Path(room)
        folder.mkdir(parents=True, exist_ok=True)
        parts = _parts(options, folder)
        status = report(Total(parts), options.count)
        if options.goals is not None and status != NOT_DONE:
            _merge_goals(folder, len(parts), options.goals)
        if options.faults and status == SAME:
            status = _report_faults(options, folder, parts)
        return status
