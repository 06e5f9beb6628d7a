"""Makes a file of random sessions with the model's replies and rows. The same words make the same file."""

from __future__ import annotations

import argparse
import csv
import sys
from collections.abc import Iterator
from pathlib import Path
from typing import NamedTuple, Optional, TextIO

from .ending import status_of
from .goals import LEAST, goals_of, read_unreached, why_unreached
from .kinds import KINDS
from .maker import Maker


class Reached(NamedTuple):
    """A goal, how often it was reached, and why it can't be if it is listed so."""

    goal: str
    times: int
    why: str


def coverage(maker: Maker) -> Iterator[Reached]:
    unreached = read_unreached()
    for goal in dict.fromkeys(goals_of(KINDS[maker.name])):
        yield Reached(goal, maker.counts[goal], why_unreached(maker.name, goal, unreached))


def write_goals(maker: Maker, file: TextIO) -> None:
    writer = csv.writer(file, delimiter="\t", quoting=csv.QUOTE_NONE, lineterminator="\n")
    writer.writerow(("goal", "reached", "why not"))
    writer.writerows(coverage(maker))


def summary(maker: Maker, count: int) -> str:
    goals = [reached for reached in coverage(maker) if not reached.why]
    enough = sum(reached.times >= LEAST for reached in goals)
    never = sum(reached.times == 0 for reached in goals)
    unsettled = ", ".join(f"{reason}: {times}" for reason, times in sorted(maker.unsettled.items())) or "none"
    return (
        f"{count} sessions, {maker.steps} steps; of {len(goals)} goals {enough} reached at least {LEAST} times, {never} never;"
        f" candidates that were dropped: {unsettled}"
    )


def _arguments() -> argparse.ArgumentParser:
    parser = argparse.ArgumentParser(prog="make-sessions", description=__doc__)
    parser.add_argument("--seed", type=int, default=1, help="what chance begins with; 1 if it is missing")
    parser.add_argument("--count", type=int, default=100, help="how many sessions; 100 if it is missing")
    parser.add_argument("--kinds", choices=sorted(KINDS), default="shared", help="what they have; shared if it is missing")
    parser.add_argument("--users", type=int, default=1, choices=range(1, 65), metavar="N", help="how many users they may have")
    parser.add_argument("--goals", type=Path, metavar="FILE", help="gets a table of what was reached")
    parser.add_argument("file", type=Path, metavar="FILE", help="gets the sessions")
    return parser


def make(options: argparse.Namespace) -> Maker:
    """Raises OSError if there is no library, or a file can't be written."""
    maker = Maker(options.seed, options.kinds, options.users)
    with options.file.open("w", encoding="utf-8") as file:
        file.writelines(f"{session}\n" for session in maker.sessions(options.count))
    if options.goals is not None:
        with options.goals.open("w", encoding="utf-8") as file:
            write_goals(maker, file)
    return maker


def _main(options: argparse.Namespace) -> int:
    maker = make(options)
    print(f"make-sessions: {summary(maker, options.count)}", file=sys.stderr)
    wrong = [reached for reached in coverage(maker) if reached.why and reached.times]
    for goal, times, why in wrong:
        print(f"make-sessions: {goal}: reached {times} times, though it is listed as never: {why}", file=sys.stderr)
    return 1 if wrong or not options.count else 0


def main(words: Optional[list[str]] = None) -> int:
    options = _arguments().parse_args(words)
    return status_of("make-sessions", lambda: _main(options))


if __name__ == "__main__":
    sys.exit(main())
