"""The command tracehost-check."""

from __future__ import annotations

import argparse
import os
import sys
import traceback
from collections.abc import Sequence
from pathlib import Path
from typing import Optional

from .differences import BadTable, Differences, read
from .facts import Facts, unfinished
from .log import LogFault
from .log import read as read_log
from .search import GaveUp, Search, Stopped, Unexplained, Verdict

EXPLAINED, UNEXPLAINED, NO_LOG, NOT_JUDGED = range(4)
_STATES = 2000
_DESCRIPTION = "Looks for turns of the model that explain all answers in a log of libtracehost-log.so."
_EPILOG = """The status is 0 if they do, 1 if no turns explain an answer, 2 if there is no whole log, or the command line is
wrong, and 3 if the search gave up, a listed difference ended it, or something failed."""


def _parser() -> argparse.ArgumentParser:
    parser = argparse.ArgumentParser(prog="tracehost-check", description=_DESCRIPTION, epilog=_EPILOG)
    parser.add_argument("--differences", metavar="FILE", type=Path, help="a table of known differences of the kernel's")
    parser.add_argument(
        "--states", metavar="N", type=_count, default=_STATES, help="give up beyond so many states at a line (%(default)s)"
    )
    parser.add_argument("log", metavar="LOG", type=Path)
    return parser


def _count(text: str) -> int:
    count = int(text)
    if count < 1:
        raise ValueError
    return count


def main(words: Optional[Sequence[str]] = None) -> int:
    given = _parser().parse_args(words)
    try:
        status = _check(given.log, given.differences, given.states)
        sys.stdout.flush()
    except LogFault as fault:
        return _fault(f"{given.log}:{fault.line}: {fault.why}", NO_LOG)
    except BadTable as fault:
        return _fault(str(fault), NO_LOG)
    except (OSError, MemoryError) as error:
        os.dup2(os.open(os.devnull, os.O_WRONLY), 1)  # what couldn't be written isn't tried again at the end
        return _fault(str(error) or "no memory is left", NOT_JUDGED)
    except Exception:  # a fault of this program's is no verdict
        traceback.print_exc()
        return NOT_JUDGED
    return status


def _fault(text: str, status: int) -> int:
    print(f"tracehost-check: {text}", file=sys.stderr)
    return status


def _check(log: Path, table: Optional[Path], limit: int) -> int:
    listed = [] if table is None else read(table)
    try:
        with open(log, "rb") as file:
            lines = read_log(file)
    except OSError as error:
        return _fault(f"{log}: {error.strerror}", NO_LOG)
    facts = Facts(lines)
    for is_wide in (False, True):
        try:
            verdict = Search(lines, facts, limit, Differences(listed), is_wide).run()
        except Unexplained as error:
            if is_wide:
                return _unexplained(log, error)
        except GaveUp as error:
            return _fault(f"{log}:{error.place}: gave up: more than {limit} states at line {error.place}", NOT_JUDGED)
        except Stopped as error:
            return _stopped(log, error)
        else:
            return _explained(facts, verdict)
    raise AssertionError


def _explained(facts: Facts, verdict: Verdict) -> int:
    except_for = f", except {_count_of(verdict.left_out, 'call')} that the model doesn't have" if verdict.left_out else ""
    print(f"explained{except_for}, {_count_of(verdict.turns, 'hidden turn')}, {_count_of(verdict.answers, 'answer')}")
    if verdict.unsent:
        print(f"  {_count_of(verdict.unsent, 'signal')} that no call of the log has sent")
    for name, count in sorted(verdict.differences.items()):
        print(f"  listed difference {name}: {count}")
    left = unfinished(facts, facts.last)
    if left:
        print(f"  the log doesn't tell the end of {', '.join(map(str, left))}")
    return EXPLAINED


def _count_of(count: int, what: str) -> str:
    return f"{count} {what}" + ("" if count == 1 else "s")


def _stopped(log: Path, error: Stopped) -> int:
    print(f"{log}:{error.place}: the listed difference {error.difference.name} ends the comparison: {error.difference.why}")
    return NOT_JUDGED


def _unexplained(log: Path, error: Unexplained) -> int:
    line = error.line
    what = " ".join([line.kind, line.name, *(f"{name}={value}" for name, value in line.words.items())])
    print(f"{log}:{line.place}: no turns explain: {line.caller} {' '.join(what.split())}")
    if error.asks is not None:
        asks = error.asks
        print(f"  it was asked in line {asks.place}: {' '.join([asks.name, *(f'{n}={v}' for n, v in asks.words.items())])}")
    for answer in error.answers[:5]:
        print(f"  in the model: {answer}")
    if len(error.answers) > 5:
        print(f"  and {len(error.answers) - 5} more")
    return UNEXPLAINED
