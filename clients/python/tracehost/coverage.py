"""``tracehost-coverage TRACES..``: which rows of the machine sessions have met, and which never.

A trace is a scenario, as a failed test leaves one, a record of tracehost-run, or the lines of ``tracehost --json=trace``. Of a
folder each ``.json`` is one. A row is a condition of a refusal, a reply, a stop, or an edge between two states of a process or
an LWP. ``pytest --tracehost-coverage`` counts those of its tests.
"""

from __future__ import annotations

import argparse
import os
import sys
from collections.abc import Callable, Iterator, Sequence
from pathlib import Path
from typing import Optional

from .covered import Coverage, Unnamed, chosen
from .coverage_report import Section, lcov, page, percent, sections, source_text, table, total
from .goals import ALL
from .outputs import Parser, status_of
from .program import default
from .saving import read_session
from .timeline import Refused, Timeline

__all__ = ["main"]

_NAME = "tracehost-coverage"
UNREAD, TOO_FEW, BROKEN = 1, 2, 3
"""Statuses: a trace wasn't read; less was met than --fail-under asks for; a fault of ours."""


def _percent(text: str) -> float:
    number = float(text)
    if not 0 <= number <= 100:
        raise argparse.ArgumentTypeError(f"{text} is no number from 0 to 100")
    return number


def _pattern(text: str) -> str:
    if len(chosen([text])) == len(ALL):
        raise argparse.ArgumentTypeError(f"no row has a name like {text!r}")
    return text


def _options() -> argparse.ArgumentParser:
    parser = Parser(
        prog=_NAME,
        description="Says which rows of the machine sessions have met: refusals by their conditions, replies, stops, and "
        "changes of processes and LWPs.",
    )
    parser.add_argument("traces", metavar="TRACE", nargs="+", help="a scenario, a trace, or a folder of them; - for standard input")
    add_reports(parser.add_argument)
    parser.add_argument(
        "--omit", action="append", type=_pattern, default=[], metavar="PATTERN", help="leave out rows with such names: 'stop SIG*'"
    )
    parser.add_argument("--fail-under", type=_percent, default=0.0, metavar="PERCENT", help=f"status {TOO_FEW} if less was met")
    parser.add_argument("--program", help="the program; what Host chooses if it isn't given")
    return parser


def add_reports(add: Callable[..., object], prefix: str = "--") -> None:
    """The options of reports: pytest has them with a longer name."""
    add(f"{prefix}html", metavar="FILE", help="write a page with all rows")
    add(f"{prefix}lcov", metavar="FILE", help="write a tracefile of lcov, and FILE.rows, which it is of")


def write_reports(coverage: Coverage, found: Sequence[Section], html: Optional[str], tracefile: Optional[str]) -> None:
    """Raises OSError."""
    if html is not None:
        _write(html, page(coverage, found))
    if tracefile is not None:
        rows = f"{tracefile}.rows"
        _write(rows, source_text(found))
        _write(tracefile, lcov(found, Path(rows).absolute()))


def _write(path: str, text: str) -> None:
    try:
        Path(path).write_text(text, encoding="utf-8", errors="surrogateescape")
    except OSError as error:  # a full disk's has no name
        raise OSError(error.errno, error.strerror, path) from error


def _files(names: Sequence[str], coverage: Coverage) -> Iterator[str]:
    """The traces that are named, and those of folders that are. A folder without any isn't read."""
    for name in names:
        if not os.path.isdir(name):
            yield name
            continue
        inside = sorted(path for path in Path(name).rglob("*.json") if not path.is_dir())
        for path in inside:
            if path.exists() and not path.is_file():  # a FIFO would be waited for
                coverage.unread.append(f"{path}: it is no file")
            else:
                yield str(path)
        if not inside:
            coverage.unread.append(f"{name}: there is no trace in it")


def _printable(text: str) -> str:
    """Without control characters of names: they could be a terminal's commands."""
    return "\n".join(line if line.isprintable() else ascii(line)[1:-1] for line in text.splitlines())


def _read(names: Sequence[str], program: Optional[str]) -> Coverage:
    coverage = Coverage()
    for name in _files(names, coverage):
        try:
            session = read_session(name, program)
            coverage.add(Timeline(session.steps, session.kill_on_debugger_exit, program), name)
        except Refused as error:
            coverage.unread.append(str(error) if str(error).startswith(name) else f"{name}: {error}")
        except OSError as error:
            coverage.unread.append(f"{error.filename or name}: {error.strerror or error}")
    return coverage


def _run(given: argparse.Namespace) -> int:
    coverage = _read(given.traces, given.program or default())
    found = sections(coverage, chosen(given.omit))
    if not found:
        raise SystemExit(f"{_NAME}: --omit leaves out all rows")
    print("\n".join(table(coverage, found)))
    write_reports(coverage, found, given.html, given.lcov)
    for why in coverage.unread:
        print(f"{_NAME}: not read: {_printable(why)}", file=sys.stderr)
    if coverage.unread:
        return UNREAD
    met = percent(*total(found))
    if met < given.fail_under:
        print(f"{_NAME}: {met} % were met, and {given.fail_under:g} % are asked for", file=sys.stderr)
        return TOO_FEW
    return 0


def main(words: Optional[Sequence[str]] = None) -> int:
    """The command: its status isn't 0 if a trace wasn't read, or a report can't be written."""
    return status_of(_NAME, lambda: _command(words), failed=UNREAD)


def _command(words: Optional[Sequence[str]]) -> int:
    try:
        return _run(_options().parse_args(words))
    except Unnamed as error:
        print(f"{_NAME}: a fault of its tables: {error}", file=sys.stderr)
        return BROKEN


if __name__ == "__main__":
    sys.exit(main())
