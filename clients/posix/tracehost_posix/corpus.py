"""The command tracehost-corpus: many scenarios, each compared with its expected lines, or only run."""

from __future__ import annotations

import argparse
import contextlib
import os
from collections import deque
from collections.abc import Iterable, Iterator, Sequence
from concurrent.futures import Future, ThreadPoolExecutor
from itertools import islice
from typing import NamedTuple, Optional

from . import comparing, report, rooms
from .comparing import NOTHING, REFUSED, Line, Outcome, Row, compare, digest_of
from .corpus_files import Corpus, File, shown
from .corpus_reports import Cases, bless, explains, reasons
from .options import USAGE, Parser, add_version, begun, count, model_of, seconds
from .report import say, writing, written
from .setting import Broken, Refused

DIFFERENT, BROKEN = 1, 3
BLOCK = 2000
"""Rows that a process runs."""
SHARE, SHARE_BYTES, AHEAD = 5000, 16 << 20, 64
"""What a worker is given at a time: at least 0.3 seconds of work. And how many are given out at a time: at most 1 GB."""


class Verdict(NamedTuple):
    """What came of a file that isn't as it should be."""

    file: File
    name: str
    text: str
    is_run: bool = True


class Sums:
    """What all blocks have come to."""

    def __init__(self) -> None:
        self.compared = self.differ = self.refused = 0
        self.run = self.run_refused = 0
        self.not_run = self.crashed = 0
        self.faults = 0
        """Scenarios by their names that are refused, and aren't to be."""

    def add(self, files: Sequence[File], outcome: Outcome) -> list[Verdict]:
        """Files that all have expected lines, or that all have none. Returns what is wrong with them."""
        left = len(files) - outcome.unread - outcome.crashed
        self.not_run += outcome.unread
        self.crashed += outcome.crashed
        if files[0].expected is None:
            return self._add_run(files, outcome, left)
        self.compared += left
        self.differ += outcome.differ
        self.refused += outcome.refused
        return [_verdict(files[line.row], line) for line in outcome.lines]

    def _add_run(self, files: Sequence[File], outcome: Outcome, left: int) -> list[Verdict]:
        said = {line.row: line for line in outcome.lines}
        wrong = []
        for row, file in enumerate(files):
            line = said.get(row)
            is_refused = line is not None and line.text.startswith(REFUSED)
            if line is not None and not is_refused:
                wrong.append(_verdict(file, line))
            elif file.fault is not None:
                left -= 1
                self.compared += 1
                why = _unlike(file.fault, line.text if line is not None else None)
                self.differ += why is not None
                wrong += [Verdict(file, file.scenario, why)] if why is not None else []
            elif line is not None:
                self.run_refused += 1
                self.faults += file.is_scenario
                wrong += [_verdict(file, line)] if file.is_scenario else []
        self.run += left
        return wrong

    def status(self) -> int:
        if self.not_run or self.crashed:
            return BROKEN
        return DIFFERENT if self.differ or self.refused or self.faults else 0

    def text(self) -> str:
        compared = f"{self.compared} scenarios compared: {self.differ} differ, {self.refused} refused"
        run = f"{self.run} only run: {self.run_refused} refused"
        return "; ".join([compared, run, f"{self.not_run} not run, {self.crashed} crashed"])


def _verdict(file: File, line: Line) -> Verdict:
    name = file.expected if line.of_expected and file.expected is not None else file.scenario
    is_run = line.text.startswith(REFUSED) or ": expected " in line.text
    return Verdict(file, name, line.text, is_run)


def _unlike(fault: str, text: Optional[str]) -> Optional[str]:
    """How a run is unlike the fault that is asked for; None if it isn't."""
    if text is None:
        return ": it isn't refused, as its .status says"
    said = text.removeprefix(": ")
    return None if fault in ("", said) else f": {said}, in place of {fault}"


def tell(line: str) -> None:
    with writing():
        print(line, flush=True)


def blocks(files: Iterable[File], most: int) -> Iterator[list[File]]:
    """Files with expected lines, and files without, in blocks of their own."""
    waiting: dict[bool, list[File]] = {True: [], False: []}
    for file in files:
        block = waiting[file.expected is None]
        block.append(file)
        if len(block) == most:
            yield block
            waiting[file.expected is None] = []
    yield from filter(None, waiting.values())


@contextlib.contextmanager
def rows_of(files: Sequence[File]) -> Iterator[list[Row]]:
    """The rows of a list. A name that none can have, as with a line feed, is that of a link meanwhile."""
    with contextlib.ExitStack() as stack:
        folder = ""
        rows: list[Row] = []
        for file in files:
            names: list[str] = []
            for name in (file.scenario, file.expected or NOTHING):
                if not name.isprintable():
                    folder = folder or stack.enter_context(rooms.room())
                    link = os.path.join(folder, f"{len(rows)}-{len(names)}")
                    os.symlink(os.path.abspath(name), link)
                    name = link
                names.append(name)
            rows.append(Row(*names))
        yield rows


class Here:
    """Runs blocks on this machine, so many at a time."""

    def __init__(self, model: str, jobs: int, patience: float) -> None:
        self._model, self._jobs, self._patience = model, jobs, patience

    def outcomes(self, files: Iterator[File], corpus: Corpus) -> Iterator[tuple[list[File], Outcome]]:
        given = blocks(files, BLOCK)
        waiting: deque[tuple[list[File], Future[Outcome]]] = deque()
        with ThreadPoolExecutor(self._jobs) as pool:
            try:
                while True:
                    for block in islice(given, 2 * self._jobs - len(waiting)):
                        waiting.append((block, pool.submit(self._run, block)))
                    if not waiting:
                        return
                    block, future = waiting.popleft()
                    yield block, future.result()
            finally:
                for _, future in waiting:
                    future.cancel()

    def _run(self, block: Sequence[File]) -> Outcome:
        with rows_of(block) as rows:
            return compare(self._model, rows, self._patience)


class There:
    """Runs blocks on the workers of a scheduler, which are sent the files."""

    def __init__(self, model: str, address: str, patience: float) -> None:
        from .farm import Farm

        self._digest, self._patience = digest_of(model), patience
        self._farm = Farm(address)
        with open(comparing.__file__, encoding="utf-8") as file:
            self._text = file.read()

    def outcomes(self, files: Iterator[File], corpus: Corpus) -> Iterator[tuple[list[File], Outcome]]:
        from .farm import refuse

        shares = (share for block in blocks(files, SHARE) for share in _read(block, corpus))
        try:
            for share, (worker, fault, there, said) in self._farm.answers(shares, self._call, AHEAD):
                if fault:
                    raise Broken(f"--workers: {worker}: {fault}")
                if said is None:
                    refuse(worker, "model", there, self._digest)
                lines, *counts = said
                yield [file for file, _ in share], Outcome([Line(*line) for line in lines], *counts)
        finally:
            self._farm.close()

    def _call(self, share: Sequence[tuple[File, tuple[bytes, Optional[bytes]]]]) -> Sequence[object]:
        from .farm import run_text

        return (
            run_text,
            self._text,
            comparing.compare_files.__name__,
            self._digest,
            [contents for _, contents in share],
            self._patience,
        )


_Share = list[tuple[File, tuple[bytes, Optional[bytes]]]]


def _read(block: Sequence[File], corpus: Corpus) -> Iterator[_Share]:
    """The files with their bytes, in shares that aren't too long. What can't be read is told."""
    share: _Share = []
    size = 0
    for file in block:
        contents: list[Optional[bytes]] = [None, None]
        for place, name in enumerate(file):
            if name is not None:
                try:
                    with open(name, "rb") as opened:
                        contents[place] = opened.read()
                except OSError as why:
                    corpus.miss(name, why.strerror)
                    break
        else:
            scenario, expected = contents
            assert scenario is not None
            share.append((file, (scenario, expected)))
            size += len(scenario) + len(expected or b"")
        if size > SHARE_BYTES:
            yield share
            share, size = [], 0
    if share:
        yield share


def _parser() -> Parser:
    made = begun("tracehost-corpus", "Runs the scenarios of folders, and of lists as those of tracehost --expect-list.")
    add = made.add_argument
    add("--jobs", type=count, default=len(os.sched_getaffinity(0)), metavar="N", help="runs N processes at a time (all processors)")
    add("--workers", metavar="URL", help="runs them on the workers of a scheduler of Dask distributed: tcp://.. or tls://..")
    add("--patience", type=seconds, default=60.0, metavar="S", help="a process that needs more for its scenarios hangs (60)")
    add("--bless", action="store_true", help="writes the lines of scenarios that differ, in place of those expected")
    add("--junit-xml", metavar="FILE", help="writes what came of each file, as JUnit does")
    add("--json", action="store_true", help="prints what they come to as a JSON object")
    add("--model", metavar="PROGRAM", help="the program tracehost; else $TRACEHOST, else tracehost on the path")
    add_version(made)
    add("corpora", nargs="+", metavar="CORPUS", help="a folder or a list")
    return made


def _print(sums: Sums, status: int) -> None:
    import json

    tell(json.dumps({**vars(sums), "status": status}))


class _Run:
    """What is done with the verdicts."""

    def __init__(self, given: argparse.Namespace, model: str) -> None:
        self._model, self._blesses = model, given.bless
        self._explains = explains()
        self.sums = Sums()
        self.cases = Cases() if given.junit_xml is not None else None

    def take(self, files: Sequence[File], outcome: Outcome) -> None:
        wrong: dict[File, tuple[str, bool]] = {}
        for verdict in self.sums.add(files, outcome):
            if self._is_blessed(verdict):
                continue
            wrong[verdict.file] = f"{verdict.name}{verdict.text}", verdict.is_run
            tell(f"{shown(verdict.name)}{verdict.text}")
            for line in reasons(self._model, verdict.file.scenario) if self._explains and verdict.file.fault is None else ():
                tell(line)
        if self.cases is not None:
            self.cases.add_all(files, wrong)
        for why in outcome.again:
            say(f"run again: {why}")

    def _is_blessed(self, verdict: Verdict) -> bool:
        expected = verdict.file.expected
        if not (self._blesses and verdict.is_run and expected is not None and not verdict.text.startswith(REFUSED)):
            return False
        why = bless(self._model, verdict.file.scenario, expected)
        if why:
            tell(f"{shown(expected)}: {why}")
            return False
        self.sums.differ -= 1
        tell(f"{shown(expected)}: it has the lines of this run now")
        return True


def _run(given: argparse.Namespace, model: str) -> int:
    corpus, run = Corpus(given.corpora, tell), _Run(given, model)
    sums = run.sums
    if given.bless and given.workers is not None:
        raise Refused("--bless: the workers have only copies of the files")
    runs: Here | There = Here(model, given.jobs, given.patience)
    if given.workers is not None:
        runs = There(model, given.workers, given.patience)
    for files, outcome in runs.outcomes(corpus.files(), corpus):
        run.take(files, outcome)
    sums.not_run += len(corpus.missed)
    if not any(vars(sums).values()):
        raise Refused("there is no scenario in these corpora")
    if run.cases is not None:
        run.cases.write(given.junit_xml, corpus.missed)
    status = sums.status()
    if given.json:
        _print(sums, status)
    say(sums.text())
    return status


def _command(words: Optional[Sequence[str]]) -> int:
    made = _parser()
    given = made.parse_args(words)
    try:
        rooms.sweep()
        return _run(given, model_of(given, made))
    except Refused as why:
        say(str(why))
        return USAGE
    except (Broken, OSError) as why:
        say(f"{why.filename}: {why.strerror}" if isinstance(why, OSError) and why.filename else str(why))
        return BROKEN
    except KeyboardInterrupt:
        return 130


def main(words: Optional[Sequence[str]] = None) -> int:
    """The command: its status, which isn't 0 if a file wasn't run, or if its output can't be written."""
    report.command = "tracehost-corpus"
    return written(lambda: _command(words), BROKEN)
