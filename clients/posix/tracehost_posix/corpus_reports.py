"""What is written of a corpus beside a line for each file: new expected lines, reasons, and a file as JUnit's."""

from __future__ import annotations

import os
import subprocess
import sys
from collections.abc import Iterable, Mapping, Sequence
from xml.etree import ElementTree

from .corpus_files import File, shown

_SECONDS = 60.0


def explains() -> bool:
    """Whether to print reasons: by $TRACEHOST_EXPLAIN, else on a terminal, and if $CI is set: nobody can ask again there."""
    choice = os.environ.get("TRACEHOST_EXPLAIN", "auto")
    return choice == "always" or (choice != "never" and (bool(os.environ.get("CI")) or sys.stdout.isatty()))


def reasons(model: str, scenario: str) -> Sequence[str]:
    """What the program says of a scenario that it refuses, or can't read, behind the fault itself."""
    done = _ran(model, "--explain=always", "--", scenario)
    return [line for line in done.stderr.splitlines() if line.startswith("  ")]


def bless(model: str, scenario: str, expected: str) -> str:
    """Writes the lines of a scenario. Returns why it can't."""
    done = _ran(model, "--explain=always", f"--expect={expected}", "--bless", "--", scenario)
    return "" if done.returncode == 0 else " ".join(done.stderr.split()) or f"status {done.returncode}"


def _ran(*command: str) -> subprocess.CompletedProcess[str]:
    return subprocess.run(
        command, stdin=subprocess.DEVNULL, capture_output=True, encoding="utf-8", errors="replace", timeout=_SECONDS, check=False
    )


class Cases:
    """A case for each file."""

    def __init__(self) -> None:
        self._suite = ElementTree.Element("testsuite", name="tracehost-corpus")
        self._counts = {"tests": 0, "failures": 0, "errors": 0}

    def add_all(self, files: Iterable[File], wrong: Mapping[File, tuple[str, bool]]) -> None:
        """Those that are wrong have a text, and whether they were run."""
        for file in files:
            text, is_run = wrong.get(file, ("", True))
            self._add(file.scenario, text, is_run)

    def _add(self, name: str, text: str, is_run: bool) -> None:
        self._counts["tests"] += 1
        folder, base = os.path.split(shown(name))
        case = ElementTree.SubElement(self._suite, "testcase", classname=folder, name=base)
        if text:
            kind = "failure" if is_run else "error"
            self._counts[f"{kind}s"] += 1
            ElementTree.SubElement(case, kind, message=shown(text))

    def write(self, path: str, missed: Iterable[tuple[str, str]]) -> None:
        """Those that were missed are errors. Raises OSError."""
        for name, why in missed:
            self._add(name, why, False)
        self._suite.attrib.update({name: str(count) for name, count in self._counts.items()})
        text = ElementTree.tostring(self._suite, encoding="unicode")
        try:
            with open(path, "w", encoding="utf-8") as file:
                file.write(f'<?xml version="1.0" encoding="utf-8"?>\n{text}\n')
        except OSError as why:  # a full disk's has no name
            raise OSError(why.errno, why.strerror, path) from why
