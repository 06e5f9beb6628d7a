"""A pytest plugin: ``pytest --tracehost-scenarios DIR`` runs the scenarios of a folder as tests.

Each file NAME.json of the folder, or below it, is a test, and NAME.out has the lines that it is to print. NAME.status has
the status of the program if it isn't 0, and NAME.err what it then says on standard error; NAME.out may be missing then. A scenario without lines fails, as
does one that is refused. ``--tracehost-bless`` writes the lines, and the test fails once more, so that nobody takes them
unread.
"""

from __future__ import annotations

import subprocess
from collections.abc import Iterator
from pathlib import Path
from typing import Any, Optional

import pytest

from .program import default

_SECONDS = 300.0


def pytest_addoption(parser: pytest.Parser) -> None:
    group = parser.getgroup("tracehost")
    group.addoption(
        "--tracehost-scenarios", action="append", default=[], metavar="DIR", help="run the scenarios of this folder as tests"
    )
    group.addoption("--tracehost-bless", action="store_true", help="write the lines of scenarios that differ")


def pytest_configure(config: pytest.Config) -> None:
    config.args += [folder for folder in config.getoption("--tracehost-scenarios") if folder not in config.args]


def pytest_collect_file(parent: pytest.Collector, file_path: Path) -> Optional[pytest.Collector]:
    folders = (Path(folder).resolve() for folder in parent.config.getoption("--tracehost-scenarios"))
    above = {*file_path.absolute().parents, *file_path.resolve().parents}  # a link is the folder's too
    if file_path.suffix != ".json" or not any(folder in above for folder in folders):
        return None
    found: pytest.Collector = _ScenarioFile.from_parent(parent, path=file_path)
    return found


class _ScenarioFile(pytest.File):
    def collect(self) -> Iterator[pytest.Item]:
        item: pytest.Item = _Scenario.from_parent(self, name="scenario")
        yield item


class _Differs(Exception):
    """The run isn't as its files say."""


class _Scenario(pytest.Item):
    def runtest(self) -> None:
        status, errors = self.path.with_suffix(".status"), self.path.with_suffix(".err")
        wanted = int(status.read_text()) if status.exists() else 0
        if wanted:
            self._check_fault(wanted, errors.read_text() if errors.exists() else None)
        else:
            self._check_lines(self.config.getoption("--tracehost-bless"))

    def _check_lines(self, blesses: bool) -> None:
        lines = self.path.with_suffix(".out")
        before = lines.read_bytes() if lines.exists() else None
        done = self._run(f"--expect={lines}", *(["--bless"] if blesses else []))
        if done.returncode:
            raise _Differs((done.stdout + done.stderr).strip() or f"status {done.returncode}")
        if blesses and lines.read_bytes() != before:
            raise _Differs(f"{done.stdout}{lines} has these lines now".strip())

    def _check_fault(self, status: int, errors: Optional[str]) -> None:
        done = self._run(explains="never")
        if done.returncode != status:
            raise _Differs(f"status {done.returncode} in place of {status}\n{done.stderr}".strip())
        if errors is not None and done.stderr != errors:
            raise _Differs(f"standard error has\n{done.stderr}in place of\n{errors}".strip())
        lines = self.path.with_suffix(".out")
        if done.stdout != (lines.read_text() if lines.exists() else ""):
            raise _Differs(f"standard output has\n{done.stdout}".strip())

    def _run(self, *words: str, explains: str = "always") -> subprocess.CompletedProcess[str]:
        command = [default(), f"--explain={explains}", *words, "--", str(self.path)]
        return subprocess.run(
            command,
            stdin=subprocess.DEVNULL,
            capture_output=True,
            encoding="utf-8",
            errors="replace",
            timeout=_SECONDS,
            check=False,
        )

    def repr_failure(self, excinfo: pytest.ExceptionInfo[BaseException], style: Any = None) -> Any:
        return str(excinfo.value) if isinstance(excinfo.value, _Differs) else super().repr_failure(excinfo)

    def reportinfo(self) -> tuple[Path, int, str]:
        return self.path, 0, f"scenario {self.path.stem}"
