"""``pytest --tracehost-coverage``: which rows of the machine the recorded sessions of a run have met, in passing tests too.

``--tracehost-coverage-html FILE`` and ``--tracehost-coverage-lcov FILE`` write what ``tracehost-coverage`` writes. What a test
does with a `Host` of its own isn't recorded, and isn't counted. A run whose sessions can't all be counted doesn't end with 0.
"""

from __future__ import annotations

from collections.abc import Callable
from functools import partial
from pathlib import Path
from typing import TYPE_CHECKING, Any, Optional

import pytest

from .coverage import add_reports, write_reports
from .coverage_report import sections, table
from .covered import Coverage
from .goals import ALL
from .pages import last_hook, optional_hook
from .saving import scenario_in
from .sessions import said_by
from .timeline import Timeline

if TYPE_CHECKING:
    from _pytest.terminal import TerminalReporter

COUNTING = "tracehost_coverage"
_OPTION = "--tracehost-coverage"


def add_options(group: Any) -> None:
    group.addoption(_OPTION, action="store_true", help="print which rows of the machine the recorded sessions have met")
    add_reports(group.addoption, f"{_OPTION}-")


def configure(config: pytest.Config) -> None:
    if any(config.getoption(name) for name in (_OPTION, f"{_OPTION}-html", f"{_OPTION}-lcov")):
        config.pluginmanager.register(Counting(config), COUNTING)


class Counting:
    """Counts the sessions of this process, and those of its workers."""

    def __init__(self, config: pytest.Config) -> None:
        self._config = config
        self._coverage = Coverage()
        self._report: list[str] = []

    def count(self, name: str, record: Path) -> None:
        """The session of a record, which is as long as it gets."""
        try:
            found = scenario_in(record.read_bytes())
            if found is None:
                raise ValueError("it is no scenario")
            setting = found.get("kill_on_debugger_exit")
            self._coverage.add(Timeline(found["steps"], None if setting is None else bool(setting)), name)
        except Exception as error:  # whatever a test has replaced
            self._coverage.unread.append(f"{name}: {said_by(error)}")

    @optional_hook
    def pytest_testnodedown(self, node: Any, error: object) -> None:
        """A worker of xdist has ended: with what it has counted, if it could."""
        counts = getattr(node, "workeroutput", {}).get(COUNTING)
        if counts is None:
            self._coverage.unread.append(f"{node.gateway.id}: the worker has ended without its counts")
        else:
            self._coverage.add_counts(counts)

    @last_hook
    def pytest_sessionfinish(self, session: pytest.Session) -> None:
        output: Optional[dict[str, Any]] = getattr(self._config, "workeroutput", None)
        if output is not None:
            output[COUNTING] = self._coverage.counts()
            return
        if not self._coverage.traces:
            self._coverage.unread.append("no test has recorded a session")
        found = sections(self._coverage, ALL)
        self._report = table(self._coverage, found)
        try:
            write_reports(self._coverage, found, *(self._config.getoption(f"{_OPTION}-{kind}") for kind in ("html", "lcov")))
        except OSError as error:
            self._coverage.unread.append(f"{error.filename}: {error.strerror}")
        if self._coverage.unread and session.exitstatus == pytest.ExitCode.OK:
            session.exitstatus = pytest.ExitCode.TESTS_FAILED

    def pytest_terminal_summary(self, terminalreporter: TerminalReporter) -> None:
        terminalreporter.section("tracehost coverage")
        for line in (*self._report, *(f"not counted: {why}" for why in self._coverage.unread)):
            terminalreporter.write_line(line)


def counter(config: pytest.Config, name: str) -> Optional[Callable[[Path], None]]:
    """What counts the sessions of a test with this name, if that was asked for."""
    counting: Optional[Counting] = config.pluginmanager.get_plugin(COUNTING)
    return None if counting is None else partial(counting.count, name)
