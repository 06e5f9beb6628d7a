"""The pages and stories of failed tests, which are made at the end of pytest's run: then no test's patches are left."""

from __future__ import annotations

from collections.abc import Callable
from concurrent.futures import ThreadPoolExecutor
from typing import TYPE_CHECKING, Any, Optional, TypeVar

import pytest

from .records import Folder
from .sessions import HEAD, Failure, Made, Told, add_to, message_of

if TYPE_CHECKING:
    from _pytest.terminal import TerminalReporter

_AT_ONCE = 4
_Hook = TypeVar("_Hook", bound=Callable[..., None])
optional_hook: Callable[[_Hook], _Hook] = pytest.hookimpl(optionalhook=True)  # untyped in some versions of pytest
"""Of a plugin that may not be there."""
last_hook: Callable[[_Hook], _Hook] = pytest.hookimpl(trylast=True)


class Pages(Told):
    """What the reports of a run tell, those of its workers too, and what is left by processes that have died."""

    def __init__(self, folder: Callable[[], Optional[Folder]], stem: Callable[[str], str]) -> None:
        """The `stem` is that of the files of a test with this node ID."""
        super().__init__()
        self._folder, self._stem = folder, stem
        self._failures: dict[tuple[object, str], dict[str, Failure]] = {}
        self._reports: dict[str, list[pytest.TestReport]] = {}

    @last_hook
    def pytest_sessionstart(self, session: pytest.Session) -> None:
        """What an earlier run has left is told now, since its tests take it away."""
        terminal: Any = session.config.pluginmanager.get_plugin("terminalreporter")
        for line in self._left_by_the_dead() if terminal is not None else []:
            terminal.write_line(line)

    def _left_by_the_dead(self) -> list[str]:
        with self.guarded("records of an earlier run"):
            folder = self._folder()
            return (
                []
                if folder is None
                else [f"{HEAD}: left by a test that ended its process: {path}" for path in folder.left_by_the_dead()]
            )
        return []

    @optional_hook
    def pytest_handlecrashitem(self, crashitem: str, report: pytest.TestReport) -> None:
        """A worker of xdist has died in this test: its record is that of a failure."""
        with self.guarded("the record of a crash"):
            folder = self._folder()
            scenarios = [] if folder is None else folder.adopt(self._stem(crashitem))
            add_to(report, [Failure(str(scenario), crashitem, message_of(report), None) for scenario in scenarios], [])

    def interrupted(self, failures: list[Failure]) -> None:
        """The run has ended within a test, which makes no report."""
        for failure in failures:
            self._failures.setdefault((None, failure.test), {})[failure.scenario] = failure
            self.told += f"{failure.test}: interrupted\n{failure}".splitlines()

    def pytest_runtest_logreport(self, report: pytest.TestReport) -> None:
        with self.guarded("a report"):
            of_test = (getattr(report, "node", None), report.nodeid)
            if report.when == "setup":  # the failures of an earlier attempt are over
                self._failures.pop(of_test, None)
            left = getattr(report, HEAD, None)
            if left is None:
                return
            for words in left["failures"]:
                failure = Failure(*words)
                self._failures.setdefault(of_test, {}).setdefault(failure.scenario, failure)
                self._reports.setdefault(failure.scenario, []).append(report)
            if not report.failed:  # pytest doesn't show its sections
                self.told += [f"{report.nodeid}: {line}" for line in left["told"]]

    def pytest_sessionfinish(self) -> None:
        with self.guarded("pages"):
            failures = [failure for of_test in self._failures.values() for failure in of_test.values()]
            for failure, made in zip(failures, _make(failures)):
                self._complete(failure, made)

    def pytest_terminal_summary(self, terminalreporter: TerminalReporter) -> None:
        told = self.told + self._left_by_the_dead()
        if told:
            terminalreporter.section(HEAD)
            for line in told:
                terminalreporter.write_line(line)

    def _complete(self, failure: Failure, made: Made) -> None:
        """The reports that name this page say why there is none, and tell the story."""
        for report in self._reports.get(failure.scenario, []):
            for at, (title, text) in enumerate(report.sections):
                if title == HEAD:
                    report.sections[at] = (title, failure.completed(text, made))
        self.told = [line for told in self.told for line in failure.completed(told, made).splitlines()]


def _make(failures: list[Failure]) -> list[Made]:
    """Makes the pages and the stories."""
    all_made: list[Made] = []
    pool = ThreadPoolExecutor(_AT_ONCE)
    try:
        for made in pool.map(Failure.make, failures):
            all_made.append(made)
    except KeyboardInterrupt:  # the run's summary is still to come
        pass
    finally:
        pool.shutdown(cancel_futures=True)
    return all_made + [Made("interrupted", None)] * (len(failures) - len(all_made))
