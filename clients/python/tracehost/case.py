"""Test cases of `unittest` that leave their sessions if they fail.

    import tracehost.case

    class Attaching(tracehost.case.TestCase):
        def test_the_target_stops(self):
            user = self.tracehost.user(1001)

A test that fails leaves its scenario, its lines and its page in the folder that the environment's ``TRACEHOST_ARTIFACTS``
names, else in a new one for temporary files, and its report says where, and what its session comes to; standard error does if
the result has no list of reports. One that passes leaves nothing. If ``TRACEHOST_TRACES`` names a folder, each test leaves a
copy of its scenario there. What can't be recorded is told there, and fails nothing. A test whose process dies leaves a scenario with the process's number at the end
of its name; the next run of such a test case tells of it.
"""

from __future__ import annotations

import atexit
import functools
import os
import sys
import tempfile
import unittest
from collections.abc import Callable, Sequence
from contextlib import suppress
from pathlib import Path
from typing import Any, ClassVar, NamedTuple, Optional

from .host import Host
from .records import Folder, stem_of
from .sessions import HEAD, Sessions, message_text, said_by

__all__ = ["TestCase"]


class TestCase(unittest.TestCase):
    """A test whose sessions are recorded."""

    settings_of_host: ClassVar[dict[str, Any]] = {}
    """The settings of the `Host` that is `tracehost`."""
    _sessions: Optional[Sessions] = None
    _host: Optional[Host] = None

    @property
    def tracehost(self) -> Host:
        """The first `Host` of this test."""
        if self._host is None:
            self._host = self.new_tracehost(**self.settings_of_host)
        return self._host

    def new_tracehost(self, name: str = "session", **settings: Any) -> Host:
        """Starts a `Host` that records as `name`."""
        # without a record in `debug`, which has no result
        return Host(**settings) if self._sessions is None else self._sessions.start(name, settings)

    def run(self, result: Optional[unittest.TestResult] = None) -> Optional[unittest.TestResult]:
        if result is not None:
            self._run(result)
            return result
        result = self.defaultTestResult()
        getattr(result, "startTestRun", lambda: None)()
        try:
            self._run(result)
        finally:
            getattr(result, "stopTestRun", lambda: None)()
        return result

    def _run(self, result: unittest.TestResult) -> None:
        sessions = self._sessions = Sessions(_folder, _stem(self))

        def failed(message: str) -> None:
            with sessions.guarded("what the test leaves"):
                sessions.failures(self.id(), message)

        watched = _Watched(result, failed)
        report: Optional[_Report] = None
        try:
            super().run(watched)  # type: ignore[arg-type]  # it has what a result has
            report = watched.report
        except BaseException as error:  # somebody ends the run
            failed(said_by(error))
            raise
        finally:
            self._sessions = self._host = None
            _end(sessions, self.id(), report)


class _Report(NamedTuple):
    """The report of a failure: its place in a list of a result, which is printed when all tests have run."""

    entries: list[tuple[object, str]]
    place: int

    def add(self, lines: Sequence[str]) -> None:
        test, text = self.entries[self.place]
        self.entries[self.place] = test, "\n".join([text, *lines, ""])


class _Watched:
    """A result that tells of a failure when it comes."""

    report: Optional[_Report] = None
    """That of the last failure, if the result has lists of them."""

    def __init__(self, result: unittest.TestResult, failed: Callable[[str], None]) -> None:
        self._result, self._failed = result, failed

    def __getattr__(self, name: str) -> Any:
        its_own = getattr(self._result, name)
        if name not in ("addError", "addFailure", "addSubTest", "addUnexpectedSuccess"):
            return its_own

        def add(test: object, *more: Any) -> Any:
            error = more[-1] if more else (None, AssertionError("an unexpected success"), None)
            if error is not None:  # else a subtest that has passed
                self._failed(message_text(said_by(error[1])))
            lists = [
                found for found in (getattr(self._result, kind, None) for kind in ("errors", "failures")) if type(found) is list
            ]
            counts = [*map(len, lists)]
            added = its_own(test, *more)
            for entries, count in zip(lists, counts):
                if len(entries) > count:
                    self.report = _Report(entries, len(entries) - 1)
            return added

        return add


def _end(sessions: Sessions, test: str, report: Optional[_Report]) -> None:
    """Makes the pages, and says what is left: in the report of the failure, if it has one, else on standard error."""
    sessions.close()
    said: list[str] = []
    for failure in sessions.failed():
        said += failure.completed(str(failure), failure.make()).splitlines()
    sessions.end_attempt()
    if report is not None and said:
        report.add([f"{HEAD}: {line}" for line in said])
        said = []
    _say(*said, *(f"{test}: {line}" for line in sessions.take_told()))


def _say(*lines: str) -> None:
    with suppress(Exception):  # there may be no standard error, or a full one
        sys.stderr.write("".join(f"{HEAD}: {line}\n" for line in lines))


def _stem(test: unittest.TestCase) -> str:
    kind = type(test)
    file = getattr(sys.modules.get(kind.__module__), "__file__", None) or kind.__module__
    name = f"{kind.__qualname__}.{test._testMethodName}"
    return stem_of(Path(file).stem, name, f"{os.path.abspath(file)}::{name}")


@functools.lru_cache(maxsize=None)
def _folder() -> Folder:
    """That which the environment names when it is first needed; else a new one, which goes if it is empty at the end."""
    named = os.environ.get("TRACEHOST_ARTIFACTS")
    if not named:
        made = tempfile.mkdtemp(prefix=f"{HEAD}-")
        atexit.register(_remove_empty, made, os.getpid())
        return Folder(Path(made))
    folder = Folder(Path(named).absolute())
    _say(*(f"left by a test that ended its process: {path}" for path in folder.left_by_the_dead()))
    return folder


def _remove_empty(folder: str, owner: int) -> None:
    if os.getpid() == owner:
        with suppress(OSError):
            os.rmdir(folder)
