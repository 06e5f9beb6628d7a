"""The sessions of a test, and what is told of them. Nothing here changes a test's outcome."""

from __future__ import annotations

import os
import shlex
import sys
from collections.abc import Callable, Iterator
from contextlib import contextmanager, suppress
from pathlib import Path
from typing import TYPE_CHECKING, Any, ClassVar, NamedTuple, Optional
from weakref import WeakSet, ref

from . import deadlock, recording, refusals, rows  # noqa: F401  # what Host needs later, when a test may have broken imports
from .host import Host
from .records import Folder, Kept, Running, hold, leave_trace, session_name
from .viewing import NoPage, shown, view

if TYPE_CHECKING:
    import pytest

HEAD = "tracehost"
"""The title of the section in a report, and the report's attribute for `Pages`."""
_MOST_OF_A_MESSAGE = 4000


class Made(NamedTuple):
    """What was made of a failure."""

    why_no_page: Optional[str]
    """None if there is one."""
    story: Optional[str]


class Failure(NamedTuple):
    """A test that failed in a session. A report of a worker has it as a list."""

    scenario: str
    test: str
    message: str
    step: Optional[int]
    """The number of the session's last step then; None if nothing knows it."""

    def page(self) -> Path:
        return Path(self.scenario).with_suffix(".html")

    def _command(self) -> str:
        return f"to go on from here: tracehost-debug {shlex.quote(self.scenario)}"

    def __str__(self) -> str:
        lines = Path(self.scenario).with_suffix(".out")
        return f"scenario: {self.scenario}\nlines:    {lines}\npage:     {self.page()}\n{self._command()}"

    def completed(self, text: str, made: Made) -> str:
        """A text in which `str` of this is, with why there is no page, and with the story in place of the command, which ends
        it."""
        if made.why_no_page is not None:
            text = text.replace(f"page:     {self.page()}", f"page:     none ({made.why_no_page})")
        return text if made.story is None else text.replace(self._command(), made.story)

    def make(self) -> Made:
        """Makes the page, and the story."""
        return Made(self.make_page(), self._made_story())

    def _made_story(self) -> Optional[str]:
        """None if it can't be made, or if nobody wants it: ``TRACEHOST_DEBUG`` is empty."""
        if os.environ.get("TRACEHOST_DEBUG") == "":
            return None
        try:
            from .saving import read_session
            from .story import story

            return "\n".join(map(shown, story(read_session(self.scenario), self.scenario, self.step)))
        except BaseException:
            return None

    def make_page(self) -> Optional[str]:
        """Returns why there is none."""
        try:
            view(self.scenario, title=self.test, failed=self.test, message=self.message, step=self.step)
        except (OSError, NoPage) as error:
            return shown(str(error))
        except BaseException as error:
            return shown(said_by(error))
        return None


class Told:
    """What couldn't be done beside a test: it is told, and fails nothing."""

    ending: ClassVar[tuple[type[BaseException], ...]] = (KeyboardInterrupt,)
    """What ends the run if it is raised; a plugin adds its own."""

    def __init__(self) -> None:
        self.told: list[str] = []

    def tell(self, text: str) -> None:
        if shown(text) not in self.told:  # as of each example of a test
            self.told.append(shown(text))

    def take_told(self) -> list[str]:
        told, self.told = self.told, []
        return told

    @contextmanager
    def guarded(self, what: str) -> Iterator[None]:
        """Tells what is raised, and goes on: a test may have replaced, closed or limited whatever is used here."""
        try:
            yield
        except self.ending:
            raise
        except BaseException as error:
            self.tell(f"{what}: {said_by(error)}")


def said_by(error: BaseException) -> str:
    """Its type and its text. Without `traceback`, which reads files."""
    try:
        text = str(error)
    except BaseException as another:
        text = f"its text raises {type(another).__name__}"
    return f"{type(error).__name__}: {text}"


class Sessions(Told):
    """The sessions of a test, and their records."""

    def __init__(self, folder: Callable[[], Folder], stem: str, count: Optional[Callable[[Path], None]] = None) -> None:
        """`count` is given each record that gets no further steps, while its file is there."""
        super().__init__()
        self._folder, self._stem, self._count = folder, stem, count
        self._hosts: WeakSet[Host] = WeakSet()
        self._records: dict[Path, Callable[[], Optional[Host]]] = {}
        self._running: dict[Path, Running] = {}
        self._kept: dict[Path, Kept] = {}
        self._failures: dict[Path, Failure] = {}

    def start(self, name: str, settings: dict[str, Any]) -> Host:
        """A host that records as `name`; without a record if its files can't be made.

        In another example of Hypothesis an earlier one of that name goes on unrecorded, since the file is no longer its.
        """
        try:
            host = self._recorded(self.record(name), settings)
        except self.ending:
            raise
        except BaseException as error:
            host = Host(**settings)  # raises what isn't about the files
            self.tell(f"not recorded: {said_by(error)}")
        self._hosts.add(host)
        return host

    def record(self, name: str) -> Running:
        """The record of this name. That of a failure stays, as does that of an open session, and another gets a number."""
        label = self._stem if name == "session" else f"{self._stem}.{session_name(name)}"
        path, number = self._folder().path / f"{label}.json", 2
        while path in self._failures or self._is_in_use(path):
            path, number = path.with_name(f"{label}-{number}.json"), number + 1
        return Running(path)

    def _is_in_use(self, path: Path) -> bool:
        """Whether an open session records there. One of an earlier example of Hypothesis may be open, and is over."""
        host = self._records.get(path, lambda: None)()
        is_open = host is not None and host._recording is not None and host._recording.number >= 0
        return is_open and not _is_in_example()

    def _recorded(self, record: Running, settings: dict[str, Any]) -> Host:
        before = self._records.pop(record.scenario, None)
        earlier = None if before is None else before()
        if earlier is not None:
            earlier.stop_recording()
        if record.scenario in self._running:  # by this name's earlier host
            self._count_record(self._running[record.scenario].now)
        try:
            host = self._recording_host(record, settings)
        except BaseException:
            with suppress(OSError):
                record.drop()
            raise
        assert host._recording is not None
        host._recording.path, host._recording.tell = record.scenario, self.tell
        hold(host._recording.number)
        self.note(record, ref(host))
        return host

    def _recording_host(self, record: Running, settings: dict[str, Any]) -> Host:
        """Its folder is made if it isn't there."""
        try:
            return Host(record=record.now, record_lines=record.lines_now, **settings)
        except FileNotFoundError:
            self._folder().make()
            return Host(record=record.now, record_lines=record.lines_now, **settings)

    def saved(self, name: str, save: Callable[[Path, Path], None]) -> Running:
        """The record of this name, which `save` writes."""
        record = self.record(name)
        try:
            save(record.now, record.lines_now)
        except FileNotFoundError:
            self._folder().make()
            save(record.now, record.lines_now)
        return record

    def note(self, record: Running, host: Callable[[], Optional[Host]] = lambda: None) -> None:
        """From now on a failure names this record."""
        self._records[record.scenario], self._running[record.scenario] = host, record

    def failures(self, test: str, message: str) -> list[Failure]:
        """What a failure leaves: of each session the first failure of this attempt."""
        self._keep()
        for scenario, host in self._records.items():
            if scenario not in self._running:
                self._failures.setdefault(scenario, Failure(str(scenario), test, message, _steps(host())))
        return self.failed()

    def failed(self) -> list[Failure]:
        """What the failures of this attempt have left."""
        return [self._failures[scenario] for scenario in sorted(self._failures)]

    def _keep(self) -> None:
        """Gives all records their last names at once, so that none has two runs' files."""
        if not self._running:
            return
        with self._folder().locked():
            for scenario, record in list(self._running.items()):
                try:
                    kept = record.keep()
                except FileNotFoundError:  # the test has removed it
                    kept = None
                except OSError as error:
                    kept = None
                    del self._records[scenario]
                    self.tell(f"the record stays {record.now}: {error.strerror}")
                del self._running[scenario]
                if kept is not None:
                    self._kept[scenario] = kept

    def end_attempt(self) -> None:
        """Nothing is left of an attempt that has passed, or of an earlier run. The test may be run once more."""
        for path in (*(record.now for record in self._running.values()), *self._failures):
            self._count_record(path)
        for scenario, record in self._running.items():
            with self.guarded("a record is left"):
                if scenario not in self._failures:
                    record.drop()
        for scenario in [scenario for scenario in self._kept if scenario not in self._failures]:
            with self.guarded("a record of an earlier attempt is left"):
                self._folder().remove_kept(self._kept.pop(scenario))
        names = {scenario.with_suffix(end).name for scenario in self._failures for end in (".json", ".out", ".html")}
        with self.guarded("files of an earlier run"):
            for error in self._folder().remove_earlier(self._stem, names):
                self.tell(f"a file of an earlier run is left: {said_by(error)}")
        self._records.clear()
        self._running.clear()
        self._failures.clear()

    def _count_record(self, path: Path) -> None:
        if self._count is not None:
            self._count(path)
        try:
            leave_trace(path)
        except OSError as error:
            self.tell(f"no trace is left in {error.filename}: {error.strerror}")

    def close(self) -> None:
        """Closes those that the test hasn't closed. What it has dropped is closed already."""
        for host in list(self._hosts):
            with self.guarded("a session can't be closed"):
                host.close()
        self._hosts.clear()


def _is_in_example() -> bool:
    """Whether Hypothesis runs a test."""
    hypothesis: Any = sys.modules.get("hypothesis")
    return bool(getattr(hypothesis, "currently_in_test_context", lambda: False)())


def _steps(host: Optional[Host]) -> Optional[int]:
    return None if host is None or host._recording is None else host._recording.steps


def message_of(report: pytest.TestReport) -> str:
    """The assertion or the exception, as the report has it: nothing of the test's is asked again."""
    crash = getattr(report.longrepr, "reprcrash", None)
    said: str = report.longreprtext if crash is None else crash.message
    return message_text(said)


def message_text(said: str) -> str:
    text = shown(said.strip().removeprefix("AssertionError: "))
    return text if len(text) <= _MOST_OF_A_MESSAGE else text[:_MOST_OF_A_MESSAGE] + " .."


def add_to(report: pytest.TestReport, failures: list[Failure], told: list[str]) -> None:
    """The section of a report, and what `Pages` has to know of it, as plain values: workers send them."""
    if failures or told:
        report.sections.append((HEAD, "\n".join([*map(str, failures), *told])))
        setattr(report, HEAD, {"failures": [list(failure) for failure in failures], "told": told})
