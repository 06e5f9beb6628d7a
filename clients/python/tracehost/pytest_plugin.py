"""A plugin for pytest, which finds it if this package is installed.

- The fixture `tracehost` is a `Host` that records. ``@pytest.mark.tracehost(kill_on_debugger_exit=False)`` gives it
  settings.
- The fixture `new_tracehost` is a function that starts such a host, which is closed at the end of the test. A test with
  ``@given`` starts one for each example.
- The fixture `explore` is `tracehost.explore.explore`, but a failure is one of the test, and leaves its trace as a session,
  and what is vacuous in a pass is told by warnings. ``@pytest.mark.interleavings(limit=10**6)`` gives it options.
- An assertion that compares replies shows statuses, signals and flags by name.
- A test that fails, in a fixture too, leaves its scenario, its lines and its page in pytest's temporary folder, or in the
  one that ``--tracehost-artifacts``, or the environment's ``TRACEHOST_ARTIFACTS``, names. The report says where, and
  JUnit's XML has the page as the property ``tracehost_page``. Pages are made at the end of the run, when no test's patches
  are left. A test that passes leaves nothing. The record of one that ends its process is told at the end, or by the next run.
- ``--tracehost-coverage`` says which rows of the machine the sessions of all tests have met: `pytest_coverage`. If the environment's
  ``TRACEHOST_TRACES`` names a folder, each session leaves a copy of its scenario there.
- The plugin changes no test's outcome. What can't be done, as on a full disk, is told in a section of the test's report,
  or of the summary.
"""

from __future__ import annotations

import os
import sys
import warnings
from collections.abc import Callable, Generator, Iterator
from pathlib import Path
from typing import TYPE_CHECKING, Any, Optional, Protocol, TypeVar

import pytest

from . import pytest_coverage
from .host import Host
from .naming import REPLIES, describe, field_text
from .pages import Pages, optional_hook
from .replies import Waited
from .records import Folder, stem_of
from .sessions import HEAD, Sessions, Told, add_to, message_of, said_by

if TYPE_CHECKING:
    from .explore import Found
    from .searching import World

__all__ = ["Explore", "NewHost", "explore", "new_tracehost", "tracehost"]

pytest_plugins = ["tracehost.pytest_scenarios"]  # with -p; an installed package names it too

_Hook = TypeVar("_Hook", bound=Callable[..., Generator[None, Any, None]])
_wrapper: Callable[[_Hook], _Hook] = pytest.hookimpl(hookwrapper=True)  # untyped in some versions of pytest

_PAGE, _PAGES, _BEGAN = f"{HEAD}_page", f"{HEAD}_pages", f"{HEAD}_began"
_artifacts = pytest.StashKey[Optional[Path]]()
_folder_of_run = pytest.StashKey[Folder]()
_sessions_of_item = pytest.StashKey[Sessions]()
_current: list[pytest.Item] = []
_set_up: list[Any] = []  # the fixtures that are being set up, each by the one before


class NewHost(Protocol):
    """Starts a `Host` that records as `name` of the test. While it is open a further one gets a number, but takes its
    place in the next example of a test with ``@given``."""

    def __call__(self, name: str = "session", **settings: Any) -> Host:
        ...


class Explore(Protocol):
    """Searches all interleavings of a world, and fails with a shortest trace, which is kept as `name`."""

    def __call__(self, world: World, name: str = "session", **options: Any) -> Found:
        ...


def pytest_addoption(parser: pytest.Parser) -> None:
    group = parser.getgroup("tracehost")
    group.addoption(
        "--tracehost-artifacts",
        metavar="DIR",
        help="the folder for the sessions and pages of failed tests; else $TRACEHOST_ARTIFACTS",
    )
    pytest_coverage.add_options(group)


def pytest_configure(config: pytest.Config) -> None:
    config.addinivalue_line("markers", "tracehost(**settings): settings of the Host that the fixture tracehost starts")
    config.addinivalue_line("markers", "interleavings(**options): options of the searches by the fixture explore")
    named: Optional[str] = config.getoption("--tracehost-artifacts") or os.environ.get("TRACEHOST_ARTIFACTS") or None
    artifacts = None if named is None else Path(named).absolute()  # a test may change the folder that it runs in
    Told.ending = (KeyboardInterrupt, pytest.exit.Exception)
    config.stash[_artifacts] = artifacts
    if artifacts is not None and _is_usable(artifacts):  # so that a later job finds the same failing examples
        os.environ.setdefault("HYPOTHESIS_STORAGE_DIRECTORY", str(artifacts / ".hypothesis"))
    worker: dict[str, Any] = getattr(config, "workerinput", {})
    if artifacts is not None:
        config.stash[_folder_of_run] = Folder(artifacts, worker.get(_BEGAN))
    if not worker:  # the reports of a worker of xdist come to the process that started it
        pages = Pages(lambda: _folder_in_use(config), lambda node: _stem(config, node))
        config.pluginmanager.register(pages, _PAGES)
    pytest_coverage.configure(config)


@optional_hook
def pytest_configure_node(node: Any) -> None:
    """A worker of xdist that begins later is of the same run."""
    folder = node.config.stash.get(_folder_of_run, None)
    if folder is not None:
        node.workerinput[_BEGAN] = folder.began


def _is_usable(folder: Path) -> bool:
    """Whether files can be made in the folder. Hypothesis warns of one that isn't, or fails."""
    try:
        folder.mkdir(parents=True, exist_ok=True)
    except OSError:
        return False
    return os.access(folder, os.R_OK | os.W_OK | os.X_OK)


# ---- fixtures


@pytest.fixture(scope="session")
def new_tracehost() -> NewHost:
    """A function that starts a `Host` which records, with the settings of `Host`."""

    def start(name: str = "session", **settings: Any) -> Host:
        if not _current:
            raise RuntimeError("new_tracehost: a session belongs to a test, and none is running; use tracehost.Host")
        if _set_up and _set_up[-1].scope != "function":
            raise RuntimeError(
                f"new_tracehost: a session ends with its test, and the fixture {_set_up[-1].argname!r} has the scope"
                f" {_set_up[-1].scope!r}; give it the scope 'function', or use tracehost.Host"
            )
        return _sessions(_current[-1]).start(name, settings)

    return start


@pytest.fixture
def tracehost(request: pytest.FixtureRequest, new_tracehost: NewHost) -> Iterator[Host]:
    """A `Host` with a new session, which is recorded."""
    marker = request.node.get_closest_marker("tracehost")
    with new_tracehost(**(marker.kwargs if marker else {})) as host:
        yield host


@pytest.fixture
def explore(request: pytest.FixtureRequest) -> Explore:
    """A function that searches all interleavings of a world, with the options of `tracehost.explore.explore`."""
    marker = request.node.get_closest_marker("interleavings")

    from . import explore as searches

    def search(world: World, name: str = "session", **options: Any) -> Found:
        __tracebackhide__ = True
        found = searches.explore(world, **{**(marker.kwargs if marker else {}), **options})
        if not found.passed:
            sessions = _sessions(request.node)
            with sessions.guarded("not recorded"):
                sessions.note(sessions.saved(name, found.save))
            raise AssertionError(str(found)) from found.error
        for said in found.vacuous:
            warnings.warn(said, stacklevel=2)
        return found

    return search


# ---- assertions


def pytest_assertrepr_compare(op: str, left: object, right: object) -> Optional[list[str]]:
    """The words of two replies, and the fields in which they differ."""
    if op not in ("==", "!=") or not (issubclass(type(left), REPLIES) or issubclass(type(right), REPLIES)):
        return None
    try:
        return _compared(op, left, right)
    except Exception as error:  # fields may be anything
        return [f"(tracehost can't say how they differ: {said_by(error)})"]


def _compared(op: str, left: object, right: object) -> list[str]:
    left, right = _as_waited(left, right), _as_waited(right, left)
    text = [f"{describe(left)} {op} {describe(right)}"]
    if isinstance(left, REPLIES) and type(left) is type(right):
        for name, one, other in zip(left._fields, left, right):  # type: ignore[call-overload]
            if one != other:
                text.append(f"{name}: {field_text(name, one)} != {field_text(name, other)}")
    return text


def _as_waited(value: object, other: object) -> object:
    """A plain tuple that is compared with a `Waited` as one."""
    if isinstance(other, Waited) and type(value) is tuple and len(value) == 2:
        return Waited(*value)
    return value


# ---- a test


@_wrapper
def pytest_runtest_protocol(item: pytest.Item) -> Generator[None, Any, None]:
    """If the run is ended in this test, it leaves what a failure does. A worker leaves it to the process that started it."""
    _current.append(item)
    outcome = yield
    _current.pop()
    pages: Optional[Pages] = item.config.pluginmanager.get_plugin(_PAGES)
    if outcome.excinfo is not None and pages is not None:
        sessions = _sessions(item)
        with pages.guarded("what the test leaves"):
            pages.interrupted(sessions.failures(item.nodeid, said_by(outcome.excinfo[1])))
        sessions.close()
        pages.told += sessions.take_told()


@_wrapper
def pytest_runtest_setup(item: pytest.Item) -> Generator[None, None, None]:
    """pytest's folder is made before the test replaces the file system: later tests have the same one."""
    if item.config.stash[_artifacts] is None and {"new_tracehost", "explore"} & {*getattr(item, "fixturenames", ())}:
        with _sessions(item).guarded("pytest's folder"):
            _factory(item.config).getbasetemp()
    yield


@_wrapper
def pytest_fixture_setup(fixturedef: Any) -> Generator[None, None, None]:
    _set_up.append(fixturedef)
    yield
    _set_up.pop()


@_wrapper
def pytest_runtest_call(item: pytest.Item) -> Generator[None, None, None]:
    """State machines record in the folder of the test that runs them."""
    stateful: Any = sys.modules.get(f"{__package__}.stateful")
    if stateful is None:
        yield
        return
    before, stateful.start = stateful.start, lambda settings: _sessions(item).start("session", settings)
    yield
    stateful.start = before


@_wrapper
def pytest_runtest_teardown(item: pytest.Item) -> Generator[None, None, None]:
    """None of its sessions is open at its end."""
    yield
    _sessions(item).close()


@_wrapper
def pytest_runtest_makereport(item: pytest.Item) -> Generator[None, Any, None]:
    outcome = yield
    if outcome.excinfo is not None:
        return  # of another plugin
    report: pytest.TestReport = outcome.get_result()
    sessions, failures = _sessions(item), []
    with sessions.guarded("what the test leaves"):
        if report.failed:
            failures = sessions.failures(item.nodeid, message_of(report))
    if report.when == "teardown":
        sessions.end_attempt()
    with sessions.guarded("the report"):
        add_to(report, failures, sessions.take_told() if report.failed or report.when == "teardown" else [])
        pages: list[tuple[str, object]] = [(_PAGE, str(failure.page())) for failure in failures]
        for properties in (item.user_properties, report.user_properties):
            properties += [page for page in pages if page not in properties]
        if report.when == "teardown":  # JUnit's XML has the properties of this report
            item.user_properties[:] = [one for one in item.user_properties if one[0] != _PAGE]


def _sessions(item: pytest.Item) -> Sessions:
    """The sessions of a test."""
    sessions = item.stash.get(_sessions_of_item, None)
    if sessions is None:
        sessions = item.stash[_sessions_of_item] = Sessions(
            lambda: _folder(item.config), _stem(item.config, item.nodeid), pytest_coverage.counter(item.config, item.nodeid)
        )
    return sessions


def _stem(config: pytest.Config, node: str) -> str:
    """How the names of a test's files begin."""
    file, _, test = node.partition("::")
    return stem_of(Path(file).stem, test.replace("::", "."), f"{config.rootpath}/{node}")


def _folder(config: pytest.Config) -> Folder:
    """The folder of the run's records: one that is named, else below pytest's own, which workers have as well."""
    folder = config.stash.get(_folder_of_run, None)
    if folder is None:
        base = _factory(config).getbasetemp()
        folder = Folder((base.parent if hasattr(config, "workerinput") else base) / HEAD, parents=False)
        config.stash[_folder_of_run] = folder
    return folder


def _folder_in_use(config: pytest.Config) -> Optional[Folder]:
    """That of the run, but pytest's own only if a test, or a worker, has made it."""
    factory = getattr(config, "_tmp_path_factory", None)
    is_there = _folder_of_run in config.stash or getattr(factory, "_basetemp", None) is not None
    return _folder(config) if is_there else None


def _factory(config: pytest.Config) -> pytest.TempPathFactory:
    factory: pytest.TempPathFactory = config._tmp_path_factory  # type: ignore[attr-defined]
    return factory
