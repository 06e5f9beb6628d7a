"""What all tests have: the program, the library and the repository, and the count of the checks within a test."""

from __future__ import annotations

import os
import platform
import sys
import tempfile
from collections.abc import Iterator
from pathlib import Path
from typing import TYPE_CHECKING

import pytest

TOP = Path(__file__).resolve().parent
RELEASE = TOP / "release" / f"{platform.machine()}-linux"

# programs that tests start leave nothing in the repository
sys.dont_write_bytecode = True
os.environ["PYTHONDONTWRITEBYTECODE"] = "1"
# commands print reasons, too, if these are set
for variable in ("CI", "TRACEHOST_EXPLAIN"):
    os.environ.pop(variable, None)

from checking import Checks  # noqa: E402  # once no bytecode is written
from posix_kit import OtherUser, Posix, shared_folder  # noqa: E402
from row_files import Located, locator  # noqa: E402

if TYPE_CHECKING:
    from _pytest.terminal import TerminalReporter

modules_read: set[str] = set()
modules_with_tests: set[str] = set()


def pytest_addoption(parser: pytest.Parser) -> None:
    parser.addoption("--program", help="the program to test; else $TRACEHOST, else the one built here, else the release's")
    parser.addoption(
        "--debian", action="store_true", help="installs in a fresh Debian too: as root, with a network, in ten minutes"
    )


@pytest.fixture(scope="session")
def repository() -> Path:
    """The top of the repository."""
    return TOP


@pytest.fixture(scope="session")
def program(request: pytest.FixtureRequest) -> Path:
    """The program to test."""
    named = request.config.getoption("--program") or os.environ.get("TRACEHOST")
    built = TOP / "crates/tracehost/out/tracehost"
    if named:
        found = Path(named).resolve()
    else:
        found = built if os.access(built, os.X_OK) else RELEASE / "tracehost"
    if not os.access(found, os.X_OK):
        pytest.fail(f"there is no program {found}: build it by ./tracehost --prove, or name another one by --program")
    return found


@pytest.fixture(scope="session")
def library() -> Path:
    """The folder of the library to test, with libtracehost.so and libtracehost.a."""
    named = os.environ.get("TRACEHOST_LIB_DIR")
    for folder in [*([Path(named)] if named else []), TOP / "crates/tracehost_c/out", RELEASE]:
        if (folder / "libtracehost.so").exists() and (folder / "libtracehost.a").exists():
            return folder.resolve()
    pytest.skip("there is no library: tools/build_library.py builds it")


@pytest.fixture(scope="session")
def located(tmp_path_factory: pytest.TempPathFactory) -> Located:
    """Finds the file of a scenario by its name."""
    return locator(tmp_path_factory.mktemp("long_rows"))


@pytest.fixture
def file(request: pytest.FixtureRequest, located: Located) -> Path:
    """The file of the scenario that a test is for, absolute or from the top of the repository."""
    return located(request.param)


@pytest.fixture(scope="module")
def posix(program: Path, tmp_path_factory: pytest.TempPathFactory) -> Iterator[Posix]:
    """C programs on the model. They and tracehost-run find the program to test in TRACEHOST."""
    with pytest.MonkeyPatch.context() as patch:
        patch.setenv("TRACEHOST", str(program))
        yield Posix(shared_folder(tmp_path_factory))


@pytest.fixture
def other_user() -> Iterator[OtherUser]:
    """Another user than this one, which only root may be."""
    with tempfile.TemporaryDirectory() as folder:
        Path(folder).chmod(0o755)
        user = OtherUser(Path(folder))
        if not user.is_there():
            pytest.skip("no other user may run the program here")
        yield user


@pytest.fixture
def checks() -> Checks:
    """Counts checks of one test. The test fails at its end if one of them did, or if it made none."""
    return Checks()


@pytest.hookimpl(tryfirst=True)  # type: ignore[misc]  # pytest's decorator has no types
def pytest_pyfunc_call(pyfuncitem: pytest.Function) -> bool | None:
    """Calls a test that counts checks, and ends it by its count."""
    checks = pyfuncitem.funcargs.get("checks")
    if not isinstance(checks, Checks):
        return None
    wanted = pyfuncitem._fixtureinfo.argnames
    pyfuncitem.obj(**{name: pyfuncitem.funcargs[name] for name in wanted})
    pyfuncitem.user_properties.append(("checks", checks.made))
    checks.end()
    return True


def pytest_collectreport(report: pytest.CollectReport) -> None:
    if report.passed and report.nodeid.endswith(".py"):
        modules_read.add(report.nodeid)


def pytest_itemcollected(item: pytest.Item) -> None:
    modules_with_tests.add(item.nodeid.partition("::")[0])


def pytest_collection_finish() -> None:
    """A module without a test is a mistake."""
    empty = sorted(modules_read - modules_with_tests)
    if empty:
        raise pytest.UsageError(f"no test is in {', '.join(empty)}")


def pytest_terminal_summary(terminalreporter: TerminalReporter) -> None:
    """Prints how many checks the tests that count them made."""
    reports = [report for kind in ("passed", "failed") for report in terminalreporter.stats.get(kind, [])]
    counts = [dict(report.user_properties).get("checks", 0) for report in reports if report.when == "call"]
    if any(counts):
        terminalreporter.write_line(f"{sum(map(bool, counts))} of these tests made {sum(counts)} checks")
