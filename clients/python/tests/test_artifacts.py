"""What failed tests leave: files for each, with any name, in one process and under xdist.

    python3 -m pytest -p tracehost.pytest_plugin test_artifacts.py
"""

from __future__ import annotations

import html
import importlib.util
import json
import os
import pathlib
import re
import subprocess
import sys
import xml.etree.ElementTree
from collections.abc import Callable

import pytest

import tracehost

CLIENT = pathlib.Path(tracehost.__file__).resolve().parents[1]
Runs = Callable[..., str]

needs_xdist = pytest.mark.skipif(importlib.util.find_spec("xdist") is None, reason="there is no xdist")
workers = [pytest.param((), id="one process"), pytest.param(("-n", "4"), id="xdist", marks=needs_xdist)]


def named_program() -> str:
    return os.environ["TRACEHOST"]


@pytest.fixture
def runs(tmp_path: pathlib.Path) -> Runs:
    """Runs pytest on a suite, and returns what it prints. Artifacts are left in `left`."""

    def run(suite: str, *words: str, name: str = "test_suite.py", status: int = 1) -> str:
        file = tmp_path / name
        file.parent.mkdir(parents=True, exist_ok=True)
        file.write_text(suite)
        command = [sys.executable, "-m", "pytest", "-p", "tracehost.pytest_plugin", "-p", "no:cacheprovider", "-rN"]
        command += ["--tracehost-artifacts", "left", f"--basetemp={tmp_path / 'base'}", *words, str(file)]
        environment = {**os.environ, "PYTHONPATH": str(CLIENT), "COLUMNS": "200"}
        environment.pop("HYPOTHESIS_STORAGE_DIRECTORY", None)
        done = subprocess.run(command, cwd=tmp_path, env=environment, stdout=subprocess.PIPE, text=True)
        assert done.returncode == status, done.stdout
        return done.stdout

    return run


def files(tmp_path: pathlib.Path) -> list[pathlib.Path]:
    return sorted(path for path in (tmp_path / "left").iterdir() if path.name != ".hypothesis")


def scenarios(tmp_path: pathlib.Path) -> list[pathlib.Path]:
    return [path for path in files(tmp_path) if path.suffix == ".json"]


def kinds(tmp_path: pathlib.Path) -> list[str]:
    """What the files of the only test are called after its name."""
    return [re.sub(r"^test_suite\.test_one-[0-9a-f]{12}", "", path.name) for path in files(tmp_path)]


def steps(scenario: pathlib.Path) -> int:
    """How many steps are left; the program prints their lines again."""
    subprocess.run([named_program(), scenario, "--expect", scenario.with_suffix(".out")], check=True)
    return len(json.loads(scenario.read_text())["steps"])


LONG = """
import pytest

class TestFollowForkThroughSeveralGenerationsOfProcessesThatAreTracedByOneDebuggerWithThreads:
    @pytest.mark.parametrize("n", range(64))
    def test_a_child_is_reported_before_its_parent_whatever_the_order_of_turns(self, tracehost, n):
        for _ in range(n + 1):
            tracehost.user(1001).spawn()
        assert n < 0
"""


@pytest.mark.parametrize("words", workers)
def test_64_tests_whose_names_begin_alike(runs: Runs, tmp_path: pathlib.Path, words: tuple[str, ...]) -> None:
    name = "integration/debuggers/of/some/deep/folder/test_follow_forks_of_a_debugger_with_threads.py"
    text = runs(LONG, *words, name=name)
    assert sorted(map(steps, scenarios(tmp_path))) == list(range(1, 65))
    assert len({line for line in text.splitlines() if line.startswith("scenario: ")}) == 64


ODD = """
import pytest

@pytest.mark.parametrize("name", ["a+b", "a b", "a/b", "a|b", "a_b", "\\u00e9" * 150, "x" * 300, "x" * 301, "..", "\\u2028", ""])
def test_s(tracehost, name):
    tracehost.user(1001).spawn()
    assert name is None
"""


@pytest.mark.parametrize("words", workers)
def test_odd_names(runs: Runs, tmp_path: pathlib.Path, words: tuple[str, ...]) -> None:
    text = runs(ODD, *words)
    assert [steps(scenario) for scenario in scenarios(tmp_path)] == [1] * 11
    assert len(re.findall(r"^page: .*\.html$", text, re.MULTILINE)) == 11
    assert all(file.name.isascii() and len(file.name) <= 100 for file in files(tmp_path))


def test_odd_names_without_artifacts(tmp_path: pathlib.Path) -> None:
    (tmp_path / "test_suite.py").write_text(ODD)
    command = [sys.executable, "-m", "pytest", "-p", "tracehost.pytest_plugin", "-p", "no:cacheprovider"]
    environment = {**os.environ, "PYTHONPATH": str(CLIENT)}
    base = tmp_path / "base"
    subprocess.run([*command, f"--basetemp={base}"], cwd=tmp_path, env=environment, stdout=subprocess.DEVNULL)
    assert len({path.resolve() for path in base.glob("tracehost/test_suite.test_s*.html")}) == 11


def test_failures_of_fixtures(runs: Runs, tmp_path: pathlib.Path) -> None:
    """In setup and in teardown a session is left too, and a page."""
    text = runs(
        """
import pytest

@pytest.fixture
def prepared(tracehost):
    tracehost.user(1001).spawn()
    raise RuntimeError("no debugger")

@pytest.fixture
def tidied(tracehost):
    yield tracehost
    raise RuntimeError("a target is left")

def test_setup(prepared): pass

def test_teardown(tidied):
    tidied.user(1001).spawn()
    tidied.user(1001).spawn()
"""
    )
    by_name = {path.name.split("test_")[2].split("-")[0]: steps(path) for path in scenarios(tmp_path)}
    assert by_name == {"setup": 1, "teardown": 2}
    assert text.count("scenario: ") == 2 and len(re.findall(r"^page: .*\.html$", text, re.MULTILINE)) == 2


def test_stale_files_go(runs: Runs, tmp_path: pathlib.Path) -> None:
    """A page is that of the run: none is left of a test that passes now, or starts no session."""
    suite = "def test_one(new_tracehost):\n    new_tracehost().user(1001).spawn()\n    assert {}\n"
    left = tmp_path / "left"
    runs(suite.format("False"))
    assert kinds(tmp_path) == [".html", ".json", ".out"]
    (left / "mine.txt").write_text("a file of somebody else")
    runs(suite.format("True"), status=0)
    assert [path.name for path in files(tmp_path)] == ["mine.txt"]
    runs(suite.format("False"))
    runs("def test_one(new_tracehost): pass\n", status=0)
    assert [path.name for path in files(tmp_path)] == ["mine.txt"]


def test_open_sessions_are_closed_at_the_end_of_a_test(runs: Runs) -> None:
    """50 sessions with two files each in each of 10 tests, with room for 150 descriptors."""
    runs(
        """
import os, resource
import pytest
import tracehost

resource.setrlimit(resource.RLIMIT_NOFILE, (150, 150))
kept = []

@pytest.mark.parametrize("n", range(10))
def test_many(new_tracehost, n):
    for host in kept[-50:]:
        with pytest.raises(tracehost.SessionClosed):
            host.user(1001).spawn()
    for k in range(50):
        host = new_tracehost(f"session_{k}")
        host.user(1001).spawn()
        kept.append(host)
""",
        status=0,
    )


def test_a_page_that_cannot_be_written(runs: Runs, tmp_path: pathlib.Path) -> None:
    """The report says why, no half page is left, and the session is."""
    text = runs(
        """
import resource

def test_one(tracehost):
    tracehost.user(1001).spawn()
    resource.setrlimit(resource.RLIMIT_FSIZE, (20000, 20000))
    assert False
"""
    )
    (scenario,) = scenarios(tmp_path)
    assert f"page:     none (viewer/make: {scenario.with_suffix('.html')}: File too large)" in text
    assert kinds(tmp_path) == [".json", ".out"] and steps(scenario) == 1


def test_a_second_session_of_a_name(runs: Runs, tmp_path: pathlib.Path) -> None:
    """It gets a number, and both have a record; a third one takes the place of one that is closed."""
    runs(
        """
def test_two(new_tracehost):
    first = new_tracehost()
    first.user(1001).spawn()
    second = new_tracehost()
    for _ in range(3):
        second.user(1001).spawn()
        first.user(1001).spawn()
    assert first.user(1001).spawn().pid == 1004
    second.close()
    new_tracehost().user(1001).spawn()
    assert False
"""
    )
    second, first = scenarios(tmp_path)
    assert (steps(first), steps(second)) == (5, 1) and second.stem == f"{first.stem}-2"


def test_a_further_session_beside_the_fixture(runs: Runs, tmp_path: pathlib.Path) -> None:
    """The page of the fixture's shows its own steps; an example of Hypothesis takes the place of the one before."""
    runs(
        """
from hypothesis import given, strategies as st

def test_fixture(tracehost, new_tracehost):
    tracehost.user(1001).spawn()
    other = new_tracehost()
    assert [other.user(1001).spawn() for _ in range(3)] == []

kept = []

@given(n=st.integers(0, 3))
def test_examples(new_tracehost, n):
    kept.append(new_tracehost())
    kept[-1].user(1001).spawn()
    assert n < 2
"""
    )
    *of_fixture, examples = sorted(scenarios(tmp_path), key=lambda path: "examples" in path.name)
    assert sorted(map(steps, of_fixture)) == [1, 3] and steps(examples) == 1


def test_the_page_has_the_test_and_its_assertion(runs: Runs, tmp_path: pathlib.Path) -> None:
    runs(
        """
def test_one(tracehost):
    user = tracehost.user(1001)
    assert user.process(user.spawn()).list() == (1000, 1001)

def test_two(tracehost):
    tracehost.user(1001).spawn()
    raise ValueError("<b>second</b>")
"""
    )
    shown = []
    for scenario in scenarios(tmp_path):
        page = scenario.with_suffix(".html").read_text()
        data = page.split('id="embedded">', 1)[1].split("</script>", 1)[0]
        page_of = json.loads(html.unescape(data))
        failure = page_of["failure"]
        assert page_of["title"] == failure["test"]
        shown.append((failure["test"], failure["message"].splitlines()[0], failure["step"]))
    assert sorted(shown) == [
        ("test_suite.py::test_one", "assert (1000,) == (1000, 1001)", 2),
        ("test_suite.py::test_two", "ValueError: <b>second</b>", 1),
    ]


@pytest.mark.parametrize("words", workers)
def test_the_property_in_junit_xml(runs: Runs, tmp_path: pathlib.Path, words: tuple[str, ...]) -> None:
    runs(
        """
import pytest

@pytest.fixture
def tidied(tracehost):
    yield tracehost
    raise RuntimeError("left")

def test_call(tracehost):
    assert tracehost.user(1001).spawn() is None

def test_teardown(tidied):
    pass

def test_passes(tracehost):
    pass
""",
        *words,
        "--junit-xml=junit.xml",
    )
    cases = xml.etree.ElementTree.parse(tmp_path / "junit.xml").iter("testcase")
    pages = {
        case.attrib["name"]: [p.attrib["value"] for p in case.iter("property") if p.attrib["name"] == "tracehost_page"]
        for case in cases
    }
    assert pages["test_passes"] == []
    for name in ("test_call", "test_teardown"):
        (page,) = pages[name]
        assert pathlib.Path(page).exists() and name in page


def test_the_database_of_hypothesis_is_beside_the_artifacts(runs: Runs, tmp_path: pathlib.Path) -> None:
    runs(
        """
from hypothesis import given, strategies as st

@given(n=st.integers(0, 1000))
def test_n(new_tracehost, n):
    new_tracehost().user(1001).spawn()
    assert n < 10
"""
    )
    assert list((tmp_path / "left" / ".hypothesis" / "examples").rglob("*"))
    assert not (tmp_path / ".hypothesis" / "examples").exists()


def test_a_test_that_changes_the_folder(runs: Runs, tmp_path: pathlib.Path) -> None:
    (tmp_path / "other").mkdir()
    runs(
        """
def test_one(monkeypatch, request):
    monkeypatch.chdir("other")
    request.getfixturevalue("tracehost").user(1001).spawn()
    assert False
"""
    )
    assert [steps(scenario) for scenario in scenarios(tmp_path)] == [1]


def test_the_folder_of_the_environment(tmp_path: pathlib.Path) -> None:
    (tmp_path / "test_suite.py").write_text("def test_one(tracehost):\n    tracehost.user(1001).spawn()\n    assert False\n")
    command = [sys.executable, "-m", "pytest", "-p", "tracehost.pytest_plugin", "-p", "no:cacheprovider", "-q"]
    environment = {**os.environ, "PYTHONPATH": str(CLIENT), "TRACEHOST_ARTIFACTS": "left"}
    subprocess.run(command, cwd=tmp_path, env=environment, stdout=subprocess.DEVNULL)
    (scenario,) = scenarios(tmp_path)
    assert steps(scenario) == 1


FULL = """
import resource

def test_passes(tracehost):
    resource.setrlimit(resource.RLIMIT_FSIZE, (600, resource.getrlimit(resource.RLIMIT_FSIZE)[1]))
    try:
        for _ in range(40):
            tracehost.user(1001).spawn()
    finally:
        resource.setrlimit(resource.RLIMIT_FSIZE, (resource.getrlimit(resource.RLIMIT_FSIZE)[1],) * 2)

def test_fails(tracehost):
    test_passes(tracehost)
    assert tracehost.user(1001).spawn().pid == 0
"""


def test_a_full_disk_changes_no_outcome(runs: Runs, tmp_path: pathlib.Path) -> None:
    """It is told, and the record is that of the steps before."""
    said = runs(FULL)
    assert "1 failed, 1 passed" in said
    assert "assert 1040 == 0" in said
    assert ": not recorded from step " in said
    assert [1 <= steps(scenario) < 40 for scenario in scenarios(tmp_path)] == [True]


@pytest.mark.parametrize("folder", ["/dev/null/nowhere", "/dev/null", "/proc/nowhere"])
@pytest.mark.parametrize("words", workers)
def test_a_folder_that_cannot_be_made(runs: Runs, folder: str, words: tuple[str, ...]) -> None:
    """The tests go on without records. The report of the one that fails says so, and the summary for the others."""
    said = runs(
        """
from hypothesis import settings
from tracehost.stateful import Debugging

class Machine(Debugging):
    pass

TestMachine = Machine.TestCase
TestMachine.settings = settings(max_examples=3, deadline=None)

def test_passes(tracehost, capfd):
    assert tracehost.user(1001).spawn().pid == 1000
    assert capfd.readouterr() == ("", "")

def test_fails(tracehost):
    tracehost.user(1001).spawn()
    assert 0, "the test's own"
""",
        "-Werror",
        "--tracehost-artifacts",
        folder,
        *words,
    )
    assert "1 failed, 2 passed" in said and "AssertionError: the test's own" in said
    assert re.search(rf"^\S*test_suite\.py::test_passes: not recorded: [A-Za-z]+Error: .*{folder}", said, re.MULTILINE)
    assert re.search(rf"^not recorded: [A-Za-z]+Error: .*{folder}", said, re.MULTILINE)
    assert "scenario:" not in said and "page:" not in said


# ---- searches

SEARCHES = """
import os, pytest
from tracehost import Action, Call, Compute, Enter, Leave, Raise, Request, Signal
from tracehost.explore import LimitReached, Process, ended_by_signal

def world(host):
    user = host.user(1001)
    debugger, target = Process(user, user.spawn()), Process(user, user.spawn())

    async def debug():
        await debugger.ptrace(Request.PT_ATTACH, target.pid)
        status = (await debugger.wait4(target.pid)).status
        await debugger.ptrace(Request.PT_DETACH, target.pid)
        assert os.WSTOPSIG(status) == Signal.SIGSTOP, "another stop came first"

    async def run():
        await target.turn(Raise(Signal.SIGUSR1))
        await target.turn(Compute())

    return [debug, run]

def test_finds(explore):
    explore(world)

@pytest.mark.interleavings(limit=3)
def test_is_too_long(explore):
    explore(world)

@pytest.mark.interleavings(limit=3, properties=[])
def test_options(explore):
    explore(lambda host: world(host)[1:], limit=30, properties=[])
"""


@pytest.mark.parametrize("words", workers)
def test_a_search_that_fails_leaves_its_trace(tmp_path: pathlib.Path, runs: Runs, words: tuple[str, ...]) -> None:
    """A limit is a failure too. A test that passes leaves nothing."""
    said = runs(SEARCHES, *words)
    assert "2 failed, 1 passed" in said and "LimitReached: not all interleavings were searched: 3 states is the limit" in said
    (left,) = scenarios(tmp_path)
    assert "test_finds" in left.name and [file.suffix for file in files(tmp_path)] == [".html", ".json", ".out"]
    trace = [line for line in said.splitlines() if re.match(r"E +\d+ (debug|run): ", line)]
    assert trace and steps(left) == 2 + len(trace)
    assert f"page:     {left.with_suffix('.html')}" in said


HALF_TRIED = """
from tracehost import Compute, Request
from tracehost.explore import Process

def test_passes(explore):
    def world(host):
        process = Process(host.user(1001), host.user(1001).spawn())

        async def debug():
            try:
                await process.ptrace(Request.PT_ATTACH, 4711)
            except ProcessLookupError:
                return
            await process.turn(Compute())

        return [debug]

    explore(world)
"""


def test_a_search_that_tries_half_warns(runs: Runs) -> None:
    said = runs(HALF_TRIED, status=0)
    assert "1 passed, 2 warnings" in said, said
    assert re.search(r"UserWarning: debug ends at an errno whenever it ends\n", said)
    assert re.search(r"UserWarning: no interleaving awaits a step at test_\w+\.py:14\n", said)
