"""The plugin for pytest beside tests that patch, close, limit and raise what they like: no outcome of theirs is another, and each
later test runs.
"""

from __future__ import annotations

import importlib.util
import os
import pathlib
import re
import subprocess
import sys
from collections.abc import Callable

import pytest

import tracehost

CLIENT = pathlib.Path(tracehost.__file__).resolve().parents[1]
Runs = Callable[..., str]


def needs(plugin: str) -> pytest.MarkDecorator:
    return pytest.mark.skipif(importlib.util.find_spec(plugin) is None, reason=f"not installed: {plugin}")


@pytest.fixture
def runs(tmp_path: pathlib.Path) -> Runs:
    """Runs pytest on a suite, and returns what it prints."""

    def run(suite: str, *words: str, status: int = 1) -> str:
        (tmp_path / "test_suite.py").write_text(suite)
        command = [sys.executable, "-m", "pytest", "-p", "tracehost.pytest_plugin", "-p", "no:cacheprovider", "-rN"]
        command += ["--tracehost-artifacts=left", f"--basetemp={tmp_path / 'base'}", *words, "test_suite.py"]
        path = os.pathsep.join([str(CLIENT), os.environ.get("PYTHONPATH", "")])
        done = subprocess.run(
            command, cwd=tmp_path, env={**os.environ, "PYTHONPATH": path, "COLUMNS": "200"},
            stdout=subprocess.PIPE, stderr=subprocess.STDOUT, text=True, errors="replace", check=False,
        )  # fmt: skip
        assert "INTERNALERROR" not in done.stdout and done.returncode == status, done.stdout
        return done.stdout

    return run


def pages(tmp_path: pathlib.Path) -> list[str]:
    """The tests that have left a page."""
    left = (tmp_path / "left").glob("test_suite.test_*.html")
    return sorted({page.name.split("test_")[2].split("-")[0] for page in left if page.is_file()})


# ---- a test that fails, and the one after it

SUITE = """
import builtins, io, os, pathlib, pytest, resource, shutil, subprocess, sys, tempfile, weakref

class Unprintable(Exception):
    def __str__(self):
        raise RuntimeError("no text")

class Ending(Exception):
    def __str__(self):
        raise SystemExit(9)

def forbidden(*arguments, **settings):
    raise RuntimeError("not in unit tests")

def failing(*arguments, **settings):
    pytest.fail("not in unit tests")

def test_before(tracehost):
    tracehost.user(1001).spawn()

def test_hostile(tracehost, monkeypatch, request):
    tracehost.user(1001).spawn()
    BODY
    assert 0

def test_last(tracehost):
    tracehost.user(1001).spawn()
    assert 0, "the one that matters"
"""
BODIES = {
    "a NUL in the message": "raise ValueError(\"read b'a\\0b'\")",
    "half of a character": 'raise ValueError("file \\ud800")',
    "an undecodable byte": 'raise ValueError("file \\udce9")',
    "an exception without a text": "raise Unprintable",
    "an exception whose text ends the program": "raise Ending",
    "subprocess.run": 'monkeypatch.setattr(subprocess, "run", forbidden)',
    "subprocess.Popen": 'monkeypatch.setattr(subprocess, "Popen", failing)',
    "tempfile": 'monkeypatch.setattr(tempfile, "TemporaryDirectory", None)',
    "open": 'monkeypatch.setattr(builtins, "open", forbidden); monkeypatch.setattr(io, "open", forbidden)',
    "pathlib": "for name in ('open', 'glob', 'mkdir', 'unlink'): monkeypatch.setattr(pathlib.Path, name, failing)",
    "os": "for name in ('pwrite', 'ftruncate', 'open', 'getpid', 'close'): monkeypatch.setattr(os, name, failing)",
    "sys.exit for shutil": 'monkeypatch.setattr(shutil, "which", sys.exit)',
    "the program": 'monkeypatch.setenv("TRACEHOST", "a\\udce9"); monkeypatch.setenv("PATH", "")',
    "standard error": 'monkeypatch.setattr(sys, "stderr", None)',
    "a patch that stays": "weakref.WeakSet = failing",
}


def said_of(runs: Runs, body: str) -> str:
    """Two tests fail, and the last one runs, whatever the first does."""
    said = runs(SUITE.replace("BODY", body))
    assert "2 failed, 1 passed" in said and "AssertionError: the one that matters" in said
    return said


@pytest.mark.parametrize("body", BODIES.values(), ids=BODIES)
def test_a_failing_test_is_reported(runs: Runs, tmp_path: pathlib.Path, body: str) -> None:
    """The tests after it run, and the page is made once nothing is patched."""
    said = said_of(runs, body)
    assert pages(tmp_path) == ["hostile", "last"]
    assert "page:     none" not in said


LASTING = {
    "RLIMIT_NOFILE": "resource.setrlimit(resource.RLIMIT_NOFILE, (3, 3))",
    "a patch that stays": "subprocess.run = forbidden",
    "a folder in place of the page": "os.mkdir(tracehost._recording.path.with_suffix('.html'))",
    "a record that is gone": "shutil.rmtree(tracehost._recording.path.parent)",
}


@pytest.mark.parametrize("body", LASTING.values(), ids=LASTING)
def test_what_stays_after_a_test_is_told(runs: Runs, tmp_path: pathlib.Path, body: str) -> None:
    """The report says why there is no page."""
    said = said_of(runs, body)
    assert re.search(r"^page:     none \(.+\)$", said, re.MULTILINE), said
    assert "hostile" not in pages(tmp_path)


def test_files_of_an_earlier_run_that_stay(runs: Runs, tmp_path: pathlib.Path) -> None:
    """A folder in place of the record: it can't be removed, no record gets its name, and both are told."""
    suite = "def test_one(tracehost):\n    tracehost.user(1001).spawn()\n    assert {}\n"
    runs(suite.format(0))
    (scenario,) = (tmp_path / "left").glob("*.json")
    scenario.unlink()
    scenario.mkdir()
    said = runs(suite.format(1), status=0)
    assert re.search(rf"^test_suite\.py::test_one: a file of an earlier run is left: .*{scenario}'$", said, re.MULTILINE)
    assert not [*(tmp_path / "left").glob("*.json.*")]
    said = runs(suite.format(0))
    assert "page:" not in said
    assert re.search(rf"^the record stays {scenario}\.\d+: Is a directory$", said, re.MULTILINE)
    (stays,) = (tmp_path / "left").glob("*.json.*")
    assert str(stays) in said


UNRECORDED = {  # a suite, the folder of its artifacts, and what is said
    # what is said of the first one reads no files
    "an error in an error": (
        """
import os, sys

def test_one(monkeypatch, new_tracehost):
    with monkeypatch.context() as patch:
        patch.setattr(os, "stat", sys.exit)
        host = new_tracehost()
    assert host.user(1001).spawn().pid == 1000
""",
        "/dev/null/nowhere",
        ["1 passed", "test_one: not recorded: "],
    ),
    # a test replaces it before its session begins; pytest's folder is there for the tests after it
    "another file system": (
        """
import pathlib, pytest

@pytest.fixture
def no_folders(monkeypatch):
    monkeypatch.setattr(pathlib.Path, "mkdir", lambda *words, **settings: None)

def test_first(no_folders, tracehost):
    assert tracehost.user(1001).spawn().pid == 1000

def test_second(tmp_path, tracehost):
    (tmp_path / "file").write_text("x")
""",
        "",
        ["2 passed", "test_first: not recorded: FileNotFoundError"],
    ),
}


@pytest.mark.parametrize("suite, folder, told", UNRECORDED.values(), ids=UNRECORDED)
def test_what_is_not_recorded_is_told(runs: Runs, suite: str, folder: str, told: list[str]) -> None:
    said = runs(suite, f"--tracehost-artifacts={folder}", status=0)
    assert all(words in said for words in told), said


def test_a_session_that_is_longer_than_a_scenario(runs: Runs) -> None:
    """It is told, also if each warning is an error."""
    said = runs(
        """
def test_one(monkeypatch, tracehost):
    monkeypatch.setattr("tracehost.recording._MOST_STEPS", 3)
    for _ in range(5):
        tracehost.user(1001).spawn()
""",
        "-Werror",
        status=0,
    )
    assert re.search(r"test_suite\.test_one-\w+\.json: the recording ends after 3 steps, as no scenario may be longer", said)


def test_descriptors_that_a_test_closes(runs: Runs) -> None:
    """The files that it opens then get their numbers, and no step is written into them."""
    said = runs(
        """
import os

def test_one(tracehost, tmp_path):
    records = [number for number in map(int, os.listdir("/proc/self/fd"))
               if os.path.exists(f"/proc/self/fd/{number}") and "/left/" in os.readlink(f"/proc/self/fd/{number}")]
    assert len(records) == 2
    for number in records:
        os.close(number)
    own = [os.open(tmp_path / str(n), os.O_RDWR | os.O_CREAT) for n in range(2)]
    assert sorted(own) == sorted(records)
    assert tracehost.user(1001).spawn().pid == 1000
    tracehost.close()
    assert [os.fstat(number).st_size for number in own] == [0, 0]
""",
        status=0,
    )
    assert "not recorded from step 1 on: Bad file descriptor" in said


# ---- one process of several


@needs("xdist")
def test_a_message_that_no_worker_could_send(runs: Runs, tmp_path: pathlib.Path) -> None:
    """The message of the page goes to the process that makes it."""
    assert "2 failed, 1 passed" in runs(SUITE.replace("BODY", 'raise ValueError("a\\0b")'), "-n", "2")
    assert pages(tmp_path) == ["hostile", "last"]


@needs("pytest_forked")
def test_forked(runs: Runs, tmp_path: pathlib.Path) -> None:
    assert "2 failed, 1 passed" in runs(SUITE.replace("BODY", 'raise ValueError("a\\0b")'), "--forked")
    assert pages(tmp_path) == ["hostile", "last"]


@needs("pytest_rerunfailures")
def test_the_page_is_of_the_last_attempt(runs: Runs, tmp_path: pathlib.Path) -> None:
    """A test that passes at last has none, and no property."""
    suite = """
attempts = []

def test_passes(tracehost):
    attempts.append(0)
    tracehost.user(1001).spawn()
    assert len(attempts) == 3

def test_fails(tracehost):
    attempts.append(0)
    for _ in attempts[3:]:
        tracehost.user(1001).spawn()
    assert 0, f"attempt {len(attempts) - 3}"
"""
    assert "1 failed, 1 passed, 4 rerun" in runs(suite, "--reruns=2", "--junit-xml=junit.xml")
    assert pages(tmp_path) == ["fails"]
    (page,) = (tmp_path / "left").glob("*.html")
    assert len([*(tmp_path / "left").glob("test_suite*")]) == 3
    assert "attempt 3" in page.read_text() and "attempt 2" not in page.read_text()
    assert (tmp_path / "junit.xml").read_text().count("tracehost_page") == 1


@needs("pytest_subtests")
def test_subtests_keep_their_pages(runs: Runs, tmp_path: pathlib.Path) -> None:
    """Of the step after which the first one failed, though the session goes on; a further session has another name."""
    said = runs(
        """
def test_shared(tracehost, subtests):
    for n in range(4):
        with subtests.test(n=n):
            tracehost.user(1001).spawn()
            assert n % 2 == 0

def test_of_each(new_tracehost, subtests):
    for n in range(3):
        with subtests.test(n=n):
            host = new_tracehost()
            for _ in range(3 - n):
                host.user(1001).spawn()
            assert n == 2
"""
    )
    left = {re.sub(r"^test_suite.test_(\w+)-[0-9a-f]+", r"\1", page.name): page for page in (tmp_path / "left").glob("*.html")}
    assert sorted(left) == ["of_each-2.html", "of_each.html", "shared.html"]
    assert '"step": 2' in left["shared.html"].read_text()
    assert '"step": 3' in left["of_each.html"].read_text() and '"step": 2' in left["of_each-2.html"].read_text()
    for page in left.values():
        assert str(page.relative_to(tmp_path)) in said
        assert page.with_suffix(".json").exists() and page.with_suffix(".out").exists()


# ---- what is used in a wrong place


@pytest.mark.parametrize("scope", ["class", "module", "package", "session"])
def test_a_session_of_a_wider_scope_is_refused(runs: Runs, scope: str) -> None:
    """In the first test already. A function that starts sessions may have any scope."""
    said = runs(
        f"""
import pytest

@pytest.fixture(scope={scope!r})
def shared(new_tracehost):
    return new_tracehost("shared")

@pytest.fixture(scope={scope!r})
def starts(new_tracehost):
    return lambda: new_tracehost("own")

@pytest.fixture
def prepared(starts):
    return starts()

def test_refused(shared):
    pass

def test_passes(starts, prepared):
    assert starts().user(1001).spawn().pid == prepared.user(1001).spawn().pid == 1000
"""
    )
    assert "1 passed, 1 error" in said
    wanted = f"new_tracehost: a session ends with its test, and the fixture 'shared' has the scope '{scope}'"
    assert f"RuntimeError: {wanted}; give it the scope 'function', or use tracehost.Host" in said


def test_a_session_without_a_test(runs: Runs) -> None:
    said = runs(
        """
kept = []

def test_one(new_tracehost):
    kept.append(new_tracehost)

def pytest_sessionfinish():
    kept[0]()
"""
        "import sys; import pytest\n"
        "@pytest.fixture(scope='session', autouse=True)\n"
        "def register(request): request.config.pluginmanager.register(sys.modules[__name__])\n",
        status=1,
    )
    assert "RuntimeError: new_tracehost: a session belongs to a test, and none is running" in said
