"""A test that fails tells its story, in C, C++ and Python: its last step and why, what to look at, and one command that goes on.

Without tracehost-debug, with one that fails or hangs, and if it is turned off, it says the command. What passes says nothing.
"""

from __future__ import annotations

import os
import re
import subprocess
import sys
from collections.abc import Mapping
from pathlib import Path

import pytest
from checking import TOP, needs, run
from failing_programs import IN_PYTHON, STORY, WITH_COMMANDS, Failing, Make, Programs, failing, in_c, in_cpp, languages
from posix_kit import Posix

__all__ = ["failing"]  # a fixture
PLAIN = "-fno-sanitize=all"
MADE: dict[str, Make] = {
    "c": lambda room, library: in_c(room, library, PLAIN, "-DTH_SECONDS_FOR_A_STORY=3"),
    "cpp": lambda room, library: in_cpp(room, library, PLAIN, "-DTRACEHOST_SECONDS_FOR_A_STORY=3"),
}


@pytest.fixture(scope="module")
def programs(library: Path, program: Path, tmp_path_factory: pytest.TempPathFactory) -> Programs:
    """They make no page."""
    environment = {"TRACEHOST_VIEW": "/bin/false", **WITH_COMMANDS}
    return Programs(tmp_path_factory.mktemp("stories"), library, program, environment, MADE)


@languages(*MADE)
def test_a_failure_tells_its_story(failing: Failing, tmp_path: Path) -> None:
    """In a folder whose name a shell has to quote."""
    folder = tmp_path / "it's here"
    ran = failing("fails", folder)
    scenario = folder / f"{failing.stem('fails')}.json"
    quoted = str(scenario).replace("'", "'\"'\"'")
    assert ran.status != 0 and STORY in ran.said.splitlines(), ran.said
    assert ran.said.count("\nthe last steps, and what each changed:\n") == 1
    assert ran.said.count("to go on from here: ") == 1 and f"\nto go on from here: tracehost-debug '{quoted}'\n" in ran.said
    passed = failing("passes", folder)
    assert (
        passed.status == 0
        and "step " not in passed.said
        and "tracehost" not in passed.said.lower().replace(str(failing.program), "")
    )


@languages(*MADE)
@pytest.mark.parametrize("debug", ["", "/nowhere/tracehost-debug", "/bin/false"])
def test_without_it_the_command_is_said(failing: Failing, tmp_path: Path, debug: str) -> None:
    ran = failing("fails", tmp_path, environment={"TRACEHOST_DEBUG": debug})
    scenario = tmp_path / f"{failing.stem('fails')}.json"
    assert ran.status != 0 and ran.said.count(f"tracehost: to go on from here: tracehost-debug {scenario}\n") == 1
    assert STORY not in ran.said


@languages("c", "cpp")
@pytest.mark.parametrize("path", ["", "::/nowhere:.", "/" * 5000], ids=["empty", "odd", "long"])
def test_an_odd_path(failing: Failing, tmp_path: Path, path: str) -> None:
    ran = failing("fails", tmp_path, environment={"PATH": path})
    assert ran.status == 1 and ran.said.count("tracehost: to go on from here: ") == 1


@languages("c", "cpp")
def test_one_that_hangs(failing: Failing, tmp_path: Path) -> None:
    """It is killed with what it has started, and leaves no process."""
    debug = tmp_path / "debug"
    debug.write_text(f"#!/bin/sh\nsleep 1000 &\necho $! $$ >{tmp_path}/numbers\nwait\n")
    debug.chmod(0o700)
    ran = failing("fails", tmp_path / "left", environment={"TRACEHOST_DEBUG": str(debug)})
    assert ran.status == 1 and ran.said.count("tracehost: to go on from here: ") == 1
    for number in (tmp_path / "numbers").read_text().split():
        shown = run("ps", "-o", "stat=", "-p", number).out
        assert not shown or shown.startswith("Z"), number  # a zombie if nobody collects orphans here


@languages("c", "cpp")
def test_a_program_that_ignores_its_children(failing: Failing, tmp_path: Path) -> None:
    """It gets no status of theirs, and says the command once more."""
    words = ["sh", "-c", 'trap "" CHLD; exec "$@"', "sh", *failing.command("fails")]
    environment = {**os.environ, **failing.environment, "TRACEHOST_ARTIFACTS": str(tmp_path)}
    ran = subprocess.run(
        words, env=environment, stdout=subprocess.PIPE, stderr=subprocess.STDOUT, text=True, timeout=300, check=False
    )
    assert ran.returncode == 1 and STORY in ran.stdout and "to go on from here: " in ran.stdout.splitlines()[-1]


@languages("c", "cpp")
def test_a_signal_tells_no_story(failing: Failing, tmp_path: Path) -> None:
    """Its handler says the command."""
    ran = failing("aborts", tmp_path)
    assert (
        ran.status == -6 and ran.said.count("tracehost: to go on from here: tracehost-debug ") == 1 and "last steps" not in ran.said
    )


# ---- Python

PYTEST = """
def test_fails(tracehost): debug(tracehost, Signal.SIGTRAP)
def test_passes(tracehost): debug(tracehost, Signal.SIGSEGV)
def test_is_refused(tracehost):
    user = tracehost.user(1001)
    user.process(user.spawn()).ptrace(Request.PT_ATTACH, 1234)
def test_patches(tracehost, monkeypatch):
    monkeypatch.setattr("subprocess.run", None)
    debug(tracehost, Signal.SIGTRAP)
"""
UNITTEST = """
import tracehost.case

class Case(tracehost.case.TestCase):
    def test_fails(self): debug(self.tracehost, Signal.SIGTRAP)
    def test_passes(self): debug(self.tracehost, Signal.SIGSEGV)
"""


def suite(room: Path, program: Path, tests: str, *words: str, environment: Mapping[str, str] = {}) -> str:
    """What a suite prints that fails."""
    (room / "test_suite.py").write_text(IN_PYTHON + tests)
    surroundings = {
        **{**os.environ, "PYTHONPATH": str(TOP / "clients/python"), "TRACEHOST": str(program)},
        **{"TRACEHOST_ARTIFACTS": str(room / "left"), **environment},
    }
    ran = subprocess.run(
        [sys.executable, "-m", *words], cwd=room, env=surroundings, stdout=subprocess.PIPE, stderr=subprocess.STDOUT, text=True, check=False
    )  # fmt: skip
    assert ran.returncode == 1, ran.stdout
    return ran.stdout


def test_pytest(tmp_path: Path, program: Path) -> None:
    """In the failure's report, that of a test that has replaced functions too. Our frames are left out if the caller is to blame."""
    words = ["pytest", "-q", "-p", "tracehost.pytest_plugin", "-p", "no:cacheprovider", f"--basetemp={tmp_path / 'base'}"]
    said = suite(tmp_path, program, PYTEST, *words, "test_suite.py")
    reports = re.split(r"^_+ test_(\w+) _+$", said, flags=re.MULTILINE)
    of_test = dict(zip(reports[1::2], reports[2::2]))
    assert list(of_test) == ["fails", "is_refused", "patches"]
    for test, report in of_test.items():
        assert report.count("\nto go on from here: tracehost-debug ") == 1, test
        assert (f"\n{STORY}\n" in report) == (test != "is_refused")
    refused = of_test["is_refused"]
    assert "-> ESRCH   (user 1001 has no process 1234)\n" in refused
    assert "tracehost/host.py" not in refused and "tracehost/host.py" in suite(
        tmp_path, program, PYTEST, *words, "--full-trace", "-k", "refused", "test_suite.py"
    )
    off = suite(tmp_path, program, PYTEST, *words, "-k", "fails", "test_suite.py", environment={"TRACEHOST_DEBUG": ""})
    assert STORY not in off and off.count("\nto go on from here: tracehost-debug ") == 1


@pytest.mark.skipif(run(sys.executable, "-c", "import xdist").status != 0, reason="not installed: pytest-xdist")
def test_workers(tmp_path: Path, program: Path) -> None:
    words = [
        "pytest",
        "-q",
        "-n",
        "2",
        "-p",
        "tracehost.pytest_plugin",
        "-p",
        "no:cacheprovider",
        f"--basetemp={tmp_path / 'base'}",
    ]
    said = suite(tmp_path, program, PYTEST, *words, "-k", "fails or passes", "test_suite.py")
    assert said.count(f"\n{STORY}\n") == 1 and said.count("\nto go on from here: tracehost-debug ") == 1


def test_unittest(tmp_path: Path, program: Path) -> None:
    """In the report of the failure, and nowhere else."""
    said = suite(tmp_path, program, UNITTEST, "unittest", "test_suite")
    head, _, report = said.partition("FAIL: test_fails")
    assert "tracehost: " not in head and report.count(f"\ntracehost: {STORY}\n") == 1
    assert report.count("\ntracehost: to go on from here: tracehost-debug ") == 1


@needs("cc")
def test_tracehost_run(posix: Posix, tmp_path: Path) -> None:
    """Of the record of a failure."""
    record = tmp_path / "record.json"
    words: list[str | Path] = [TOP / "bin/tracehost-run", "--seeds", "1..25", "--record", record, posix.race("lost_wakeup")]
    lines = run(*words).err.splitlines()
    assert any(re.fullmatch(r"step \d+ of user 1001: turn 100000 enter pause -> ok", line) for line in lines), lines
    assert lines[-1] == f"to go on from here: tracehost-debug {record}"
    off = run("env", "TRACEHOST_DEBUG=", *words).err.splitlines()
    assert off == [line for line in lines[: len(off) - 1]] + lines[-1:]
