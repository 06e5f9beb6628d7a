"""`pytest --tracehost-coverage`: the sessions of passing and failing tests, of workers and examples, and what can't be counted."""

from __future__ import annotations

import os
import re
import subprocess
import sys
from pathlib import Path

import pytest
from checking import TOP

sys.path.insert(0, str(TOP / "clients/python"))
from tracehost.goals import ALL
from tracehost.program import default as program

TESTS = """
from hypothesis import given, settings, strategies

EXAMPLES = __file__ + ".examples"

def test_passes(tracehost):
    user = tracehost.user(1001)
    debugger, target = user.process(user.spawn().pid), user.spawn()
    debugger.list()

def test_fails(tracehost):
    tracehost.user(1001).spawn()
    assert False

def test_takes_the_place_of_another(new_tracehost):
    for _ in range(3):
        with new_tracehost() as host:
            host.user(1001).spawn()

@given(strategies.integers(1, 3))
@settings(max_examples=5, database=None, derandomize=True, deadline=None)
def test_examples(new_tracehost, count):
    with open(EXAMPLES, "a") as made:
        made.write("an example\\n")
    with new_tracehost("example") as host:
        host.user(1001).spawn()
"""
SUM = re.compile(r"^(\d+) traces, (\d+) steps$", re.MULTILINE)


@pytest.fixture(autouse=True)
def over_the_library(library: Path, monkeypatch: pytest.MonkeyPatch) -> None:
    monkeypatch.setenv("TRACEHOST_LIBRARY", str(library / "libtracehost.so"))
    monkeypatch.setenv("TRACEHOST", program())


def run(folder: Path, tests: str, *options: str) -> tuple[int, str]:
    """The status of a run, and what it prints."""
    (folder / "test_it.py").write_text(tests)
    environment = {**os.environ, "PYTHONPATH": str(TOP / "clients/python")}
    command = [sys.executable, "-m", "pytest", "-q", "-p", "tracehost.pytest_plugin", "-p", "no:cacheprovider", *options]
    done = subprocess.run(
        command, cwd=folder, env=environment, stdout=subprocess.PIPE, stderr=subprocess.STDOUT, text=True, check=False
    )
    return done.returncode, done.stdout


def sums(said: str) -> tuple[int, int]:
    found = SUM.search(said)
    assert found is not None, said
    return int(found[1]), int(found[2])


@pytest.mark.parametrize("options", [[], ["-n", "2"]], ids=["one process", "workers"])
def test_all_recorded_sessions(tmp_path: Path, options: list[str]) -> None:
    """Of a test that passes, one that fails, of each that took another's place, and of each example."""
    status, said = run(tmp_path, TESTS, "--tracehost-coverage", *options)
    assert status == 1 and "1 failed, 3 passed" in said
    examples = len((tmp_path / "test_it.py.examples").read_text().splitlines())
    assert examples > 1
    traces, steps = sums(said)
    assert (traces, steps) == (1 + 1 + 3 + examples, 3 + 1 + 3 + examples), said
    rows = ["reply spawn new", "process new -> runs", "lwp new -> runs", "reply list pids"]
    assert re.search(rf"^all +{len(rows)} +{len(ALL)} ", said, re.MULTILINE), said


def test_reports_and_status(tmp_path: Path) -> None:
    """Nothing is counted, and nothing printed, unless it is asked for."""
    status, said = run(
        tmp_path, TESTS, "-k", "passes", "--tracehost-coverage-html", "page.html", "--tracehost-coverage-lcov", "c.info"
    )
    assert status == 0 and sums(said) == (1, 3)
    assert "<h1>Coverage of the model</h1>" in (tmp_path / "page.html").read_text() and (tmp_path / "c.info.rows").exists()
    assert "test_it.py::test_passes, step 1" in (tmp_path / "page.html").read_text()
    status, said = run(tmp_path, TESTS, "-k", "passes")
    assert status == 0 and "coverage" not in said
    status, said = run(tmp_path, TESTS, "-k", "passes", "--tracehost-coverage-html", "/dev/full")
    assert status == 1 and "not counted: /dev/full: No space left on device" in said and "1 passed" in said


DIES = """
import os
def test_dies(tracehost):
    tracehost.user(1001).spawn()
    os.kill(os.getpid(), 9)
"""
REMOVES = """
def test_removes(tracehost):
    tracehost.user(1001).spawn()
    tracehost.close()
    tracehost._recording.path.with_name(f"{tracehost._recording.path.name}.{__import__('os').getpid()}").unlink()
"""


@pytest.mark.parametrize(
    ("tests", "options", "why"),
    [
        ("def test_records_nothing(): pass", [], "not counted: no test has recorded a session"),
        (DIES, ["-n", "1"], "not counted: gw0: the worker has ended without its counts"),
        (REMOVES, [], "not counted: test_it.py::test_removes: FileNotFoundError"),
    ],
    ids=["no session", "a worker that dies", "a record that is removed"],
)
def test_what_cannot_be_counted(tmp_path: Path, tests: str, options: list[str], why: str) -> None:
    """It is told, and the run doesn't end with 0."""
    status, said = run(tmp_path, tests, "--tracehost-coverage", *options)
    assert status != 0 and why in said, said


def test_a_program_that_is_gone(tmp_path: Path) -> None:
    """Without one that runs the records there is no count. The tests' outcome is theirs."""
    (tmp_path / "conftest.py").write_text("import os\ndef pytest_runtest_teardown():\n    os.environ['TRACEHOST'] = '/nosuch'\n")
    status, said = run(tmp_path, TESTS, "--tracehost-coverage", "-k", "passes")
    assert status == 1 and "1 passed" in said and "not counted: test_it.py::test_passes: FileNotFoundError" in said
