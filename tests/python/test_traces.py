"""What $TRACEHOST_TRACES has tests leave in each suite: a scenario of each, whether it passes or fails, which tracehost-coverage
counts; and nothing without it.
"""

from __future__ import annotations

import json
import os
import re
import subprocess
import sys
from concurrent.futures import ThreadPoolExecutor
from pathlib import Path

import pytest
from checking import TOP, needs, run
from failing_programs import MADE, Failing, Programs, failing, fails, languages, passes

__all__ = ["failing"]  # a fixture
pytestmark = [needs("cc"), needs("c++"), needs("cargo")]
IN_PYTHON = """
import os
from tracehost.case import TestCase

def test_passes(tracehost):
    tracehost.user(1001).spawn()

def test_fails(tracehost):
    tracehost.user(1001).spawn()
    assert False

class Test(TestCase):
    def test_in_a_class(self):
        self.tracehost.user(1001).spawn()
"""
NAME = re.compile(r"(.+\.(.+)-[0-9a-f]{12})\.([0-9]+)(-[0-9]+)?\.json")


@pytest.fixture(scope="module")
def programs(library: Path, program: Path, tmp_path_factory: pytest.TempPathFactory) -> Programs:
    """They make no page, and tell no story."""
    environment = {"TRACEHOST_VIEW": "/bin/false", "TRACEHOST_DEBUG": ""}
    return Programs(tmp_path_factory.mktemp("traces"), library, program, environment)


def is_counted(traces: Path, count: int, steps: int) -> None:
    """tracehost-coverage counts so many traces and steps."""
    ran = run(TOP / "bin/tracehost-coverage", traces)
    assert ran.status == 0, ran.err
    assert f"{count} traces, {steps} steps" in ran.out or count == 1 and f"1 trace, {steps} steps" in ran.out, ran.out


def steps_in(traces: Path) -> int:
    return sum(len(json.loads(path.read_bytes())["steps"]) for path in traces.iterdir())


@languages(*MADE)
def test_passing_and_failing_tests_leave_a_trace(failing: Failing, program: Path, tmp_path: Path) -> None:
    """Each process its own; the record of the one that fails is left, too, and has the same steps."""
    good, bad = passes(failing), fails(failing)
    traces, left = tmp_path / "new" / "traces", tmp_path / "left"
    environment = {"TRACEHOST_TRACES": str(traces)}
    assert failing(good, left, environment=environment).status == 0
    assert [NAME.fullmatch(path.name) is not None for path in traces.iterdir()] == [True]
    with ThreadPoolExecutor(4) as pool:
        ran = list(pool.map(lambda case: failing(case, left, environment=environment), [good, bad] * 4))
    assert [one.status == 0 for one in ran] == [True, False] * 4
    found = [NAME.fullmatch(path.name) for path in traces.iterdir()]
    stems = [one[1] for one in found if one is not None]
    assert sorted(stems) == sorted([failing.stem(good)] * 5 + [failing.stem(bad)] * 4)
    assert len({one[3] for one in found if one is not None}) == 9
    record = left / f"{failing.stem(bad)}.json"
    for path in traces.glob(f"{failing.stem(bad)}.*"):
        assert json.loads(path.read_bytes())["steps"] == json.loads(record.read_bytes())["steps"]
    assert {path.name for path in left.iterdir()} == {record.name, record.with_suffix(".out").name}
    assert all(run(program, path).status == 0 for path in traces.iterdir())
    is_counted(traces, 9, steps_in(traces))


@languages("c", "cpp")
def test_a_forked_child_leaves_none(failing: Failing, tmp_path: Path) -> None:
    """It has a copy of its parent's session."""
    ran = failing("forks", tmp_path / "left", environment={"TRACEHOST_TRACES": str(tmp_path / "traces")})
    assert ran.status == 0, ran.said
    (trace,) = (tmp_path / "traces").iterdir()
    assert trace.name.startswith(failing.stem("forks"))


@languages(*MADE)
@pytest.mark.parametrize("named", [None, ""])
def test_nothing_is_left_unless_it_is_asked_for(failing: Failing, tmp_path: Path, named: str | None) -> None:
    before = sorted(os.listdir(TOP))
    environment = {"TMPDIR": str(tmp_path), **({} if named is None else {"TRACEHOST_TRACES": named})}
    ran = failing(passes(failing), None, environment=environment)
    assert ran.status == 0 and list(tmp_path.iterdir()) == []
    assert sorted(os.listdir(TOP)) == before


@languages(*MADE)
def test_a_trace_that_can_t_be_left_is_told(failing: Failing, tmp_path: Path) -> None:
    """The test passes as it does."""
    (tmp_path / "file").write_text("")
    for folder in (tmp_path / "file", Path("/proc/nowhere")):
        ran = failing(passes(failing), tmp_path / "left", environment={"TRACEHOST_TRACES": str(folder)})
        assert ran.status == 0
        assert f"tracehost: no trace is left in {folder}: " in ran.said, ran.said
        assert "panicked" not in ran.said and ran.left == []


@pytest.mark.parametrize("words", [[], ["-n2"]], ids=["one process", "workers"])
def test_in_python(program: Path, library: Path, tmp_path: Path, words: list[str]) -> None:
    """pytest's fixture and unittest's case."""
    (tmp_path / "test_it.py").write_text(IN_PYTHON)
    traces, left = tmp_path / "traces", tmp_path / "left"
    environment = {
        **os.environ, "PYTHONPATH": str(TOP / "clients/python"), "TRACEHOST": str(program), "TRACEHOST_ARTIFACTS": str(left),
        "TRACEHOST_LIBRARY": str(library / "libtracehost.so"), "TRACEHOST_VIEW": "/bin/false",
    }  # fmt: skip
    command = [
        sys.executable,
        "-m",
        "pytest",
        "-q",
        "-p",
        "tracehost.pytest_plugin",
        "-p",
        "no:cacheprovider",
        *words,
        "test_it.py",
    ]
    for named, count in ((str(traces), 3), ("", 0)):
        surroundings = {**environment, "TRACEHOST_TRACES": named}
        ran = subprocess.run(command, cwd=tmp_path, env=surroundings, capture_output=True, text=True, check=False)
        assert ran.returncode == 1 and "1 failed, 2 passed" in ran.stdout, ran.stdout
        found = [NAME.fullmatch(path.name) for path in (traces.iterdir() if traces.exists() else [])]
        assert sorted(one[2] for one in found if one is not None) == ["test_fails", "test_in_a_class", "test_passes"][: len(found)]
        assert len(found) == count
        if count:
            is_counted(traces, 3, 3)
            for path in traces.iterdir():
                path.unlink()
