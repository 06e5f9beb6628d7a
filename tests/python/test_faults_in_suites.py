"""Faults of debuggers are named in the first forty lines that a failing test prints, in each suite, with the command that goes on."""

from __future__ import annotations

import json
import re
from collections.abc import Iterator
from pathlib import Path

import pytest
from checking import needs
from failing_programs import CASES, MADE, WITH_COMMANDS, Failing, Programs, failing, languages
from test_notices import FAULTS, Step
from test_stories import suite

__all__ = ["failing"]  # a fixture
pytestmark = [needs("cc"), needs("c++")]
FIRST_SCREEN = 40  # lines
NAMES = [name for name, (_, wrong, still_open) in FAULTS.items() if wrong or still_open]
IN_PYTHON = """
import os, pytest, tracehost.case

FAULTS = {faults!r}

@pytest.mark.parametrize("fault", FAULTS)
def test_steps(tracehost, fault):
    for step in FAULTS[fault]:
        tracehost.line(step)
    assert False

class Test(tracehost.case.TestCase):
    {tests}
"""
IN_UNITTEST = """
    def test_{number}(self):
        for step in FAULTS[{fault!r}]:
            self.tracehost.line(step)
        self.assertTrue(False)
"""


@pytest.fixture(scope="module")
def programs(library: Path, program: Path, tmp_path_factory: pytest.TempPathFactory) -> Programs:
    """They make no page."""
    return Programs(tmp_path_factory.mktemp("faults"), library, program, {"TRACEHOST_VIEW": "/bin/false", **WITH_COMMANDS})


def lines_of(steps: list[Step]) -> list[str]:
    return [json.dumps({"user": 1001, **step}) for step in steps]


def is_named(fault: str, said: str) -> None:
    """What may be wrong, what is still open, and the command."""
    lines = [line.strip().removeprefix("tracehost: ") for line in said.splitlines()]
    screen = lines[:FIRST_SCREEN]
    _, wrong, still_open = FAULTS[fault]
    for head, texts in (("look at", wrong), ("still open", still_open)):
        for text in texts:
            at, _, words = text.partition(": ")
            assert f"{head}: step {at}, {words}" in screen, said
    assert sum(line.startswith("to go on from here: tracehost-debug ") for line in screen) == 1, said
    assert not any(line.startswith("to go on from here: ") for line in lines[FIRST_SCREEN:])


def test_there_are_sixteen() -> None:
    assert len(NAMES) >= 16


@languages(*MADE)
@pytest.mark.parametrize("fault", NAMES)
def test_programs(failing: Failing, tmp_path: Path, fault: str) -> None:
    (tmp_path / "steps").write_text("".join(f"{line}\n" for line in lines_of(FAULTS[fault][0])))
    case = "TestSteps" if failing.name == "go" else CASES.get(failing.name, "{}").format("steps")
    ran = failing(case, tmp_path / "left", environment={"STEPS": str(tmp_path / "steps"), "RUST_BACKTRACE": "0"})
    assert ran.status != 0
    is_named(fault, ran.said)


@pytest.fixture(scope="module")
def tests_in_python() -> str:
    faults = {name: lines_of(FAULTS[name][0]) for name in NAMES}
    tests = "".join(IN_UNITTEST.format(number=number, fault=name) for number, name in enumerate(NAMES))
    return IN_PYTHON.format(faults=faults, tests=tests)


def reports(said: str, heading: str) -> Iterator[str]:
    """What is said of each test, in the order of the names."""
    parts = re.split(heading, said, flags=re.MULTILINE)[1:]
    assert len(parts) == len(NAMES), said
    return iter(parts)


def test_pytest(tests_in_python: str, tmp_path: Path, program: Path) -> None:
    words = ["pytest", "-q", "-p", "tracehost.pytest_plugin", "-p", "no:cacheprovider", f"--basetemp={tmp_path / 'base'}"]
    said = suite(tmp_path, program, tests_in_python, *words, "-k", "test_steps", "test_suite.py", environment=WITH_COMMANDS)
    for name, report in zip(NAMES, reports(said.partition("short test summary")[0], r"^_+ test_steps\[.*\] _+$")):
        is_named(name, report)


def test_unittest(tests_in_python: str, tmp_path: Path, program: Path) -> None:
    said = suite(tmp_path, program, tests_in_python, "unittest", "test_suite.Test", environment=WITH_COMMANDS)
    of_test = dict(zip(map(int, re.findall(r"^FAIL: test_(\d+) ", said, re.MULTILINE)), reports(said, r"^FAIL: test_\d+ ")))
    for number, name in enumerate(NAMES):
        is_named(name, of_test[number])
