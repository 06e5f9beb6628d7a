"""The same failing test in each suite: records that the program replays with the same lines, and pages that show the same test,
step and state.
"""

from __future__ import annotations

import os
import subprocess
import sys
from pathlib import Path
from typing import Any

import pytest
from checking import TOP, needs, run
from failing_programs import IN_PYTHON, MADE, STEPS, Programs, fails, page_of
from test_viewer_state import SHOWN
from viewer_browser import Tab
from viewer_pages import browser, needs_browser, viewed

__all__ = ["viewed"]  # a fixture
pytestmark = [needs("cc"), needs("c++"), needs("cargo")]
TEST_IN_PYTHON = (
    IN_PYTHON
    + """

def test_fails(tracehost: Host) -> None:
    debug(tracehost, Signal.SIGTRAP)
"""
)


def by_pytest(room: Path, program: Path) -> Path:
    """Where the failing test in Python has left its session."""
    (room / "test_debugger.py").write_text(TEST_IN_PYTHON)
    words = ["-q", "-p", "tracehost.pytest_plugin", "-p", "no:cacheprovider", f"--basetemp={room / 'base'}"]
    environment = {
        **os.environ,
        "PYTHONPATH": str(TOP / "clients/python"),
        "TRACEHOST": str(program),
        "TRACEHOST_ARTIFACTS": str(room / "left"),
    }
    ran = subprocess.run(
        [sys.executable, "-m", "pytest", *words, "test_debugger.py"], cwd=room, env=environment, check=False, stdout=subprocess.PIPE
    )
    assert ran.returncode == 1, ran.stdout
    (scenario,) = (room / "left").glob("*.json")
    return scenario


@pytest.fixture(scope="module")
def records(library: Path, program: Path, tmp_path_factory: pytest.TempPathFactory) -> dict[str, Path]:
    """The scenario that the failing test has left, for each way to write it."""
    room = tmp_path_factory.mktemp("alike")
    (room / "python").mkdir()
    (room / "left").mkdir()
    left = {"python": by_pytest(room / "python", program)}
    programs = Programs(room, library, program, {"TRACEHOST_VIEW": str(TOP / "viewer/make")})
    for name in MADE:
        failing = programs[name]
        case = fails(failing)
        ran = failing(case, room / "left" / name)
        assert ran.status not in (0, 2), (name, ran)
        left[name] = room / "left" / name / f"{failing.stem(case)}.json"
    return left


def test_the_records_have_the_same_lines(records: dict[str, Path], program: Path) -> None:
    printed = {name: run(program, scenario) for name, scenario in records.items()}
    assert all(ran.status == 0 for ran in printed.values())
    assert len({ran.out for ran in printed.values()}) == 1
    assert len(printed["python"].out.splitlines()) == STEPS
    for scenario in records.values():
        assert scenario.with_suffix(".out").read_text() == printed["python"].out


def test_the_pages_are_of_the_same_step(records: dict[str, Path]) -> None:
    failures: dict[str, Any] = {name: page_of(scenario.with_suffix(".html"))["failure"] for name, scenario in records.items()}
    assert {failure["step"] for failure in failures.values()} == {STEPS}
    assert all("fails" in failure["test"].lower() and failure["message"] for failure in failures.values())


@needs_browser
def test_the_pages_show_the_same_state(records: dict[str, Path]) -> None:
    """They open at the step: the stopped target, its debugger, and that the last wait has reported the stop."""
    shown = {}
    for name, scenario in records.items():
        tab = Tab(browser(), scenario.with_suffix(".html"), "")
        tab.settle()
        shown[name] = tab.value(SHOWN)
        assert "fails" in tab.value("document.getElementById('failure').textContent").lower(), name
        tab.close()
    assert all(state == shown["python"] for state in shown.values()), shown
    facts = {row["name"]: row["facts"] for row in shown["python"]}
    assert facts["1001"][:3] == ["trace stop SIGSEGV of LWP 100001", "reported", "traced by 1000"]
