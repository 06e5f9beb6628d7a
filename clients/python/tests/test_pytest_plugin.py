"""The plugin for pytest, by runs of pytest on small suites; the strategies and the state machine of Hypothesis.

    python3 -m pytest -p tracehost.pytest_plugin test_pytest_plugin.py
"""

from __future__ import annotations

import json
import os
import pathlib
import re
import subprocess
import sys
from collections.abc import Callable

import pytest
from hypothesis import HealthCheck, given, settings
from hypothesis import strategies as st
from hypothesis.stateful import run_state_machine_as_test

import tracehost.stateful

from tracehost import (
    Action, Caught, Compute, Host, New, Request, Signal, StopFlag, Stopped, Waited, describe, strategies,
)  # fmt: skip
from tracehost.stateful import Debugging

run_machine: Callable[..., None] = run_state_machine_as_test  # without types
CLIENT = pathlib.Path(tracehost.__file__).resolve().parents[1]
SUITE = """
import pytest
from hypothesis import given, settings, strategies as st
from tracehost import Compute, Host, New, Raise, Request, Signal, Stopped, StopFlag, Waited
from tracehost.stateful import Debugging

def attached(host):
    user = host.user(1001)
    debugger, target = user.process(user.spawn()), user.spawn()
    debugger.ptrace(Request.PT_ATTACH, target.pid)
    return debugger

def test_passes(tracehost):
    assert attached(tracehost).wait4() == (1001, 4479)

def test_fails(tracehost):
    assert attached(tracehost).wait4() == (1001, 1407)

def test_without_a_session():
    assert Stopped(1, Signal.SIGTRAP, StopFlag.PL_FLAG_SCX) == Stopped(1, Signal.SIGTRAP, StopFlag.PL_FLAG_SCE)

@pytest.mark.tracehost(kill_on_debugger_exit=False)
def test_settings(tracehost):
    tracehost.user(1001).spawn()
    assert False

@given(count=st.integers(0, 50))
@settings(derandomize=True, database=None, deadline=None)
def test_examples(new_tracehost, count):
    with new_tracehost() as host:
        for _ in range(count):
            host.user(1001).spawn()
        assert count < 7

class Machine(Debugging):
    def debugger_runs(self):
        assert len(self.pids) < 2

TestMachine = Machine.TestCase
TestMachine.settings = settings(derandomize=True, database=None, deadline=None)
"""


def named_program() -> str:
    return os.environ["TRACEHOST"]


@pytest.fixture(scope="module")
def report(tmp_path_factory: pytest.TempPathFactory) -> tuple[str, pathlib.Path]:
    """What pytest prints for the suite, and the folder of the artifacts."""
    room = tmp_path_factory.mktemp("suite")
    (room / "test_suite.py").write_text(SUITE)
    command = [sys.executable, "-m", "pytest", "-p", "tracehost.pytest_plugin", "-p", "no:cacheprovider"]
    command += ["--tracehost-artifacts", str(room / "left"), f"--basetemp={room / 'base'}", "test_suite.py"]
    environment = {**os.environ, "PYTHONPATH": str(CLIENT), "COLUMNS": "200"}
    done = subprocess.run(command, cwd=room, env=environment, stdout=subprocess.PIPE, text=True)
    assert "5 failed, 1 passed" in done.stdout, done.stdout
    return done.stdout, room / "left"


def left(folder: pathlib.Path, test: str) -> list[str]:
    """The lines that a failed test has left; the program prints the same for its scenario, and the page has them."""
    (scenario,) = folder.glob(f"test_suite.{test}-*.json")
    lines = scenario.with_suffix(".out").read_text()
    replayed = subprocess.run([named_program(), scenario], stdout=subprocess.PIPE, text=True, check=True)
    assert replayed.stdout == lines
    assert "PT_ATTACH" in scenario.with_suffix(".html").read_text() or "spawn" in scenario.read_text()
    return lines.splitlines()


def test_a_failed_test_leaves_its_session(report: tuple[str, pathlib.Path]) -> None:
    text, folder = report
    assert left(folder, "test_fails")[-1] == "1001 4 status 1001 4479"
    (scenario,) = folder.glob("test_suite.test_fails-*.json")
    for name, kind in (("scenario", "json"), ("lines", "out"), ("page", "html")):
        assert re.search(rf"{name}: +{re.escape(str(scenario.with_suffix('')))}\.{kind}\n", text)
    assert not [*folder.glob("*test_passes*")]


def test_settings_by_a_mark(report: tuple[str, pathlib.Path]) -> None:
    scenario = json.loads(next(report[1].glob("*test_settings-*.json")).read_text())
    assert scenario["kill_on_debugger_exit"] == 0


def test_the_shortest_example_is_left(report: tuple[str, pathlib.Path]) -> None:
    assert len(left(report[1], "test_examples")) == 7
    assert left(report[1], "TestMachine.runTest") == [f"1001 {n + 1} new {1000 + n} {100000 + n}" for n in range(3)]


def test_names_in_assertions(report: tuple[str, pathlib.Path]) -> None:
    text = report[0]
    assert "1001 stopped SIGSTOP == 1001 stopped SIGTRAP" in text
    assert "status: 4479 (stopped SIGSTOP) != 1407 (stopped SIGTRAP)" in text
    assert "flags: PL_FLAG_SCX != PL_FLAG_SCE" in text


def test_a_folder_of_pytest(tmp_path: pathlib.Path) -> None:
    """Without --tracehost-artifacts the session is in pytest's own temporary folder."""
    (tmp_path / "test_one.py").write_text("def test_one(tracehost):\n    tracehost.user(1001).spawn()\n    assert 0\n")
    command = [sys.executable, "-m", "pytest", "-p", "tracehost.pytest_plugin", "-p", "no:cacheprovider"]
    environment = {**os.environ, "PYTHONPATH": str(CLIENT)}
    base = tmp_path / "base"
    subprocess.run([*command, f"--basetemp={base}", "test_one.py"], cwd=tmp_path, env=environment, check=False)
    left = [path.name for path in base.glob("tracehost/*")]
    assert sorted(re.sub(r"^test_one\.test_one-[0-9a-f]{12}\.", "", name) for name in left) == ["html", "json", "out"]


def test_descriptions() -> None:
    """Statuses of wait(2), by FreeBSD's <sys/wait.h> and <sys/signal.h>."""
    both = StopFlag.PL_FLAG_SCX | StopFlag.PL_FLAG_FORKED
    described = {
        Waited(1001, 17 * 256 + 0o177): "1001 stopped SIGSTOP",
        Waited(1001, 7 * 256): "1001 exited 7",
        Waited(1001, 9): "1001 signaled SIGKILL",
        Waited(0, 0): "nothing",
        Stopped(100001, Signal.SIGTRAP, both): "LWP 100001 stopped SIGTRAP, PL_FLAG_SCX+PL_FLAG_FORKED",
        Caught(Signal.SIGCHLD): "caught SIGCHLD",
        New(1000, 100000): "new process 1000, LWP 100000",
    }
    assert {value: describe(value) for value in described} == described


@given(scenario=strategies.scenarios(users=(1001, 1002)))
@settings(max_examples=60, derandomize=True, database=None, deadline=None, suppress_health_check=list(HealthCheck))
def test_scenarios_are_accepted(scenario: dict[str, object]) -> None:
    done = subprocess.run([named_program()], input=json.dumps(scenario), stdout=subprocess.PIPE, text=True, check=True)
    assert len(done.stdout.splitlines()) == len(scenario["steps"])  # type: ignore[arg-type]


def test_steps_bring_every_reply() -> None:
    """Sixty sessions have all kinds of replies but those that need a stop which was collected, and `caught`."""
    seen: set[str] = set()

    @given(steps=st.lists(strategies.steps(), min_size=15, max_size=40))
    @settings(max_examples=60, derandomize=True, database=None, deadline=None, suppress_health_check=list(HealthCheck))
    def collect(steps: list[dict[str, object]]) -> None:
        with Host() as host:
            for step in [{"user": 1001, "op": "spawn"}] * 3 + steps:
                answer = host.line(json.dumps(step))
                assert not answer.startswith("refused")
                seen.add(answer.split()[2])

    collect()
    assert seen >= set("ok new status nothing pids stopped ended held error".split())


class Coalescing(Debugging):
    """A debugger with a fault: it takes one status for a SIGCHLD, though two that come before its turn are one."""

    def __init__(self) -> None:
        super().__init__()
        self.debugger.sigaction(Signal.SIGCHLD, Action.CATCH)

    def process_made(self, new: New) -> None:
        self.debugger.ptrace(Request.PT_ATTACH, new.pid)

    def collect(self) -> None:
        self.debugger.wait4()

    def debugger_runs(self) -> None:
        while isinstance(self.user.turn(self.debugger_lwp, Compute()), Caught):
            self.collect()
        try:
            assert self.debugger.wait4() == Waited(0, 0)
        except ChildProcessError:
            pass


class Collecting(Coalescing):
    """The same debugger without the fault."""

    def collect(self) -> None:
        try:
            while self.debugger.wait4().pid:
                pass
        except ChildProcessError:
            pass


def test_a_planted_fault_is_found(tmp_path: pathlib.Path) -> None:
    """Within 500 examples, whatever the seed; the shortest has at most eight steps."""
    for seed in range(3):
        machine = type("Seeded", (Coalescing,), {"artifacts": tmp_path, "_hypothesis_internal_use_seed": seed})
        with pytest.raises(AssertionError):
            run_machine(machine, settings=settings(max_examples=500, database=None, deadline=None))
        steps = json.loads((tmp_path / "session.json").read_text())["steps"]
        rules = [step for step in steps if step["op"] in ("ptrace", "turn", "kill")]
        assert len(rules) <= 8, steps
        assert sum(step["op"] == "ptrace" for step in steps) == 2


def test_a_debugger_without_the_fault() -> None:
    run_machine(Collecting, settings=settings(max_examples=30, database=None, deadline=None))
