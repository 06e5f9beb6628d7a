"""What to look at (format/notices.toml): sixteen faults of debuggers are named in the story's first lines, and nothing is said to
be wrong in sessions of debuggers that make no mistake, wherever they are cut. The viewer says the same.
"""

from __future__ import annotations

import json
import re
import shutil
import sys
from collections.abc import Mapping, Sequence
from functools import lru_cache
from pathlib import Path
from typing import Any

import pytest
from checking import TOP, run
from correct_sessions import correct_session
from viewer_runs import random_scenario

sys.path.insert(0, str(TOP / "clients/python"))
from tracehost import Held, Host
from tracehost.notice_rules import RULES
from tracehost.notices import Notice, _User, nearest_first, notices_of
from tracehost.program import default as program
from tracehost.saving import Session, read_session
from tracehost.story import story
from tracehost.timeline import Timeline

Step = dict[str, Any]
USR1, TERM, STOP, TRAP, INT, KILL = 30, 15, 17, 5, 2, 9
SPAWN: Step = {"op": "spawn"}


@pytest.fixture(autouse=True)
def over_the_library(library: Path, monkeypatch: pytest.MonkeyPatch) -> None:
    monkeypatch.setenv("TRACEHOST_LIBRARY", str(library / "libtracehost.so"))
    monkeypatch.setenv("TRACEHOST", program())


def wait(which: int = -1) -> Step:
    return {"op": "wait4", "caller": 1000, "which": which}


def ptrace(request: str, target: int, **more: Any) -> Step:
    return {"op": "ptrace", "caller": 1000, "request": request, "target": target, **more}


def go_on(target: int, **more: Any) -> Step:
    return ptrace("PT_CONTINUE", target, **more)


def turn(lwp: int, act: str = "compute", **more: Any) -> Step:
    return {"op": "turn", "lwp": lwp, "act": act, **more}


def call(lwp: int, name: str, **more: Any) -> list[Step]:
    return [turn(lwp, "enter", call=name, **more), turn(lwp, "leave")]


def kill(pid: int, signal: int) -> Step:
    return {"op": "kill", "caller": 1000, "which": pid, "signal": signal}


def attached(pid: int) -> list[Step]:
    return [SPAWN, ptrace("PT_ATTACH", pid), wait()]


def stopped(lwp: int, signal: int) -> list[Step]:
    return [turn(lwp, "raise", signal=signal), turn(lwp)]


ONE = [SPAWN, *attached(1001)]
RUNS = [*ONE, go_on(1001)]
TWO_RUN = [*ONE, *attached(1002), go_on(1001), go_on(1002)]
TWO_STOP = [*TWO_RUN, *stopped(100001, USR1), *stopped(100002, USR1), wait(), wait(), go_on(1001, data=USR1)]
THREADS = [*RUNS, *call(100001, "thr_new"), kill(1001, STOP), turn(100001), wait()]
VFORK = [
    *ONE,
    ptrace("PT_SET_EVENT_MASK", 1001, mask=["PTRACE_FORK", "PTRACE_VFORK"]),
    *[go_on(1001), *call(100001, "vfork"), wait(1001), go_on(1001), wait(1001)],
]
ENDED = [*RUNS, *call(100001, "exit", code=3), wait()]
# a debugger's steps, and what is said of them: those that may be wrong, and those that are still open
FAULTS: dict[str, tuple[list[Step], list[str], list[str]]] = {
    "a signal is dropped": (
        [*RUNS, kill(1001, TERM), turn(100001), wait(), go_on(1001), turn(100001)],
        ["9: PT_CONTINUE of 1001 drops its SIGTERM"],
        [],
    ),
    "a detach with a pending trap": (
        [*RUNS, kill(1001, TRAP), kill(1001, INT), turn(100001), wait(), ptrace("PT_DETACH", 1001), turn(100001)],
        ["10: 1001 is detached with a pending SIGTRAP", "10: PT_DETACH of 1001 drops its SIGINT"],
        [],
    ),
    "a vfork's child isn't waited for": (
        [*VFORK, turn(100001)],
        [],
        [
            "8: LWP 100001 waits for its vfork's child 1002, which is in a stop: 1000 has to let it go on",
            "8: no wait of 1000 reports this SIGSTOP of 1002",
        ],
    ),
    "a deadlock after vfork": (
        [*VFORK, wait(1001)],
        ["12: 1000 waits only for 1001, which waits for its vfork's child 1002, and no wait reports the SIGSTOP of 1002"],
        ["8: LWP 100001 waits for its vfork's child 1002, which is in a stop: 1000 has to let it go on"],
    ),
    "a stop is forgotten": ([*TWO_STOP, wait(), turn(100002)], [], ["15: 1000 hasn't let 1002 go on from this SIGUSR1"]),
    "a stop is lost, and waited for": (
        [*TWO_STOP, wait(), wait()],
        [],
        ["18: 1000 waits, but 1002 is still in the stop that it reported"],
    ),
    "a zombie stays": (
        [*RUNS, *call(100001, "exit", code=3), {"op": "list", "caller": 1000}],
        [],
        ["7: no wait of 1000 reports the end of 1001"],
    ),
    "an end is read as a stop": ([*ENDED, go_on(1001)], ["9: PT_CONTINUE of 1001, whose end step 8 has reported"], []),
    "another user's process": (
        [SPAWN, {"user": 1002, "op": "spawn"}, ptrace("PT_ATTACH", 2000)],
        ["3: PT_ATTACH of 2000, which is a number of user 1002"],
        [],
    ),
    "a failed attach is ignored": (
        [SPAWN, SPAWN, ptrace("PT_ATTACH", 1009), wait(1009)],
        ["4: wait4 of 1009, to which 1000 hasn't attached: step 3 failed"],
        [],
    ),
    "another LWP steps": (
        [*THREADS, ptrace("PT_STEP", 1001), turn(100002), turn(100001), wait()],
        [],
        ["11: PT_STEP of 1001 steps LWP 100001, which had reported the stop; its other LWPs run freely"],
    ),
    "another signal is passed": (
        [*RUNS, kill(1001, TERM), turn(100001), wait(), go_on(1001, data=16)],
        ["9: PT_CONTINUE of 1001 passes SIGURG for its SIGTERM"],
        [],
    ),
    "a request comes before the wait": (
        [SPAWN, SPAWN, ptrace("PT_ATTACH", 1001), go_on(1001)],
        ["4: PT_CONTINUE of 1001 comes before the wait that reports its SIGSTOP"],
        ["3: no wait of 1000 reports this SIGSTOP of 1001"],
    ),
    "a process goes on twice": ([*RUNS, go_on(1001)], ["6: PT_CONTINUE of 1001, which runs since step 5"], []),
    "all LWPs stay suspended": (
        [*ONE, ptrace("PT_SUSPEND", 100001), go_on(1001), turn(100001)],
        ["6: PT_CONTINUE of 1001 lets nothing run: all its LWPs are suspended"],
        [],
    ),
    "an LWP stays suspended": (
        [*THREADS, ptrace("PT_SUSPEND", 100002), go_on(1001), turn(100002)],
        [],
        ["11: LWP 100002 is still suspended while others of 1001 run"],
    ),
    "the debugger ends": ([*RUNS, *call(100000, "exit", code=0)], ["7: 1000 ends while it traces 1001"], []),
    "a kill of what is gone": ([*ENDED, kill(1001, KILL)], ["9: kill of 1001, whose end step 8 has reported"], []),
    "no mistake": (
        [*RUNS, kill(1001, TERM), turn(100001), wait(), go_on(1001, data=TERM), turn(100001), wait()],
        [],
        [],
    ),
}


def session_of(steps: Sequence[Step]) -> Session:
    return Session("session", [{"user": 1001, **step} for step in steps], None)


def told(notices: Sequence[Notice], kind: str) -> list[str]:
    return sorted(f"{one.at}: {one.text}" for one in notices if one.kind == kind)


@pytest.mark.parametrize("name", FAULTS)
def test_faults_are_named(name: str) -> None:
    """All that is said of the session is in its story, of at most twenty lines."""
    steps, wrong, still_open = FAULTS[name]
    session = session_of(steps)
    found = notices_of(Timeline(session.steps).steps)
    assert (told(found, "wrong"), told(found, "open")) == (wrong, sorted(still_open))
    lines = story(session, "FILE")
    assert len(lines) <= 20
    for head, texts in (("look at", wrong), ("still open", still_open)):
        for text in texts:
            at, _, words = text.partition(": ")
            assert f"{head}: step {at}, {words}" in lines


def test_each_rule_is_met() -> None:
    texts = [text.partition(": ")[2] for _, wrong, still_open in FAULTS.values() for text in (*wrong, *still_open)]
    for rule in RULES:
        pattern = re.sub(r"\\{\w+\\}", r"\\w+", re.escape(rule.words))
        assert any(re.fullmatch(pattern, text) for text in texts), rule.name


@lru_cache(maxsize=None)
def correct(folder: Path, count: int) -> list[Path]:
    files = [folder / f"{seed}.json" for seed in range(count)]
    for seed, file in enumerate(files):
        correct_session(seed, 90, file)
    return files


@pytest.fixture(scope="module")
def folder(tmp_path_factory: pytest.TempPathFactory) -> Path:
    return tmp_path_factory.mktemp("correct")


def test_no_mistake_is_seen_where_there_is_none(folder: Path) -> None:
    """In 200 sessions, each cut after each of its steps; and nothing is open at the end of a whole one."""
    cuts = 0
    for file in correct(folder, 200):
        timeline = Timeline(read_session(str(file)).steps)
        users = {uid: _User(uid, {*timeline.users()}) for uid in timeline.users()}
        for step in timeline.steps:
            found = [*users[step.user].read(step), *(one for user in users.values() for one in user.end())]
            assert not told(found, "wrong"), file
            cuts += 1
        assert not notices_of(timeline.steps), file
    assert cuts > 15_000


def test_equal_ones_come_once() -> None:
    """The user's first, then what may be wrong, then what is nearest before the step."""
    first, second, third = (Notice(at, 1001, "wrong", "a") for at in (3, 9, 12))
    other, after, still_open = Notice(9, 1002, "wrong", "a"), Notice(11, 1001, "wrong", "b"), Notice(10, 1001, "open", "c")
    found = nearest_first([first, second, other, still_open, after, third], 10, 1001)
    assert found == [(second, 3), (after, 1), (still_open, 1), (other, 1)]


def reasons_of(steps: Sequence[Mapping[str, Any]], setting: bool) -> list[list[Any]]:
    """Each step that is refused or held, and why."""
    whys: list[list[Any]] = []
    with Host(kill_on_debugger_exit=setting) as host:
        for number, step in enumerate(steps, 1):
            try:
                host.step(step)
            except (OSError, Held) as error:
                said = error.strerror if isinstance(error, OSError) else str(error)
                whys.append([number, re.split(r": (?:E[A-Z]+|held), ", str(said), maxsplit=1)[1]])
    return whys


@pytest.mark.skipif(shutil.which("node") is None, reason="not installed: node")
def test_the_viewer_says_the_same(folder: Path, tmp_path: Path) -> None:
    """Of the faults, of correct sessions that are cut, of random ones and of the examples; and why steps are refused."""
    texts = [session_of(steps).text() for steps, _, _ in FAULTS.values()]
    for seed, file in enumerate(correct(folder, 200)[:40]):
        session = read_session(str(file))
        texts.append(session._replace(steps=session.steps[: 20 + 2 * seed]).text())
    texts += [json.dumps(random_scenario(seed, 300)) for seed in range(8)]
    texts += [file.read_text() for file in sorted((TOP / "examples").glob("*.json")) if file.stem != "broken"]
    traces: list[Path] = []
    expected: list[tuple[list[list[Any]], list[list[Any]], list[list[Any]]]] = []
    for number, text in enumerate(texts):
        scenario, trace = tmp_path / f"{number}.json", tmp_path / f"{number}.trace"
        scenario.write_text(text)
        trace.write_text(run(program(), "--json=trace+rows", scenario).out)
        steps = Timeline(json.loads(text)["steps"], json.loads(text).get("kill_on_debugger_exit") != 0).steps
        notices = notices_of(steps)
        ordered = [[list(one), count] for one, count in nearest_first(notices, len(steps), steps[-1].user)]
        traces.append(trace)
        whys = reasons_of(json.loads(text)["steps"], json.loads(text).get("kill_on_debugger_exit") != 0)
        expected.append(([list(one) for one in sorted(notices)], ordered, whys))
    printed = run("node", TOP / "tests/node/print_notices.mjs", *traces)
    assert (printed.status, printed.err) == (0, "")
    for text, line, wanted in zip(texts, printed.out.splitlines(), expected):
        found, ordered, whys = json.loads(line)
        assert (sorted(found), ordered, whys) == wanted, text
    assert sum(len(found) for found, _, _ in expected) > 100 and sum(len(whys) for _, _, whys in expected) > 1000
