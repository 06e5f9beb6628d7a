"""What kernel/sessions/unreached.tsv lists: that tables rule it out, or sessions don't ask for it, and that no step reaches it."""

from __future__ import annotations

import os
import random
from collections.abc import Iterator
from pathlib import Path

import pytest

from kernel.sessions.goals import Group, goals_of, reached, read_unreached, why_unreached
from kernel.sessions.kinds import KINDS, Kind
from kernel.sessions.model import NO_ROWS, Model, Rows, Settler, Unsettled, step_in
from kernel.sessions.starts import FILE, Start, read_starts
from tracehost.conditions import CALLS, CONDITIONS
from tracehost.goals import refusals_of
from tracehost.library import MOST_PROCESSES
from tracehost.names import Request
from tracehost.refusals import asked_by

SCALE = int(os.environ.get("TRACEHOST_TEST_SCALE", "1"))
SIGNALS = (5, 9, 15, 17, 19, 20)
ACTS = ("compute", "raise 0", "raise 15", "block", "block 15", "enter fork", "enter exit 1", "leave")
PASSES = ("PT_CONTINUE", "PT_STEP", "PT_TO_SCE", "PT_TO_SCX", "PT_SYSCALL", "PT_DETACH")
# what no step of a session is: those acts LWPs make by themselves, and the two ops no kernel has
NO_STEPS = ("compute", "leave", "install", "handle")
# a state in which steps are refused, and what leads to it
LEADS_TO = {"suspended": "PT_SUSPEND", "in_trace_stop": "PT_ATTACH", "waits": "vfork"}
# reasons that a kind has none of some steps, and these
ABSENT = {
    "nobody is suspended by both systems' requests": "PT_SUSPEND PT_RESUME",
    "both systems' requests show no stops at system calls": "PT_STEP PT_TO_SCE PT_TO_SCX PT_SYSCALL PT_SET_EVENT_MASK",
    "events other than an exec are FreeBSD's": "PT_SET_EVENT_MASK PT_FOLLOW_FORK PT_LWP_EVENTS",
    "no session of this kind has requests of ptrace(2)": "PT_TRACE_ME PT_ATTACH",
    "no session of this kind has vforks and threads": "vfork thr_new",
    "no call is left in a stop, and none that leaves without an end or a new process": "PT_ATTACH exec other thr_new thr_exit",
}


@pytest.fixture(scope="module", autouse=True)
def of_the_tested_library(library: Path) -> Iterator[None]:
    with pytest.MonkeyPatch.context() as patch:
        patch.setenv("TRACEHOST_LIBRARY", str(library / "libtracehost.so"))
        yield


def listed(kind: str) -> set[str]:
    unreached = read_unreached()
    return {goal for goal in goals_of(KINDS[kind]) if why_unreached(kind, goal, unreached)}


# ---- refusals, by the table of conditions


def steps_of(name: str) -> Iterator[str]:
    """Steps of this name, with arguments of each sort."""
    if name == "PT_TRACE_ME":
        yield f"ptrace 1000 {name}"
    elif name.startswith("PT_"):
        data = ("", "PTRACE_EXEC") if name == "PT_SET_EVENT_MASK" else ("", "0", "1", "31", "32", "77")
        targets = ("0", "1001", "100001")
        yield from (f"ptrace 1000 {name} {target} {word}" for target in targets for word in data)
    elif name in ("spawn", "list", "wait4", "kill", "sigaction"):
        yield from ("spawn", "list 1000", *(f"wait4 1000 {which}" for which in (-1, 0, -3, 1001)))
        yield from (f"kill 1000 {which} {signal}" for which in (-1, 0, -3, 1001) for signal in (0, 15, 32))
        yield from (f"sigaction 1000 {signal} {action}" for signal in (0, 9, 15, 32) for action in ("default", "ignore", "catch"))
    else:
        yield from (f"turn {lwp} {act}" for lwp in (99_999, 100_000) for act in ACTS if act.split()[0] == name)


def is_possible(name: str, condition: str) -> bool:
    """Whether arguments leave it open that the condition holds."""
    steps = [step_in(words) for words in steps_of(name)]
    called = [step for step in steps if name in (step.get("request"), step.get("act"), step["op"])]
    assert called, name
    (row,) = [row for row in CONDITIONS if row.name == condition]
    return not row.never and any(row.possible(asked_by(step)) for step in called)


def is_asked(kind: Kind, name: str, condition: str) -> bool:
    """Whether sessions of the kind ask for steps that the condition may refuse."""
    if name in NO_STEPS or condition in ("most_processes", "most_lwps", "in_a_call"):
        return False
    if condition == "no_other_process":
        rows = Rows({1000: {"pid": 1000, "parent": 1, "state": "runs"}}, {100_000: {"lwp": 100_000, "pid": 1000, "mode": "runs"}})
        return kind.allows(rows, step_in("kill 1000 -1 15"))
    return all(step in kind.weights for state, step in LEADS_TO.items() if condition.endswith(state))


@pytest.mark.parametrize("kind", KINDS)
def test_refusals_that_are_listed(kind: str) -> None:
    refusals = [goal.split()[1:] for goal in listed(kind) if goal.startswith("refusal")]
    assert len(refusals) > 25
    wrong = [
        (name, condition)
        for name, condition in refusals
        if name not in NO_STEPS and is_possible(name, condition) and is_asked(KINDS[kind], name, condition)
    ]
    assert wrong == []


def test_refusals_that_no_arguments_leave_open_are_no_goals() -> None:
    """Those of install and handle, whose steps are none here, have conditions that no argument decides."""
    goals, left_out = set(refusals_of()), 0
    for call in CALLS:
        requests = (
            [call.request] if call.request >= 0 else [r for r in Request if r not in (Request.PT_TRACE_ME, Request.PT_ATTACH)]
        )
        names = (
            [Request(r).name for r in requests]
            if call.op == "ptrace"
            else [a.split()[0] for a in ACTS]
            if call.op == "turn"
            else [call.op]
        )
        for name in names if call.op not in ("install", "handle") else ():
            for condition in call.order:
                assert (f"refusal {name} {condition}" in goals) == is_possible(name, condition), (name, condition)
                left_out += not is_possible(name, condition)
    assert left_out > 40


def test_kinds_have_none_of_the_steps_that_reasons_say() -> None:
    named = set()
    for unreached in read_unreached():
        for kind in unreached.kinds if unreached.why in ABSENT else ():
            named.add(unreached.why)
            assert not set(ABSENT[unreached.why].split()) & set(KINDS[kind].weights), unreached
    assert named == set(ABSENT)


# ---- all goals, by steps from many states


def every_step(kind: Kind, rows: Rows) -> Iterator[str]:
    """Each step with each caller, target and LWP, and with arguments of each sort."""
    yield "spawn"
    for caller in rows.processes:
        yield from (f"sigaction {caller} {signal} {action}" for signal in SIGNALS for action in ("default", "ignore", "catch"))
        for which in (-1, *rows.processes):
            yield from (f"wait4 {caller} {which}{options}" for options in ("", " WUNTRACED WCONTINUED"))
            yield from (f"kill {caller} {which} {signal}" for signal in SIGNALS)
        yield from (f"ptrace {caller} {words}".rstrip() for name in kind.weights for words in _requests(name, rows))
    for lwp in rows.lwps:
        yield from (f"turn {lwp} raise {signal}" for signal in SIGNALS)
        yield from (f"turn {lwp} block {signals}".rstrip() for signals in ("", "5 15 17 19 20"))
        calls = {"exit": "exit 1", "other": "other 20"}
        yield from (
            f"turn {lwp} enter {calls.get(c, c)}" for c in ("exit", "fork", "vfork", "exec", "thr_new", "thr_exit", "other")
        )


def _requests(name: str, rows: Rows) -> Iterator[str]:
    if name == "PT_TRACE_ME":
        yield name
    elif name.startswith("PT_"):
        data = ("", "15", "17") if name in PASSES else ("", "1")
        if name == "PT_SET_EVENT_MASK":
            data = ("", "PTRACE_EXEC PTRACE_FORK PTRACE_LWP PTRACE_VFORK PTRACE_SYSCALL")
        yield from (f"{name} {target} {word}" for target in (*rows.processes, *rows.lwps) for word in data)


class Walk:
    """Steps of a session, with what each reaches."""

    def __init__(self, kind: str) -> None:
        self._kind, self._spare = KINDS[kind], Model()
        self._settler = Settler(random.Random(1), self._kind.unordered)

    def goals(self, model: Model, words: str) -> set[str]:
        """What the step reaches, which the model makes; nothing if an order of turns decides."""
        before = model.rows(1001)
        try:
            group = Group(1001, before, NO_ROWS, self._settler.group(model, words))
        except Unsettled:
            return set()
        group = group._replace(after=model.rows(1001))
        return reached(group, model)

    def tried(self, model: Model) -> Iterator[tuple[str, set[str]]]:
        """Each step that a kernel can be asked for, and what it reaches."""
        rows = model.rows(1001)
        for words in every_step(self._kind, rows):
            if self._kind.allows(rows, step_in(words)):
                self._spare.become(model)
                yield words, self.goals(self._spare, words)


def passed(kind: str, walk: Walk) -> Iterator[tuple[Start, Model]]:
    """Models in all states that the starts of a kind pass through."""
    known = set()
    for start in read_starts(FILE.read_text(encoding="utf-8")):
        model = Model(start.kills is not False)
        for words in start.steps if kind in start.kinds else ():
            walk.goals(model, words)
            state = (start.kills is not False, model.session.state(1001))
            if state not in known:
                known.add(state)
                yield start, model


@pytest.mark.parametrize("kind", ["shared", "all"])
def test_no_step_reaches_what_is_listed(kind: str) -> None:
    never, walk, tried = listed(kind), Walk(kind), 0
    for start, model in passed(kind, walk):
        for words, goals in walk.tried(model):
            assert not goals & never, (start.name, words)
            tried += 1
    assert tried > 5000
