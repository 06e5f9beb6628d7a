"""Strategies for Hypothesis: steps and scenarios, as docs/FORMAT.md describes them.

They shrink to few steps of few users, with the first processes and LWPs.
"""

from __future__ import annotations

import functools
from collections.abc import Sequence
from typing import Any

from hypothesis import strategies as st

from .names import (
    CALLER_OPS,
    EVENTS,
    FIRST_LWP,
    FIRST_PROCESS,
    FIRST_USER,
    LWP_NUMBERS,
    OPTIONS,
    PROCESS_NUMBERS,
    STOP_FLAGS,
    Action,
    Call,
    Decision,
    Request,
    Signal,
)
from .steps import Act, Block, Compute, Enter, Leave, Raise

__all__ = ["acts", "scenarios", "signals", "steps"]

Step = dict[str, Any]
_PER_USER = 4  # processes and LWPs that steps are about


def signals() -> st.SearchStrategy[Signal]:
    """Signals. It shrinks to SIGHUP."""
    return st.sampled_from(list(Signal))


def acts(calls: Sequence[Call] = tuple(Call)) -> st.SearchStrategy[Act]:
    """Acts of an LWP, which enters these calls. It shrinks to `Compute`."""
    return _acts(tuple(calls))


@functools.lru_cache(maxsize=None)
def _acts(calls: tuple[Call, ...]) -> st.SearchStrategy[Act]:
    codes = {Call.EXIT: st.integers(0, 255), Call.OTHER: st.integers(0, 600)}
    entered = {call: st.builds(Enter, st.just(call), codes.get(call, st.none())) for call in calls}
    enter = st.sampled_from(list(calls)).flatmap(entered.__getitem__)
    blocked = st.lists(signals(), max_size=3, unique=True).map(lambda chosen: Block(tuple(chosen)))
    return st.one_of(st.just(Compute()), st.just(Leave()), enter, signals().map(Raise), blocked)


def steps(users: Sequence[int] = (1001,)) -> st.SearchStrategy[Step]:
    """Steps of these users, each one a dict for `Host.step`. All are accepted; many are answered by an errno."""
    return st.sampled_from(list(users)).flatmap(_steps_of)


def scenarios(users: Sequence[int] = (1001,), max_steps: int = 50) -> st.SearchStrategy[dict[str, Any]]:
    """Scenarios, each one a dict to write as JSON. Each begins with two processes for each of the users."""
    start = [{"user": uid, "op": "spawn"} for uid in users for _ in range(2)]
    steps_after = st.lists(steps(users), max_size=max(0, max_steps - len(start)))
    setting = st.sampled_from([{}, {"kill_on_debugger_exit": 0}])
    return st.builds(lambda some, more: {**some, "steps": start + more}, setting, steps_after)


@functools.lru_cache(maxsize=None)
def _steps_of(uid: int) -> st.SearchStrategy[Step]:
    place = uid - FIRST_USER
    first_pid, first_lwp = FIRST_PROCESS + PROCESS_NUMBERS * place, FIRST_LWP + LWP_NUMBERS * place
    pids = st.integers(first_pid, first_pid + _PER_USER - 1)
    # the first process is often a debugger, and the second its tracee, so that many steps do something
    callers = st.one_of(st.just(first_pid), pids)
    tracees = st.one_of(st.just(first_pid + 1), pids)
    lwps = st.one_of(st.just(first_lwp + 1), st.integers(first_lwp, first_lwp + _PER_USER - 1))
    which = st.one_of(tracees, st.just(-1))
    caller: dict[str, st.SearchStrategy[Any]] = {"caller": callers}
    numbers = signals().map(int)
    actions = st.sampled_from([action.value for action in Action])
    ops: dict[str, st.SearchStrategy[Step]] = {
        **{op: st.fixed_dictionaries(caller) for op in CALLER_OPS},
        "spawn": st.just({}),
        "turn": st.builds(lambda lwp, act: {"lwp": lwp, **_act(act)}, lwps, acts()),
        "wait4": st.fixed_dictionaries({**caller, "which": which}, optional={"options": _names(list(OPTIONS))}),
        "ptrace": _requests(callers, st.one_of(tracees, lwps)),
        "kill": st.fixed_dictionaries({**caller, "which": which, "signal": numbers}),
        "sigaction": st.fixed_dictionaries({**caller, "signal": numbers, "action": actions}),
        "install": st.fixed_dictionaries({**caller, "rules": st.lists(_rules(), max_size=3)}),
    }
    made = {op: st.builds(_step, st.just(uid), st.just(op), keys) for op, keys in ops.items()}
    often = ["ptrace", "wait4", "turn"]
    return st.sampled_from([*made, *often, *often]).flatmap(made.__getitem__)


def _step(uid: int, op: str, keys: Step) -> Step:
    return {"user": uid, "op": op, **keys}


def _requests(callers: st.SearchStrategy[int], targets: st.SearchStrategy[int]) -> st.SearchStrategy[Step]:
    data = st.one_of(st.just(0), st.integers(0, 31))
    masks = _names([*EVENTS, "PTRACE_SYSCALL"])

    def of_request(request: Request) -> st.SearchStrategy[Step]:
        keys: dict[str, st.SearchStrategy[Any]] = {"caller": callers, "request": st.just(request.name)}
        if request == Request.PT_SET_EVENT_MASK:
            return st.fixed_dictionaries({**keys, "target": targets, "mask": masks})
        if request == Request.PT_TRACE_ME:
            return st.fixed_dictionaries(keys)
        return st.fixed_dictionaries({**keys, "target": targets, "data": data})

    likely = [Request.PT_ATTACH, Request.PT_CONTINUE]
    made = {request: of_request(request) for request in [*likely, *Request]}
    return st.sampled_from(list(made)).flatmap(made.__getitem__)


def _rules() -> st.SearchStrategy[Step]:
    def of_decision(decision: Decision) -> st.SearchStrategy[Step]:
        keys: dict[str, st.SearchStrategy[Any]] = {"signal": signals().map(int), "flags": _names(list(STOP_FLAGS))}
        if decision in (Decision.CONTINUE, Decision.DETACH):
            keys["pass"] = st.integers(0, 31)
        return st.fixed_dictionaries({"decision": st.just(decision.value)}, optional=keys)

    made = {decision: of_decision(decision) for decision in Decision}
    return st.sampled_from(list(made)).flatmap(made.__getitem__)


def _names(names: Sequence[str]) -> st.SearchStrategy[list[str]]:
    return st.lists(st.sampled_from(list(names)), max_size=3, unique=True)


def _act(act: Act) -> Step:
    """The act as keys of a step."""
    if isinstance(act, Raise):
        return {"act": "raise", "signal": int(act.signal)}
    if isinstance(act, Block):
        return {"act": "block", "set": [int(signal) for signal in act.signals]}
    if isinstance(act, Enter):
        code = {} if act.code is None else {"code": act.code}
        return {"act": "enter", "call": act.call.value, **code}
    return {"act": "leave" if isinstance(act, Leave) else "compute"}
