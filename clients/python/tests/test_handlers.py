"""`Process.handle_with`: a function decides what becomes of a stop."""

from __future__ import annotations

import pathlib
import sys
import threading
from collections.abc import Iterator
from typing import Any

import pytest

sys.path.insert(0, str(pathlib.Path(__file__).resolve().parents[1]))
from tracehost import (
    Act, Call, Compute, Decision, Enter, Handled, Held, Host, Leave, Process, Raise, Request, Rule, Signal, Waited,
)  # fmt: skip

READ, EXECVE = 3, 59


class World:
    def __init__(self, host: Host) -> None:
        self.host, self.user = host, host.user(1001)
        self.debugger: Process = self.user.process(self.user.spawn())
        self.lwp = self.user.spawn().tid
        self.debugger.ptrace(Request.PT_ATTACH, 1001)
        self.debugger.wait4()

    def signal(self, signal: Signal) -> None:
        self.user.turn(self.lwp, Raise(signal))
        self.user.turn(self.lwp, Compute())


@pytest.fixture
def world() -> Iterator[World]:
    with Host() as host:
        yield World(host)


def test_by_system_call(world: World) -> None:
    """A sandbox: reads go on, an exec ends the process."""
    seen: list[int] = []

    def decide(stop: Handled) -> Decision:
        seen.append(stop.code)
        return Decision.KILL if stop.code == EXECVE else Decision.CONTINUE

    world.debugger.ptrace(Request.PT_SYSCALL, 1001)
    assert world.debugger.handle_with(decide) is None
    acts: list[Act] = [Enter(Call.OTHER, READ), Leave()]
    for act in acts:
        world.user.turn(world.lwp, act)
        handled = world.debugger.handle_with(decide)
        assert isinstance(handled, Handled)
        assert (handled.code, handled.decision, handled.handler, handled.pass_signal) == (READ, Decision.CONTINUE, None, 0)
    world.user.turn(world.lwp, Enter(Call.EXEC))
    killed = world.debugger.handle_with(decide)
    assert isinstance(killed, Handled) and (killed.decision, killed.pass_signal) == (Decision.KILL, None)
    assert world.debugger.handle_with(decide) == Waited(1001, 9)
    assert seen == [READ, READ, EXECVE]


def test_a_signal_that_is_passed_on(world: World) -> None:
    world.debugger.ptrace(Request.PT_CONTINUE, 1001)
    world.signal(Signal.SIGTERM)
    handled = world.debugger.handle_with(lambda stop: (Decision.DETACH, stop.signal))
    assert isinstance(handled, Handled) and (handled.decision, handled.pass_signal) == (Decision.DETACH, 15)
    assert world.debugger.list() == (1000, 1001)
    assert world.debugger.handle() == Waited(1001, 15)


def test_rules_come_first_and_a_stop_that_is_left_remains(world: World) -> None:
    asked: list[Signal] = []

    def leave(stop: Handled) -> Decision:
        asked.append(stop.signal)
        return Decision.LEAVE

    world.debugger.install([Rule(Decision.CONTINUE, Signal.SIGUSR1), Rule(Decision.LEAVE, Signal.SIGINT)])
    world.debugger.ptrace(Request.PT_CONTINUE, 1001)
    world.signal(Signal.SIGUSR1)
    by_rule = world.debugger.handle_with(leave)
    assert isinstance(by_rule, Handled) and by_rule.handler == 0 and asked == []
    for signal in (Signal.SIGUSR2, Signal.SIGINT):
        world.signal(signal)
        assert world.debugger.handle_with(leave) is not None
        with pytest.raises(Held):
            world.user.turn(world.lwp, Compute())
        world.debugger.ptrace(Request.PT_CONTINUE, 1001)
    assert asked == [Signal.SIGUSR2, Signal.SIGINT]


def test_a_function_that_makes_calls_raises_or_answers_wrongly(world: World) -> None:
    world.debugger.ptrace(Request.PT_CONTINUE, 1001)

    def look(stop: Handled) -> Decision:
        info = world.debugger.ptrace(Request.PT_LWPINFO, stop.pid)
        assert info.pl_lwpid == stop.tid
        return Decision.CONTINUE

    world.signal(Signal.SIGUSR1)
    assert world.debugger.handle_with(look) is not None
    decisions: list[tuple[Any, type[Exception], str]] = [
        ("continue", TypeError, "^decision: expected Decision, got 'continue'; write Decision.CONTINUE$"),
        (None, TypeError, "^decision: expected Decision, got None; Decision has DECLINE, LEAVE, CONTINUE, DETACH, KILL$"),
        ((Decision.KILL, 9), ValueError, "^decision: KILL passes on no signal$"),
    ]
    for decision, error, text in decisions:
        world.signal(Signal.SIGUSR1)
        with pytest.raises(error, match=text):
            world.debugger.handle_with(lambda stop: decision)  # type: ignore[no-any-return]
        with pytest.raises(Held):
            world.user.turn(world.lwp, Compute())
        world.debugger.ptrace(Request.PT_CONTINUE, 1001)

    def kill_first(stop: Handled) -> Decision:
        world.debugger.kill(stop.pid, Signal.SIGKILL)
        return Decision.CONTINUE

    world.signal(Signal.SIGUSR1)
    with pytest.raises(ProcessLookupError, match="1001 has ended"):
        world.debugger.handle_with(kill_first)


def test_it_sleeps_until_there_is_a_stop(world: World) -> None:
    world.debugger.ptrace(Request.PT_CONTINUE, 1001)
    got: list[object] = []
    sandbox = threading.Thread(target=lambda: got.append(world.debugger.handle_with(lambda stop: Decision.KILL, block=True)))
    sandbox.start()
    world.signal(Signal.SIGUSR1)
    sandbox.join(10)
    assert isinstance(got[0], Handled) and got[0].decision is Decision.KILL
    with pytest.raises(TimeoutError):
        World(Host()).debugger.handle_with(lambda stop: Decision.KILL, block=True, timeout=0.05)
