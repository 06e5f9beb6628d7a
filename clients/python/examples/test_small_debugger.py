"""A suite for small_debugger.py. Each test has what the target does, and what the debugger has to report.

TRACEHOST=/path/to/tracehost PYTHONPATH=.. pytest -p tracehost.pytest_plugin
"""

from __future__ import annotations

import contextlib

from small_debugger import SmallDebugger
from tracehost import Act, Action, Call, Compute, Enter, Host, Leave, New, Raise, Signal, User

EXIT: list[Act] = [Enter(Call.EXIT, 0), Leave()]
FORK: list[Act] = [Enter(Call.FORK), Leave()]


class World:
    """A debugger and its target, user 1001's processes 1000 and 1001."""

    def __init__(self, host: Host) -> None:
        self.host = host
        self.user: User = host.user(1001)
        self.debugger = SmallDebugger(self.user.process(self.user.spawn()))
        self.target: New = self.user.spawn()
        self.debugger.attach(self.target.pid)

    def acts(self, lwp: int, acts: list[Act]) -> None:
        """The LWP does these acts, as long as its process lives."""
        with contextlib.suppress(ProcessLookupError):
            for act in acts:
                self.user.turn(lwp, act, block=True)

    def log(self, *acts: Act) -> list[str]:
        """The debugger's log of a target that does these acts."""
        log: list[str] = self.host.run(self.debugger.run, lambda: self.acts(self.target.lwp, list(acts)))[0]
        return log


def test_an_exit(tracehost: Host) -> None:
    assert World(tracehost).log(Enter(Call.EXIT, 3), Leave()) == ["1001 exit 3"]


def test_a_signal_that_ends_the_target(tracehost: Host) -> None:
    log = World(tracehost).log(Raise(Signal.SIGTERM), Compute(), *EXIT)
    assert log == ["1001 SIGTERM", "1001 killed by SIGTERM"]


def test_a_signal_that_is_discarded(tracehost: Host) -> None:
    log = World(tracehost).log(Raise(Signal.SIGWINCH), Compute(), *EXIT)
    assert log == ["1001 SIGWINCH", "1001 exit 0"]


def test_a_signal_that_is_ignored_stops_a_tracee(tracehost: Host) -> None:
    world = World(tracehost)
    world.debugger.process.wait4()
    world.debugger._stopped(world.target.pid, Signal.SIGSTOP)
    world.user.process(world.target).sigaction(Signal.SIGTERM, Action.SIG_IGN)
    log = world.log(Raise(Signal.SIGTERM), Compute(), *EXIT)
    assert log == ["1001 SIGTERM", "1001 exit 0"]


def test_sigkill_has_no_stop(tracehost: Host) -> None:
    assert World(tracehost).log(Raise(Signal.SIGKILL)) == ["1001 killed by SIGKILL"]


def test_an_exec(tracehost: Host) -> None:
    assert World(tracehost).log(Enter(Call.EXEC), Leave(), *EXIT) == ["1001 exec", "1001 exit 0"]


def test_a_child_is_followed(tracehost: Host) -> None:
    world = World(tracehost)

    def family() -> None:
        world.acts(world.target.lwp, FORK)
        world.acts(world.target.lwp + 1, EXIT)
        world.acts(world.target.lwp, EXIT)

    log = tracehost.run(world.debugger.run, family)[0]
    assert sorted(log) == ["1001 exit 0", "1001 fork 1002", "1002 child", "1002 exit 0"]


def test_two_targets(tracehost: Host) -> None:
    world = World(tracehost)
    other = world.user.spawn()
    world.debugger.attach(other.pid)
    one, two = (lambda: world.acts(world.target.lwp, EXIT)), (lambda: world.acts(other.lwp, [Raise(Signal.SIGKILL)]))
    log = tracehost.run(world.debugger.run, one, two)[0]
    assert sorted(log) == ["1001 exit 0", "1002 killed by SIGKILL"]


def test_a_detached_target_lives(tracehost: Host) -> None:
    world = World(tracehost)
    world.debugger.process.wait4()
    world.debugger.detach(world.target.pid)
    assert world.debugger.run() == []
    assert world.user.turn(world.target.lwp, Compute()) is None


def test_another_user_sees_nothing(tracehost: Host) -> None:
    world = World(tracehost)
    stranger = tracehost.user(1002).process(tracehost.user(1002).spawn())
    assert world.log(*EXIT) == ["1001 exit 0"]
    assert stranger.list() == (2000,)
