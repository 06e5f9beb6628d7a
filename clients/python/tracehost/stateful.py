"""A state machine for Hypothesis: a world of processes, for a debugger under test.

    class Forwarding(Debugging):
        def process_made(self, new):            # the debugger attaches to each process
            self.debugger.ptrace(Request.PT_ATTACH, new.pid)

        def debugger_runs(self):                # Hypothesis chooses when
            my_debugger.collect(self.debugger)
            assert self.debugger.wait4() == Waited(0, 0)

    TestForwarding = Forwarding.TestCase
"""

from __future__ import annotations

from collections.abc import Callable, Sequence
from pathlib import Path
from typing import Any, ClassVar, Optional

from hypothesis import strategies as st
from hypothesis.stateful import RuleBasedStateMachine, precondition, rule

from .errors import Held
from .host import Host
from .names import FIRST_LWP, Call, Signal, StopFlag
from .replies import New, Stopped, Turned
from .steps import Act, Enter, Leave
from .strategies import acts, signals

__all__ = ["Debugging"]

_UID = 1001


def _unrecorded(settings: dict[str, Any]) -> Host:
    return Host(**settings)


start: Callable[[dict[str, Any]], Host] = _unrecorded
"""What starts the host of a machine that names no folder. pytest's plugin replaces it during a test."""


def _of_machine(name: str) -> st.SearchStrategy[int]:
    """An item of this list of the machine."""
    return st.runner().flatmap(lambda machine: st.sampled_from(getattr(machine, name)))


def _acts_of_machine() -> st.SearchStrategy[Act]:
    return st.runner().flatmap(lambda machine: acts(machine.calls))


class Debugging(RuleBasedStateMachine):
    """A session of one user. Its rules make processes, give LWPs their turns, post signals, and let the debugger run.

    A subclass overrides `process_made` and `debugger_runs`, and asserts there or in invariants what has to hold. The
    world knows nothing of the debugger. Under pytest, a machine that fails leaves the session of its shortest example.
    """

    settings_of_host: ClassVar[dict[str, Any]] = {}
    """The settings of the `Host`."""
    calls: ClassVar[Sequence[Call]] = tuple(reversed(Call))
    """The system calls that LWPs enter."""
    most_processes: ClassVar[int] = 4
    """How many processes the rule `new_process` makes at most."""
    artifacts: ClassVar[Optional[Path]] = None
    """The folder of the recording, session.json and session.out. Under pytest it is the test's if none is named here."""

    def __init__(self) -> None:
        super().__init__()
        self.host = self._new_host()
        self.user = self.host.user(_UID)
        made = self.user.spawn()
        self.debugger = self.user.process(made)
        """The process of the debugger."""
        self.debugger_lwp = made.lwp
        self.pids: list[int] = []
        """The processes that `new_process` has made."""
        self.lwps: list[int] = []
        """The LWPs of the world, ended ones too."""
        self._in_call: dict[int, Call] = {}

    def _new_host(self) -> Host:
        folder, settings = self.artifacts, self.settings_of_host
        if folder is not None:
            return Host(record=folder / "session.json", record_lines=folder / "session.out", **settings)
        return start(settings)

    def process_made(self, new: New) -> None:
        """Called for each process that the rule `new_process` makes."""

    def debugger_runs(self) -> None:
        """The debugger under test does what it has to do."""

    def teardown(self) -> None:
        self.host.close()

    @precondition(lambda self: bool(len(self.pids) < self.most_processes))
    @rule()
    def new_process(self) -> None:
        new = self.user.spawn()
        self.pids.append(new.pid)
        self.lwps.append(new.lwp)
        self.process_made(new)

    @rule()
    def run_debugger(self) -> None:
        self.debugger_runs()

    @precondition(lambda self: bool(self.lwps))
    @rule(lwp=_of_machine("lwps"), act=_acts_of_machine())
    def turn(self, lwp: int, act: Act) -> None:
        try:
            turned = self.user.turn(lwp, act)
        except (Held, OSError):
            return
        self._learn(lwp, act, turned)

    @precondition(lambda self: bool(self.pids))
    @rule(pid=_of_machine("pids"), signal=signals())
    def post(self, pid: int, signal: Signal) -> None:
        try:
            self.user.process(1000).kill(pid, signal)
        except (Held, OSError):
            return

    def _learn(self, lwp: int, act: Act, turned: Turned) -> None:
        """Notes the LWPs that a turn has made: their numbers count up, also if the turn's answer is a stop."""
        if isinstance(act, Enter):
            self._in_call[lwp] = act.call
        made = isinstance(turned, New)
        if isinstance(act, Leave) and isinstance(turned, Stopped):
            left = bool(turned.flags & StopFlag.PL_FLAG_SCX)
            made = left and self._in_call.get(lwp) in (Call.FORK, Call.VFORK, Call.THR_NEW)
        if made:
            self.lwps.append(FIRST_LWP + 1 + len(self.lwps))
