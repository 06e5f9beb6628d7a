"""Sessions of debuggers that make no mistake: each collects every stop and end, and lets its processes go on as they would
without it. Who acts next, and what the processes do, is chance.
"""

from __future__ import annotations

import os
import random
import sys
from collections.abc import Callable, Iterator
from pathlib import Path
from typing import Any, Optional, TypeVar

sys.path.insert(0, str(Path(__file__).resolve().parents[2] / "clients/python"))
from tracehost import Action, Call, Compute, Enter, EventMask, Held, Host, Leave, Raise, Request, Signal, StopFlag
from tracehost.host import Process, User
from tracehost.replies import LwpInfo, Waited
from tracehost.rows import LwpMode, ProcessState

_T = TypeVar("_T")
EVENTS = [EventMask.PTRACE_FORK, EventMask.PTRACE_EXEC, EventMask.PTRACE_LWP, EventMask.PTRACE_VFORK]
CALLS = [
    *(Enter(call) for call in (Call.FORK, Call.VFORK, Call.THR_NEW, Call.EXEC, Call.THR_EXIT)),
    Enter(Call.OTHER, 4),
    Enter(Call.EXIT, 3),
]
SIGNALS = [Signal.SIGUSR1, Signal.SIGTERM, Signal.SIGCHLD, Signal.SIGSTOP, Signal.SIGWINCH, Signal.SIGTRAP]
OWN = (Signal.SIGSTOP, Signal.SIGTRAP)


def answered(call: Callable[..., _T], *arguments: Any) -> Optional[_T]:
    """What the call returns; None if it is refused or held."""
    try:
        return call(*arguments)
    except (OSError, Held):
        return None


class Debugger:
    """A user's debugger. It handles a stop as soon as it has collected it, or after all news, or keeps it for a while."""

    def __init__(self, user: User, chance: random.Random) -> None:
        self.user, self.chance = user, chance
        self.process: Process = user.process(user.spawn())
        self.kept: list[tuple[int, Signal]] = []  # stops that it will let go on later
        self.is_ending = False

    def attach(self) -> None:
        self.process.ptrace(Request.PT_ATTACH, self.user.spawn().pid)

    def collect(self) -> None:
        """Collects all news, and lets most stops go on."""
        style, stops = self.chance.choice(("at once", "after all", "after all", "keeps")), self.kept
        self.kept = []
        for news in self.news():
            if not os.WIFSTOPPED(news.status):
                continue
            stop = news.pid, Signal(os.WSTOPSIG(news.status))
            stops += [stop] if style != "at once" else []
            if style == "at once":
                self.go_on(*stop)
        for stop in stops:
            if style == "keeps" and not self.is_ending and self.chance.random() < 0.5:
                self.kept.append(stop)
            else:
                self.go_on(*stop)

    def news(self) -> Iterator[Waited]:
        """Of all, or of one after the other."""
        own = [row.pid for row in self.user.view().processes if self.process.pid in (row.tracer, row.parent)]
        for which in [-1] if self.is_ending or self.chance.random() < 0.7 else own:
            while (news := answered(self.process.wait4, which)) and news.pid:
                yield news

    def go_on(self, pid: int, signal: Signal) -> None:
        """With the signal, unless it is the tracing's own."""
        info: Optional[LwpInfo] = answered(lambda: self.process.ptrace(Request.PT_LWPINFO, pid))
        if info is None:  # SIGKILL has ended the stop
            return
        if self.chance.random() < 0.5:
            self.process.ptrace(Request.PT_SET_EVENT_MASK, pid, self.chance.choice(EVENTS))
        passed = 0 if signal in OWN else signal
        pending = {*info.pl_siglist}
        lwps = [row for row in self.user.view().lwps if row.pid == pid]
        is_trapped = any(Signal.SIGTRAP in row.pending for row in (*lwps, *self.rows_of(pid))) or Signal.SIGTRAP in pending
        how = self.chance.choice((Request.PT_CONTINUE, Request.PT_CONTINUE, Request.PT_TO_SCE, Request.PT_STEP, Request.PT_DETACH))
        if how == Request.PT_DETACH and (is_trapped or info.pl_flags & StopFlag.PL_FLAG_FORKED):
            how = Request.PT_CONTINUE
        others = [row.lwp for row in lwps if row.lwp != info.pl_lwpid]
        if others and self.chance.random() < 0.3:
            self.process.ptrace(self.chance.choice((Request.PT_SUSPEND, Request.PT_RESUME)), self.chance.choice(others))
        self.process.ptrace(how, pid, passed)

    def rows_of(self, pid: int) -> list[Any]:
        return [row for row in self.user.view().processes if row.pid == pid]

    def world(self) -> None:
        """One of the other LWPs acts."""
        lwps = [row for row in self.user.view().lwps if row.pid != self.process.pid]
        if not lwps:
            return
        row = self.chance.choice(lwps)
        if row.mode == LwpMode.IN_CALL:
            answered(self.user.turn, row.lwp, Leave())
            return
        acts = [Compute(), Compute(), self.chance.choice(CALLS), Raise(Signal.SIGUSR2)]
        answered(self.user.turn, row.lwp, self.chance.choice(acts))

    def signal(self) -> None:
        others = [row.pid for row in self.user.view().processes if row.pid != self.process.pid]
        if others:
            answered(self.process.kill, self.chance.choice(others), self.chance.choice(SIGNALS))

    def end(self) -> None:
        """Ends all others, and collects them."""
        self.is_ending = True
        while True:
            self.collect()
            rows = [row for row in self.user.view().processes if row.pid != self.process.pid]
            live = [row.pid for row in rows if row.state != ProcessState.ZOMBIE]
            if not live and not any(row.tracer == self.process.pid for row in rows):
                return
            for pid in live:
                answered(self.process.kill, pid, Signal.SIGKILL)
            for row in self.user.view().lwps:
                if row.pid != self.process.pid:
                    answered(self.user.turn, row.lwp, Compute())


def correct_session(seed: int, steps: int, scenario: Path) -> None:
    """Writes the scenario of about so many steps, of one to three users."""
    chance = random.Random(seed)
    with Host(record=scenario) as host:
        debuggers = [Debugger(host.user(1001 + place), chance) for place in range(chance.choice((1, 1, 2, 3)))]
        for debugger in debuggers:
            if chance.random() < 0.5:
                debugger.process.sigaction(Signal.SIGCHLD, Action.CATCH)
        recording = host._recording
        assert recording is not None
        while recording.steps < steps:
            debugger = chance.choice(debuggers)
            acts = [debugger.attach, debugger.signal, *[debugger.collect] * 4, *[debugger.world] * 8]
            if len(debugger.user.view().processes) > 6:
                acts.remove(debugger.attach)
            chance.choice(acts)()
        for debugger in debuggers:
            debugger.end()
