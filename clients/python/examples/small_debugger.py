"""A small debugger: it attaches, follows forks, and keeps a log of what its tracees do until the last one has ended."""

from __future__ import annotations

import os

from tracehost import EventMask, Process, Request, Signal, StopFlag

EVENTS = EventMask.PTRACE_EXEC | EventMask.PTRACE_FORK


class SmallDebugger:
    """A debugger that passes on all signals but SIGSTOP, which begins a trace, and SIGTRAP, which is an event's."""

    def __init__(self, process: Process) -> None:
        self.process = process
        self.tracees: set[int] = set()
        self.log: list[str] = []

    def attach(self, pid: int) -> None:
        self.process.ptrace(Request.PT_ATTACH, pid)
        self.tracees.add(pid)

    def run(self) -> list[str]:
        """Collects what the tracees report until none is left, and returns the log."""
        while self.tracees:
            pid, status = self.process.wait4(block=True)
            if os.WIFSTOPPED(status):
                self._stopped(pid, Signal(os.WSTOPSIG(status)))
            else:
                self.tracees.discard(pid)
                self._note(pid, f"exit {os.WEXITSTATUS(status)}" if os.WIFEXITED(status) else self._killed(status))
        return self.log

    def detach(self, pid: int) -> None:
        self.process.ptrace(Request.PT_DETACH, pid)
        self.tracees.discard(pid)

    def _stopped(self, pid: int, signal: Signal) -> None:
        info = self.process.ptrace(Request.PT_LWPINFO, pid)
        passed = 0
        if info.pl_flags & StopFlag.PL_FLAG_CHILD:
            self._note(pid, "child")
        elif info.pl_flags & StopFlag.PL_FLAG_FORKED:
            self.tracees.add(info.pl_child_pid)
            self._note(pid, f"fork {info.pl_child_pid}")
        elif info.pl_flags & StopFlag.PL_FLAG_EXEC:
            self._note(pid, "exec")
        elif signal != Signal.SIGSTOP:
            passed = signal
            self._note(pid, signal.name)
        self.process.ptrace(Request.PT_SET_EVENT_MASK, pid, EVENTS)
        self.process.ptrace(Request.PT_CONTINUE, pid, passed)

    def _killed(self, status: int) -> str:
        return f"killed by {Signal(os.WTERMSIG(status)).name}"

    def _note(self, pid: int, what: str) -> None:
        self.log.append(f"{pid} {what}")
