#!/usr/bin/env python3
"""A small debugger: attaches to a shell, follows its forks, prints system calls and signals, and detaches when a child
of the shell has ended.

    TRACEHOST=/path/to/tracehost python3 debugger.py

`main` has what the traced processes do. clients/c/examples/debugger.c is the same in C, and prints the same.
"""

from __future__ import annotations

import os
import pathlib
import sys

sys.path.insert(0, str(pathlib.Path(__file__).resolve().parents[1]))
from tracehost import (
    Act, Call, Compute, Enter, EventMask, Host, Leave, Process, Raise, Request, Signal, StopFlag, Stopped, User,
)  # fmt: skip

CALLS = {1: "exit", 2: "fork", 3: "read", 4: "write", 59: "execve", 66: "vfork"}
READ, WRITE = 3, 4
EVENTS = EventMask.PTRACE_FORK | EventMask.PTRACE_VFORK | EventMask.PTRACE_EXEC | EventMask.PTRACE_SYSCALL


class Debugger:
    """A process that traces others, and prints what they report."""

    def __init__(self, process: Process) -> None:
        self.process = process
        self.tracees: list[int] = []
        self.leaving = False

    def attach(self, pid: int) -> None:
        self.process.ptrace(Request.PT_ATTACH, pid)
        self.process.wait4(pid)
        print(f"{pid}: attached")
        self.follow(pid)

    def follow(self, pid: int) -> None:
        """Asks a process that has stopped for its events, and lets it go on."""
        self.tracees.append(pid)
        self.process.ptrace(Request.PT_SET_EVENT_MASK, pid, EVENTS)
        self.process.ptrace(Request.PT_CONTINUE, pid)

    def collect(self) -> None:
        """Takes all that wait4(2) has to report."""
        while self.tracees:
            pid, status = self.process.wait4()
            if pid == 0:
                return
            if os.WIFSTOPPED(status):
                self.stopped(pid, Signal(os.WSTOPSIG(status)))
            else:
                self.ended(pid, status)

    def stopped(self, pid: int, signal: Signal) -> None:
        info = self.process.ptrace(Request.PT_LWPINFO, pid)
        call = CALLS.get(info.pl_syscall_code, f"call {info.pl_syscall_code}")
        passed = 0
        if info.pl_flags & StopFlag.PL_FLAG_CHILD:
            print(f"{pid}: a child, followed")
            self.follow(pid)
            return
        if info.pl_flags & StopFlag.PL_FLAG_SCE:
            print(f"{pid}: {call}")
        elif info.pl_flags & StopFlag.PL_FLAG_FORKED:
            print(f"{pid}: {call} = {info.pl_child_pid}")
        elif info.pl_flags & StopFlag.PL_FLAG_EXEC:
            print(f"{pid}: runs another program")
        elif info.pl_flags & StopFlag.PL_FLAG_SCX:
            print(f"{pid}: {call} done")
        elif signal == Signal.SIGSTOP and self.leaving:
            self.process.ptrace(Request.PT_DETACH, pid)
            self.tracees.remove(pid)
            print(f"{pid}: detached")
            return
        else:
            print(f"{pid}: {signal.name}, passed on")
            passed = signal
        self.process.ptrace(Request.PT_CONTINUE, pid, passed)

    def ended(self, pid: int, status: int) -> None:
        """The first end is what the debugger has waited for: it stops the others, to detach from them."""
        if os.WIFEXITED(status):
            print(f"{pid}: exited with {os.WEXITSTATUS(status)}")
        else:
            print(f"{pid}: ended by {Signal(os.WTERMSIG(status)).name}")
        self.tracees.remove(pid)
        self.leaving = True
        for tracee in self.tracees:
            self.process.kill(tracee, Signal.SIGSTOP)


def run(user: User, debugger: Debugger, lwp: int, acts: list[Act]) -> None:
    """The LWP does these acts, and the debugger takes what they bring. An act that a stop preceded is done after it."""
    at_a_call = StopFlag.PL_FLAG_SCE | StopFlag.PL_FLAG_SCX
    for act in acts:
        done = False
        while not done:
            turned = user.turn(lwp, act)
            done = not isinstance(turned, Stopped) or bool(turned.flags & at_a_call)
            debugger.collect()


def main() -> None:
    with Host() as host:
        user = host.user(1001)
        debugger = Debugger(user.process(user.spawn().pid))
        shell = user.spawn()
        debugger.attach(shell.pid)
        # the shell reads a command, and makes a process for it, whose LWP has the next number
        run(user, debugger, shell.lwp, [Enter(Call.OTHER, READ), Leave(), Enter(Call.FORK), Leave()])
        child = shell.lwp + 1
        run(user, debugger, child, [Enter(Call.EXEC), Leave(), Enter(Call.OTHER, WRITE), Leave()])
        run(user, debugger, child, [Raise(Signal.SIGWINCH), Compute(), Enter(Call.EXIT, 3), Leave()])
        run(user, debugger, shell.lwp, [Compute(), Enter(Call.OTHER, READ), Leave()])
        collected = user.process(shell.pid).wait4()
        print(f"{shell.pid}: has collected {collected.pid}")
        try:
            debugger.process.wait4()
        except ChildProcessError:
            print("nothing left to trace")


if __name__ == "__main__":
    main()
