#!/usr/bin/env python3
"""A crash collector: traces workers, leaves each at the signal that crashes it, reports its LWPs, and lets it end.

    TRACEHOST=/path/to/tracehost python3 crash_collector.py

`main` has what the workers do. clients/c/examples/crash_collector.c is the same in C, and prints the same.
"""

from __future__ import annotations

import os
import pathlib
import sys
from collections.abc import Iterable

sys.path.insert(0, str(pathlib.Path(__file__).resolve().parents[1]))
from tracehost import (
    Act,
    Block,
    Call,
    Compute,
    Decision,
    Enter,
    Handled,
    Host,
    Leave,
    New,
    Process,
    Raise,
    Request,
    Rule,
    Signal,
    Turned,
    User,
    Waited,
)

CRASHES = [Signal.SIGILL, Signal.SIGABRT, Signal.SIGFPE, Signal.SIGBUS, Signal.SIGSEGV, Signal.SIGSYS]
REQUESTS_TO_END = [Signal.SIGHUP, Signal.SIGINT, Signal.SIGTERM]


class Collector:
    """A process that traces workers. Its stop handler leaves crashes to it, and passes on requests to end."""

    def __init__(self, process: Process) -> None:
        self.process = process
        self.watched: set[int] = set()
        self.crashes = 0
        process.install([Rule(Decision.LEAVE, signal) for signal in CRASHES])
        process.install([Rule(Decision.CONTINUE, signal, pass_signal=signal) for signal in REQUESTS_TO_END])

    def watch(self, pid: int) -> None:
        self.process.ptrace(Request.PT_ATTACH, pid)
        self.process.wait4(pid)
        self.process.ptrace(Request.PT_CONTINUE, pid)
        self.watched.add(pid)

    def collect(self) -> None:
        """Takes all stops and ends that are there."""
        while self.watched:
            told = self.process.handle()
            if told is None:
                return
            if isinstance(told, Waited):
                self.ended(told)
            elif told.decision == Decision.LEAVE:
                self.report(told)
                self.process.ptrace(Request.PT_CONTINUE, told.pid, told.signal)
            else:
                print(f"{told.pid}: {told.signal.name}, passed on")

    def report(self, stop: Handled) -> None:
        self.crashes += 1
        print(f"{stop.pid}: crashed by {stop.signal.name} in LWP {stop.lwp}")
        count = self.process.ptrace(Request.PT_GETNUMLWPS, stop.pid)
        for lwp in self.process.ptrace(Request.PT_GETLWPLIST, stop.pid, count):
            info = self.process.ptrace(Request.PT_LWPINFO, lwp)
            print(f"  LWP {lwp}: blocks {names(info.pl_sigmask)}, pending {names(info.pl_siglist)}")

    def ended(self, told: Waited) -> None:
        self.watched.remove(told.pid)
        if os.WIFEXITED(told.status):
            print(f"{told.pid}: exited with {os.WEXITSTATUS(told.status)}")
        else:
            print(f"{told.pid}: ended by {Signal(os.WTERMSIG(told.status)).name}")


def names(signals: Iterable[Signal]) -> str:
    return " ".join(signal.name for signal in sorted(signals)) or "none"


def run(user: User, collector: Collector, lwp: int, acts: list[Act]) -> Turned:
    """The LWP has a turn for each act, and the collector takes what they bring; what came of the last one."""
    turned = None
    for act in acts:
        turned = user.turn(lwp, act)
        collector.collect()
    return turned


def main() -> None:
    with Host() as host:
        user = host.user(1001)
        collector = Collector(user.process(user.spawn().pid))
        first, second, third, fourth = (user.spawn() for _ in range(4))
        for worker in (first, second, third, fourth):
            collector.watch(worker.pid)
        # an LWP of the first worker has a signal pending when another crashes
        acts: list[Act] = [Block([Signal.SIGUSR1]), Raise(Signal.SIGUSR1), Enter(Call.THR_NEW), Leave()]
        made = run(user, collector, first.lwp, acts)
        assert isinstance(made, New)
        run(user, collector, made.lwp, [Raise(Signal.SIGSEGV), Compute()])
        run(user, collector, second.lwp, [Raise(Signal.SIGTERM), Compute()])
        run(user, collector, third.lwp, [Raise(Signal.SIGABRT), Compute()])
        run(user, collector, fourth.lwp, [Enter(Call.EXIT, 0), Leave()])
        print(f"{collector.crashes} crashes, {len(collector.watched)} workers left")


if __name__ == "__main__":
    main()
