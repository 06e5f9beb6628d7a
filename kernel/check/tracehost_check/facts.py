"""What the whole log says of its processes, which a search looks up at each line."""

from __future__ import annotations

from bisect import bisect_left
from collections import defaultdict
from collections.abc import Iterable, Sequence
from typing import NamedTuple, Optional

from tracehost import Request, Signal

from .calls import CALL_STOPS, SIGNALS
from .log import Caller, Line, LogFault

Read = Sequence[tuple[Line, Optional[Line]]]
WAITS = ("wait4", "waitid", "wait6")
_UNSENT = """SIGILL SIGTRAP SIGABRT SIGEMT SIGFPE SIGBUS SIGSEGV SIGSYS SIGPIPE SIGALRM SIGURG SIGIO SIGXCPU SIGXFSZ SIGVTALRM
SIGPROF SIGHUP SIGINT SIGQUIT SIGTSTP SIGTTIN SIGTTOU SIGWINCH"""
UNSENT = frozenset(Signal[name] for name in _UNSENT.split())
"""Signals that come without a call of the log: of traps, timers, limits, descriptors and terminals."""


class Status(NamedTuple):
    """What a wait has told of a process."""

    place: int
    kind: str
    """``exited``, ``signaled``, ``stopped`` or ``continued``."""
    number: int
    """The exit code or the model's signal; 0 if the model doesn't have it."""

    @property
    def word(self) -> int:
        """As wait4(2) of FreeBSD has it."""
        if self.kind == "exited":
            return self.number << 8
        if self.kind == "stopped":
            return self.number << 8 | 0x7F
        return self.number if self.kind == "signaled" else 0x13


def told_status(line: Line) -> Optional[tuple[int, Status]]:
    """The process and the status that a wait was told; None for none. Raises LogFault."""
    if "status" not in line.words:
        return None
    pid = line.whole("pid") if "pid" in line.words else int(line.name)
    kind, _, what = line.word("status").partition(":")
    if kind == "exited" and what.isdigit() and int(what) < 256:
        number = int(what)
    elif kind in ("signaled", "stopped") and what:
        number = SIGNALS.get(what, 0)
    elif kind == "continued" and not what:
        number = 0
    else:
        raise LogFault(line.place, f"status={line.word('status')} is none")
    return pid, Status(line.place, kind, number)


def parent_of(line: Line) -> int:
    """The parent that a line `begins` tells; 0 for none."""
    text = next((line.words[name] for name in ("fork", "vfork", "parent") if name in line.words), "0")
    number = text.partition("/")[0]
    return int(number) if number.isdigit() else 0


class Facts:
    """Of a log that was read."""

    def __init__(self, read: Read) -> None:
        """Raises LogFault."""
        first = read[0][0]
        self.system = first.word("system")
        self.passes_over = self.system in ("FreeBSD", "tracehost-run")
        """Whether a traced process doesn't stop for signals that it ignores, or that are discarded by default."""
        self.is_late = self.system != "tracehost-run" and self.system != "model"
        """Whether an attach, and a SIGKILL, may take effect after the call: on kernels."""
        self.kills = first.words.get("kill_on_debugger_exit", "0" if self.system == "Linux" else "1") == "1"
        self.last: dict[int, Line] = {}
        """The last line of each process."""
        self.last_of: dict[Caller, int] = {}
        self.statuses: dict[int, list[Status]] = defaultdict(list)
        self.begun: set[int] = set()
        self.unseen: set[int] = set()
        """Children of forks that the log doesn't have: their parent's wait may not be in it either, as in system(3)."""
        self._spread: dict[int, int] = {}
        """Signals that were sent to a group or to another thread, which the model doesn't have, and where first."""
        self.forked: set[int] = set()
        """Processes that a call which the log has has made."""
        self.outside: set[int] = set()
        """Processes that are traced in a way that the model doesn't have."""
        self._leaves: dict[int, list[int]] = defaultdict(list)
        self.has_call_stops = False
        self._traced: set[int] = set()
        attached: set[int] = set()
        for line, asks in read:
            self._take(line)
            if asks is not None:
                self._answered(line, asks, attached)
        self._follow(read)
        told = set(self.statuses)
        self.strangers = attached - self.begun - self.forked
        """Processes that were there before, and that a debugger has attached to."""
        self.unborn = told - self.begun - self.forked - self.strangers
        """Processes that only a wait tells of."""
        self.known = self.begun | self.forked | told

    def _take(self, line: Line) -> None:
        pid = line.caller.pid
        self.last[pid], self.last_of[line.caller] = line, line.place
        if line.kind == "begins":
            if pid not in self.begun and "parent" in line.words:
                self.unseen.add(pid)
            self.begun.add(pid)
            if parent_of(line) in self._traced:
                self._traced.add(pid)
        elif line.kind == "asks" and (line.name == "pthread_kill" or (line.name == "kill" and line.whole("pid") < 1)):
            self._spread.setdefault(SIGNALS.get(line.word("signal"), 0), line.place)
        elif line.kind == "asks" and line.name in ("execve", "exit"):
            self._leaves[pid].append(line.place)
        elif line.kind == "asks" and line.name == "ptrace":
            name = line.word("request")
            if name == Request.PT_TRACE_ME.name:
                self._traced.add(pid)
            elif name == Request.PT_ATTACH.name:
                self._traced.add(line.whole("pid"))
            names = line.words.get("events", "")
            self.has_call_stops |= name in [request.name for request in CALL_STOPS] or "_SC" in names

    def _follow(self, read: Read) -> None:
        """The children of processes that are traced in such a way are so too."""
        for line, asks in read:
            if line.kind == "begins" and parent_of(line) in self.outside:
                self.outside.add(line.caller.pid)
            elif asks is not None and asks.name == "fork" and line.caller.pid in self.outside and int(line.name) > 0:
                self.outside.add(int(line.name))

    def _answered(self, line: Line, asks: Line, attached: set[int]) -> None:
        if asks.name in WAITS:
            status = told_status(line)
            if status is not None:
                self.statuses[status[0]].append(status[1])
                if line.words.get("event") == "stop":  # of PTRACE_SEIZE
                    self.outside.add(status[0])
        elif asks.name == "fork" and int(line.name) > 0:
            self.forked.add(int(line.name))
        elif asks.name == "ptrace" and line.name == "0":
            if asks.word("request") == "PT_ATTACH":
                attached.add(asks.whole("pid"))
            elif asks.word("request") == "PTRACE_SEIZE":
                self.outside.add(asks.whole("pid"))

    def next_status(self, pid: int, place: int) -> Optional[Status]:
        """What is told next of a process, by this line or a later one."""
        found = self.statuses.get(pid, [])
        at = bisect_left(found, place, key=lambda status: status.place)
        return found[at] if at < len(found) else None

    def leaves_program(self, pid: int, after: int, before: int) -> bool:
        """Whether the process asks for an exec, or an exit, between two lines."""
        found = self._leaves.get(pid, [])
        at = bisect_left(found, after)
        return at < len(found) and found[at] < before

    def is_reported(self, pid: int) -> bool:
        """Whether a debugger may see the entries and exits of its calls."""
        return self.has_call_stops and pid in self._traced

    def is_spread(self, signal: int, place: int) -> bool:
        """Whether any process may have been sent the signal by then."""
        return self._spread.get(signal, place) < place

    def is_unlogged(self, pid: int, place: int) -> bool:
        """Whether the program that it runs by then has no lines."""
        if pid not in self.last:
            return pid not in self.forked
        last = self.last[pid]
        return last.place < place and last.kind == "asks" and last.name == "execve"

    def may_exit(self, pid: int, place: int) -> bool:
        """Whether it may exit by a call that the log doesn't have."""
        if pid not in self.last:
            return True
        return self.last[pid].place < place and self.last[pid].name != "exit"


def unfinished(facts: Facts, pids: Iterable[int]) -> list[int]:
    """Those whose end neither a line nor a wait tells."""
    found = []
    for pid in pids:
        statuses, last = facts.statuses.get(pid, []), facts.last[pid]
        if last.name != "exit" and not (statuses and statuses[-1].kind in ("exited", "signaled")):
            found.append(pid)
    return sorted(found)
