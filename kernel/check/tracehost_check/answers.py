"""Whether the model's answer is the one that the log has, and what the model would have answered."""

from __future__ import annotations

import re
from collections.abc import Mapping
from typing import Any, Optional

from tracehost import Caught, EventMask, LwpInfo, Signal, StopFlag, Waited
from tracehost.refusals import Asked as Question
from tracehost.refusals import Rows, explanation
from tracehost.replies import NOTHING

from .calls import Kill, Ptrace, SetAction, Settled, Turn, Wait
from .facts import Status, told_status
from .log import Caller, Line
from .machine import RUNS, USER, USER_MODE, Machine
from .moves import Made, Moves, Refused, is_settled
from .states import Open, State

Numbers = tuple[Mapping[int, int], Mapping[Caller, int]]


def matches(state: State, open: Open, line: Line) -> Optional[Numbers]:
    """The host's numbers if the answers are the same, with those that the answer shows first; None if they aren't."""
    reply, name = open.reply, line.name
    if open.call.line.name == "sigsuspend":
        return (state.pids, state.lwps) if line.words.get("errno") == "EINTR" else None
    if name == "-1" or isinstance(reply, Refused):
        is_same = isinstance(reply, Refused) and line.words.get("errno") == reply.name and name == "-1"
        return (state.pids, state.lwps) if is_same else None
    if isinstance(reply, Made):
        if open.call.line.name == "fork":
            return _with_pid(state, int(name), reply.number)
        return (state.pids, state.lwps) if name == "0" else None
    if isinstance(reply, Waited):
        return _waited(state, reply, told_status(line), line)
    return _plain(state, reply, line)


def _with_pid(state: State, host: int, pid: int) -> Optional[Numbers]:
    own = state.host_of(pid)
    if own is None and state.pids.get(host) not in state.rows.processes:
        return {**state.pids, host: pid}, state.lwps
    return (state.pids, state.lwps) if own == host else None


def _waited(state: State, reply: Waited, told: Optional[tuple[int, Status]], line: Line) -> Optional[Numbers]:
    if reply == NOTHING:
        return (state.pids, state.lwps) if told is None and line.name == "0" else None
    if told is None or told[1].word != reply.word:
        return None
    own = state.host_of(reply.pid)
    if own is None and (told[0] not in state.pids or state.pids[told[0]] not in state.rows.processes):
        return {**state.pids, told[0]: reply.pid}, state.lwps
    return (state.pids, state.lwps) if own == told[0] else None


def _plain(state: State, reply: Any, line: Line) -> Optional[Numbers]:
    same = state.pids, state.lwps
    if isinstance(reply, LwpInfo):
        return _info(state, reply, line)
    if isinstance(reply, EventMask):
        events = {event.name for event in EventMask if event & reply and event & (event - 1) == 0}
        return same if line.name == "0" and set(line.items("events")) == events else None
    if isinstance(reply, Caught):  # by sigwait
        return same if line.words.get("signal") == reply.signal.name else None
    if isinstance(reply, int):
        return same if line.name == str(reply) else None
    if isinstance(reply, tuple):
        return _lwps(state, reply, line)
    return same if line.name == "0" else None


def _lwps(state: State, reply: tuple[int, ...], line: Line) -> Optional[Numbers]:
    told = line.items("lwps")
    if line.name != str(len(reply)) or (told and told[-1] != ".." and len(told) != len(reply)):
        return None
    return _with_lwps(state, zip(reply, [int(item) for item in told if item.isdigit()]))


def _with_lwps(state: State, pairs: Any) -> Optional[Numbers]:
    lwps = dict(state.lwps)
    for own, host in pairs:
        pid = state.host_of(state.rows.lwps[own].pid)
        known = next((caller for caller, lwp in lwps.items() if lwp == own), None)
        if known is not None and known.lwp != host:
            return None
        if pid is not None:
            lwps[Caller(pid, host)] = own
    return state.pids, lwps


def _info(state: State, reply: LwpInfo, line: Line) -> Optional[Numbers]:
    if line.name != "0" or line.word("event") != ("signal" if reply.pl_event else "none"):
        return None
    if "flags" in line.words:
        flags = {flag.name for flag in StopFlag if flag in reply.pl_flags}
        child = state.host_of(reply.pl_child_pid) if reply.pl_child_pid else 0
        if child is None:
            named = _with_pid(state, line.whole("child"), reply.pl_child_pid)
            return None if named is None else _info(state.changed_pids(named[0]), reply, line)
        is_same = set(line.items("flags")) == flags and child == line.whole("child")
        is_same = is_same and reply.pl_syscall_code in (0, line.whole("code"))
        for name, signals in (("mask", reply.pl_sigmask), ("pending", reply.pl_siglist)):
            is_same = is_same and {item for item in line.items(name) if item in Signal.__members__} == {s.name for s in signals}
        if not is_same:
            return None
    return _with_lwps(state, [(reply.pl_lwpid, line.whole("lwp"))])


# ---- what the model would have answered


def describe(state: State, reply: Any) -> str:
    """A reply, with the host's numbers."""
    if isinstance(reply, Refused):
        return reply.name
    if isinstance(reply, Waited):
        return "0" if reply == NOTHING else f"{state.host_of(reply.pid) or 'a process'} {status_text(reply)}"
    if isinstance(reply, Made):
        return str(state.host_of(reply.number) or "a new process")
    if isinstance(reply, LwpInfo):
        flags = "+".join(str(flag.name) for flag in StopFlag if flag in reply.pl_flags) or "-"
        return f"0 event={'signal' if reply.pl_event else 'none'} flags={flags} code={reply.pl_syscall_code}"
    if isinstance(reply, int):
        return str(int(reply))
    return str(len(reply)) if isinstance(reply, tuple) and reply and isinstance(reply[0], int) else "0"


def status_text(reply: Waited) -> str:
    word = reply.word
    if word == 0x13:
        return "continued"
    if word & 0x7F == 0x7F:
        return f"stopped:{Signal(word >> 8).name}"
    return f"signaled:{Signal(word).name}" if word & 0x7F else f"exited:{word >> 8}"


def _question(state: State, open: Open) -> Optional[Question]:
    """What the call asks of the model, as its refusals are explained."""
    pid = state.pid(open.call.line.caller.pid)
    part = open.call.decisive
    if isinstance(part, Ptrace):
        return Question("ptrace", USER, pid, (part.request, Moves.target(state, part), part.data))
    if isinstance(part, Wait):
        return Question("wait4", USER, pid, (part.which if part.which == -1 else state.pid(part.which), 0))
    if isinstance(part, Kill):
        return Question("kill", USER, pid, (state.pid(part.which), part.signal))
    if isinstance(part, SetAction):
        return Question("sigaction", USER, pid, (part.signal, part.action))
    if isinstance(part, Turn):
        return Question("turn", USER, 0, (state.lwps[open.call.line.caller], part.act))
    return None


def _in_numbers_of_host(state: State, text: str) -> str:
    own = {str(pid): str(host) for host, pid in state.pids.items()}
    own.update({str(lwp): str(caller) for caller, lwp in state.lwps.items()})
    return re.sub(r"\b\d{4,6}\b", lambda found: own.get(found[0], found[0]), text)


def answer_of(moves: Moves, machine: Machine, state: State, line: Line, asks: Optional[Line]) -> str:
    """What the model answers in this state, with its reason; or why the line can't be written."""
    caller = line.caller
    lwp = state.lwps.get(caller)
    row = state.rows.lwps.get(lwp) if lwp is not None else None
    if asks is None or row is None or lwp is None:
        return _cannot_write(state, caller)
    open = state.innermost(caller)
    if open is None or not open.call.is_modelled:
        return _cannot_write(state, caller)
    if open.part >= len(open.call.parts) - 1:
        if not is_settled(state, lwp):
            return f"{describe(state, open.reply)}, and then {_cannot_write(state, caller)}"
        return _explained(moves, machine, state, open)
    return _not_made(moves, state, open)


def _cannot_write(state: State, caller: Caller) -> str:
    """Why the LWP has no line now."""
    pid = state.pids.get(caller.pid)
    if pid is None or pid not in state.rows.processes:
        return f"{caller.pid} isn't there"
    row = state.rows.processes[pid]
    if row.state == 3:
        return f"{caller.pid} has ended"
    if row.state != RUNS:
        why = "a debugger" if row.state == 1 else "job control"
        return f"{why} has stopped {caller.pid} by {Signal(row.signal).name}"
    lwp = state.lwps.get(caller)
    if lwp is None or lwp not in state.rows.lwps:
        return f"{caller} isn't there"
    if state.rows.lwps[lwp].mode != USER_MODE:
        return f"{caller} is in a call"
    if state.rows.meets(lwp):
        return f"{caller} meets a signal"
    return f"{caller} goes on"


def _explained(moves: Moves, machine: Machine, state: State, open: Open) -> str:
    text = describe(state, open.reply)
    question = _question(state, open)
    if not isinstance(open.reply, Refused) or question is None:
        return text
    machine.load(state.session)  # type: ignore[arg-type]
    why = explanation(open.reply.name, question, lambda: Rows(machine.raw_rows()))
    return _in_numbers_of_host(state, why)


def _not_made(moves: Moves, state: State, open: Open) -> str:
    part = open.next
    if isinstance(part, Wait) and state.rows.processes[state.pid(open.call.line.caller.pid)].state == RUNS:
        return f"{open.call} waits: no status is there"
    if isinstance(part, (Settled, Turn)) or part is None:
        return _cannot_write(state, open.call.line.caller)
    return f"{open.call} isn't made: {_cannot_write(state, open.call.line.caller)}"
