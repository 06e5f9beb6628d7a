"""What a step may meet of the machine: a refusal by its condition, a reply, a stop, or an edge between two states of a process
or an LWP. A goal is such a row, by its name, as ``refusal wait4 no_child`` or ``process runs -> zombie``."""

from __future__ import annotations

import re
from collections.abc import Callable, Iterable, Iterator, Mapping, Sequence
from itertools import product
from typing import Any, Optional

from .conditions import CALLS, CONDITIONS
from .names import Request, Signal
from .refusals import Asked, Rows, asked_by, conditions

Row = Mapping[str, Any]
"""A process or an LWP, as ``--json=trace+rows`` has it."""
LookUp = Callable[[int], Optional[Row]]
"""The row of a number, if it is there."""

# fmt: off
# tools/format edges
_EDGES: Mapping[str, str] = {
    "process new -> runs": "a process is made",
    "process new -> trace_stop untold": "the child of a followed fork begins in a stop",
    "process runs -> runs traced": "a process asks to be traced by its parent",
    "process runs -> trace_stop untold": "a debugger attaches to a process that runs",
    "process runs -> job_stop untold": "a stop signal stops a process without a tracer",
    "process runs -> zombie": "a process without a tracer ends, and has a parent",
    "process runs -> gone": "a process without a tracer ends, and nobody is to be told",
    "process runs traced -> runs": "the tracer of a tracee that runs ends, and leaves it",
    "process runs traced -> trace_stop untold": "a tracee stops",
    "process runs traced -> zombie": "a tracee that runs ends, and only its parent is to be told",
    "process runs traced -> zombie traced": "a tracee that runs ends, and its tracer is to be told",
    "process runs traced -> gone": "a tracee that runs ends, and nobody is to be told",
    "process trace_stop untold -> trace_stop told": "a wait reports a stop to the tracer",
    "process trace_stop untold -> runs traced": "a stop handler lets a tracee go on in the step that shows it the stop",
    "process trace_stop untold -> runs": "a tracee is left before a wait has reported its stop, as by its tracer's end",
    "process trace_stop untold -> zombie": "a tracee ends in a stop that no wait has reported, and only its parent is to be told",
    "process trace_stop untold -> zombie traced": "a tracee ends in a stop that no wait has reported, and its tracer is to be told",
    "process trace_stop untold -> gone": "a tracee ends in a stop that no wait has reported, and nobody is to be told",
    "process trace_stop told -> runs traced": "a request lets a tracee go on",
    "process trace_stop told -> runs": "a debugger detaches from a tracee, or ends and leaves it",
    "process trace_stop told -> zombie": "a tracee ends in a stop that was reported, and only its parent is to be told",
    "process trace_stop told -> zombie traced": "a tracee ends in a stop that was reported, and its tracer is to be told",
    "process trace_stop told -> gone": "a tracee ends in a stop that was reported, and nobody is to be told",
    "process job_stop untold -> job_stop told": "a wait reports a stop by job control to the parent",
    "process job_stop untold -> runs": "a process is continued before a wait has reported its stop",
    "process job_stop untold -> trace_stop untold": "a debugger attaches to a process that was stopped, before a wait has reported so",
    "process job_stop untold -> zombie": "a process ends in a stop by job control that no wait has reported",
    "process job_stop untold -> gone": "a process ends in a stop by job control that no wait has reported, and nobody is to be told",
    "process job_stop told -> runs": "a process is continued after its stop was reported",
    "process job_stop told -> trace_stop untold": "a debugger attaches to a process whose stop by job control was reported",
    "process job_stop told -> zombie": "a process ends in a stop by job control that was reported",
    "process job_stop told -> gone": "a process ends in a stop by job control that was reported, and nobody is to be told",
    "process zombie -> gone": "the parent collects an end, or ends itself",
    "process zombie traced -> zombie": "the tracer of a process that has ended collects it or ends, and its parent is to be told",
    "process zombie traced -> gone": "the tracer of a process that has ended collects it or ends, and nobody else is to be told",
    "lwp new -> runs": "an LWP is made",
    "lwp runs -> in_call": "an LWP enters a system call",
    "lwp runs -> gone": "an LWP that runs is gone with its process, or by another's exec",
    "lwp in_call -> runs": "an LWP leaves a system call",
    "lwp in_call -> waits_for_vfork": "the parent of a vfork begins to wait",
    "lwp in_call -> gone": "an LWP is gone while it is in a system call",
    "lwp waits_for_vfork -> runs": "a vfork's end while its parent waits",
    "lwp waits_for_vfork -> gone": "the parent of a vfork is gone while it waits",
    "lwp suspended": "a debugger suspends an LWP",
    "lwp resumed": "a debugger resumes an LWP",
    "lwp stepping begins": "an LWP is to make one step",
    "lwp stepping ends": "an LWP has made its step, or is no longer to make it",
    "lwp due none -> born": "an LWP is made that is to stop as a new one",
    "lwp due born -> none": "a new LWP meets its first stop, or none",
    "lwp due none -> begun": "an LWP is made that is to stop at the return from thr_new",
    "lwp due begun -> none": "an LWP meets its stop at the return from thr_new, or none",
    "lwp due none -> vfork_done": "the parent of a vfork is to stop, since the child doesn't need it any more",
    "lwp due vfork_done -> none": "the parent of a vfork meets its stop at the vfork's end, or none",
    "stop SCE": "at the entry of a system call",
    "stop SCX": "at the return of a system call",
    "stop SCX+EXEC": "at an exec",
    "stop SCX+FORKED": "of the parent of a followed fork",
    "stop SCX+FORKED+VFORKED": "of the parent of a followed vfork",
    "stop SCX+CHILD": "of the child of a followed fork",
    "stop SCX+BORN": "of a new LWP",
    "stop EXITED": "of an LWP that ends",
    "stop VFORK_DONE": "of a parent whose vfork's child doesn't need it any more",
    "stop by job control SIGSTOP": "by job control, SIGSTOP",
    "stop by job control SIGTSTP": "by job control, SIGTSTP",
    "stop by job control SIGTTIN": "by job control, SIGTTIN",
    "stop by job control SIGTTOU": "by job control, SIGTTOU",
}
# end
# fmt: on

STATES = (
    "new", "runs", "runs traced", "trace_stop untold", "trace_stop told", "job_stop untold", "job_stop told", "zombie",
    "zombie traced", "gone",
)  # fmt: skip
MODES = ("new", "runs", "in_call", "waits_for_vfork", "gone")
DUE = ("none", "born", "begun", "vfork_done")
ACTS = ("compute", "raise", "block", "enter", "leave")
_CONTINUED = 19
_STATUSES = ("exited", "signaled", "stopped by a signal", "stopped with flags", "stopped by job control", "continued")
_OF_TURNS = ("ok", "stopped", "caught", "ended")
_REPLIES: Mapping[str, Sequence[str]] = {
    "spawn": ("new",),
    "list": ("pids",),
    "kill": ("ok", "ok to all", "ok of 0", "ok of a zombie"),
    "sigaction": ("ok default", "ok ignore", "ok catch"),
    "install": ("ok",),
    "handle": ("nothing", "handled", "status exited", "status signaled"),
    "wait4": ("nothing", *(f"status {status}" for status in _STATUSES)),
    "compute": _OF_TURNS,
    "raise": _OF_TURNS,
    "block": _OF_TURNS,
    "enter": _OF_TURNS,
    "leave": (*_OF_TURNS, "new"),
    "PT_LWPINFO": ("info SIGNAL", "info NONE"),
    "PT_GETNUMLWPS": ("number",),
    "PT_GETLWPLIST": ("lwps",),
    "PT_GET_EVENT_MASK": ("mask",),
}


def name_of(step: Mapping[str, Any]) -> str:
    """What a step is called in goals: its act, its request, or its op."""
    return str(step.get("request") or step.get("act") or step["op"])


# ---- what was met


def of_refusal(step: Mapping[str, Any], answer: str, rows: Rows) -> str:
    """Of a refused step, which has changed nothing: the rows say why. Raises LookupError if they don't."""
    asked = asked_by(step)
    for condition in conditions(asked):
        if condition.answer == answer and condition.holds(asked, rows):
            return f"refusal {name_of(step)} {condition.name}"
    raise LookupError(f"{step} -> {answer}: no condition says why")


def of_reply(step: Mapping[str, Any], reply: Mapping[str, Any], before: LookUp) -> str:
    """Of a step that was done; `before` has the rows before it."""
    name, kind = name_of(step), reply["reply"]
    if kind == "status":
        return f"reply {name} status {_status(reply['pid'], reply['word'], before)}"
    if kind == "info":
        return f"reply {name} info {reply['event']}"
    if name == "kill":
        which = before(step["which"])
        is_zombie = which is not None and which["state"] == "zombie"
        more = " to all" if step["which"] == -1 else " of 0" if step["signal"] == 0 else " of a zombie" if is_zombie else ""
        return f"reply kill ok{more}"
    return f"reply {name} ok {step['action']}" if name == "sigaction" else f"reply {name} {kind}"


def _status(pid: int, word: int, before: LookUp) -> str:
    if word == _CONTINUED:
        return "continued"
    if word & 127 != 127:
        return "signaled" if word & 127 else "exited"
    row = before(pid) or {}
    if row.get("state") == "job_stop":
        return "stopped by job control"
    return "stopped with flags" if _flags(row, before) else "stopped by a signal"


def _flags(process: Row, row_of: LookUp) -> Sequence[str]:
    """Of a trace stop."""
    lwp = row_of(process["stop_lwp"]) or {}
    flags: Sequence[str] = lwp.get("flags", ())
    return flags


def of_process(old: Optional[Row], new: Optional[Row], after: LookUp) -> Iterator[str]:
    """Of a process that a step has changed; `after` has the rows after it."""
    first = _state(old) if old is not None else "new"
    last = _state(new) if new is not None else "gone"
    if first != last:
        yield f"process {first} -> {last}"
    if new is not None and "stop" in new["state"] and not new.get("reported"):
        yield f"stop {_stop(new, after)}"


def _state(row: Row) -> str:
    state: str = row["state"]
    if state in ("trace_stop", "job_stop"):
        return f"{state} {'told' if row.get('reported') else 'untold'}"
    return f"{state} traced" if row.get("tracer") else state


def _stop(row: Row, row_of: LookUp) -> str:
    if row["state"] == "job_stop":
        return f"by job control {row['stop_signal']}"
    flags = _flags(row, row_of)
    return "+".join(flags).replace("PL_FLAG_", "") if flags else str(row["stop_signal"])


def of_lwp(old: Optional[Row], new: Optional[Row]) -> Iterator[str]:
    """Of an LWP that a step has changed."""
    first, last = old["mode"] if old is not None else "new", new["mode"] if new is not None else "gone"
    if first != last:
        yield f"lwp {first} -> {last}"
    if new is None:
        return
    was: Row = old if old is not None else {}
    if was.get("suspended", False) != new.get("suspended", False):
        yield f"lwp {'suspended' if new.get('suspended') else 'resumed'}"
    if was.get("stepping", False) != new.get("stepping", False):
        yield f"lwp stepping {'begins' if new.get('stepping') else 'ends'}"
    if was.get("due", "none") != new.get("due", "none"):
        yield f"lwp due {was.get('due', 'none')} -> {new.get('due', 'none')}"


# ---- all goals


def refusals_of(requests: Iterable[Request] = Request) -> Iterator[str]:
    """Of all steps, those of ptrace(2) by these requests: the conditions that some arguments leave open."""
    requests = list(requests)
    for call in CALLS:
        for name in _names(call.op, call.request, requests):
            yield from (f"refusal {name} {condition}" for condition in call.order if _may_hold(name, condition))


def _names(op: str, request: int, requests: Iterable[Request]) -> Sequence[str]:
    if op == "turn":
        return ACTS
    if op != "ptrace":
        return (op,)
    alone = {call.request for call in CALLS if call.op == "ptrace"} - {-1}
    return [r.name for r in requests if r == request or (request == -1 and r not in alone)]


_BY_NAME = {condition.name: condition for condition in CONDITIONS}


def _may_hold(name: str, condition: str) -> bool:
    row = _BY_NAME[condition]
    return not row.never and any(map(row.possible, _samples(name)))


def _samples(name: str) -> Iterator[Asked]:
    """Steps of this name, with arguments of each sort."""
    numbers, signals = (-3, -1, 0, 1000, 100_000), (0, 9, 15, 32)
    step: dict[str, Any] = {"user": 1001, "caller": 1000}
    if name in ACTS:
        step.update(op="turn", act=name, call="fork", set=[])
    elif name.startswith("PT_"):
        step.update(op="ptrace", request=name)
    else:
        step.update(op=name, rules=[])
    for number, signal, action in product(numbers, signals, ("default", "ignore")):
        lwp = max(number, 1)  # 0 would be that of no turn
        given = {"lwp": lwp, "which": number, "target": number, "signal": signal, "data": signal, "action": action}
        yield asked_by({**step, **given})


def replies_of(requests: Iterable[Request] = Request) -> Iterator[str]:
    requests = list(requests)
    names = {request.name for request in requests}
    for name, replies in _REPLIES.items():
        if not name.startswith("PT_") or name in names:
            yield from (f"reply {name} {reply}" for reply in replies)
    yield from (f"reply {request.name} ok" for request in requests if request.name not in _REPLIES)


def stops_of(signals: Iterable[Signal] = Signal) -> Iterator[str]:
    yield from (f"stop {signal.name}" for signal in signals if signal != Signal.SIGKILL)
    yield from (goal for goal in _EDGES if goal.startswith("stop "))


ALL = dict.fromkeys((*refusals_of(), *replies_of(), *stops_of(), *(goal for goal in _EDGES if not goal.startswith("stop "))))
"""All goals that some step reaches."""


def words_of(goal: str) -> tuple[str, str]:
    """What the goal is of, if its words don't say so, and its words."""
    kind, name, more = (*goal.split(" ", 2), "")[:3]
    if goal in _EDGES:
        return "", f"a stop {_EDGES[goal]}" if kind == "stop" else _EDGES[goal]
    if kind == "refusal":
        return name, f"{_BY_NAME[more].answer}, {_filled(_BY_NAME[more].words)}"
    return name, "a stop by a signal" if kind == "stop" else f"the reply {more}"


def _filled(words: str) -> str:
    """A condition's words without a call: CALLER is traced already."""
    for old, new in (("no LWP {lwp}", "no such LWP"), ("LWP {lwp}", "the LWP"), ("user {user}", "the user")):
        words = words.replace(old, new)
    return re.sub(r"\{(\w+)\}", lambda match: match[1].upper(), words)
