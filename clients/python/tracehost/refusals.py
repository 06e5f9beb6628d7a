"""Why a call was answered by an errno, or held: the first of its conditions that holds (`conditions`).

Those that the arguments decide are looked at first; for the others the user's rows say which one it was. Without rows a
message names each that is possible.
"""

from __future__ import annotations

import errno
import os
import re
from bisect import bisect_left
from collections.abc import Callable, Iterable, Iterator, Mapping, Sequence
from typing import Any, NamedTuple, Optional

from .conditions import CALLS, CONDITIONS, DATA_REQUESTS, SIGNAL_REQUESTS, Condition
from .conditions import Call as CallOfTable
from .library import CLwp, CProcess, RawRows
from .names import ALL_EVENTS, LAST_PROCESS, LAST_SIGNAL, Action, Call, EventMask, Request, Signal
from .rows import LwpMode, ProcessState
from .steps import Act, Block, Compute, Enter, Leave, Raise
from .typed import CALLS as CALLS_OF_ENTER

_ACTS = (Compute, Raise, Block, Enter, Leave)
_ACTIONS = tuple(Action)


class Asked(NamedTuple):
    """A call: an op of docs/FORMAT.md and what was given, in the order of its keys. The other properties are its
    arguments as `conditions` names them, and 0 if the call has none of the name."""

    op: str
    user: int
    caller: int
    """0 if the op has none."""
    arguments: Sequence[Any]

    @property
    def request(self) -> int:
        return int(self.arguments[0]) if self.op == "ptrace" else -1

    @property
    def target(self) -> int:
        return int(self.arguments[1]) if self.op == "ptrace" else 0

    @property
    def data(self) -> int:
        return int(self.arguments[2]) if self.op == "ptrace" else 0

    @property
    def unnamed(self) -> int:
        """The bits of an event mask that are no events."""
        return self.data & ~ALL_EVENTS

    @property
    def which(self) -> int:
        return int(self.arguments[0]) if self.op in ("wait4", "kill") else -1

    @property
    def lwp(self) -> int:
        return int(self.arguments[0]) if self.op == "turn" else 0

    @property
    def act(self) -> int:
        return _ACTS.index(type(self.arguments[1])) if self.op == "turn" else 0

    @property
    def action(self) -> int:
        return _ACTIONS.index(self.arguments[1]) if self.op == "sigaction" else 0

    @property
    def signal(self) -> int:
        if self.op == "turn":
            return int(self.arguments[1].signal) if isinstance(self.arguments[1], Raise) else 0
        place = {"sigaction": 0, "kill": 1, "ptrace": 2}.get(self.op)
        return 0 if place is None else int(self.arguments[place])

    def word(self, name: str) -> str:
        """An argument, as a person writes it."""
        if name == "signal":
            return _signal(self.signal)
        if name == "request":
            return Request(self.request).name
        if name == "data":
            return self._data()
        if name == "unnamed":
            return hex(self.unnamed)
        if name == "act":
            return _act(self.arguments[1])
        if name == "action":
            return str(self.arguments[1].value)
        if name == "rules":
            count = len(self.arguments[0])
            return f"{count} {'rule' if count == 1 else 'rules'}"
        return str(getattr(self, name))

    def _data(self) -> str:
        if not self.data or self.request not in DATA_REQUESTS:
            return ""
        return f", {_signal(self.data) if self.request in SIGNAL_REQUESTS else self.data}"


class Rows:
    """A user's rows by number. Processes have rising numbers. LWPs are in order of birth, and numbers are used again.

    What is asked of a process or an LWP that isn't there is 0 or false.
    """

    def __init__(self, raw: RawRows) -> None:
        self._processes, self._lwps = raw
        self._pids, self._lwpids = _first_words(self._processes), _first_words(self._lwps)

    @classmethod
    def of_objects(cls, rows: Iterable[Mapping[str, Any]]) -> Rows:
        """Those that ``--json=trace+rows`` has, by rising numbers."""
        objects = list(rows)
        processes = [_process_of(row) for row in objects if "lwp" not in row]
        lwps = [_lwp_of(row) for row in objects if "lwp" in row]
        return cls(((CProcess * len(processes))(*processes), (CLwp * len(lwps))(*lwps)))

    def processes(self) -> int:
        return len(self._processes)

    def lwps(self) -> int:
        return len(self._lwps)

    def process_of(self, number: int) -> int:
        """The process that a target of ptrace(2) names, by its number or an LWP's."""
        return self._process(number).pid if number <= LAST_PROCESS else self.owner(number)

    def state(self, pid: int) -> int:
        return self._process(pid).state

    def parent(self, pid: int) -> int:
        return self._process(pid).parent

    def tracer(self, pid: int) -> int:
        return self._process(pid).tracer

    def was_told(self, pid: int) -> bool:
        return bool(self._process(pid).told)

    def is_live(self, pid: int) -> bool:
        process = self._process(pid)
        return bool(process.pid) and process.state != ProcessState.ZOMBIE.value

    def traces(self, tracer: int, pid: int) -> bool:
        """Whether the first process traces the second, directly or through others."""
        for _ in range(self.processes()):
            pid = self.tracer(pid)
            if pid in (0, tracer):
                break
        return pid != 0 and pid == tracer

    def has_child(self, caller: int, which: int) -> bool:
        """Whether the caller has a child, or traces a process, that `which` names."""
        return any(caller in (row.parent, row.tracer) for row in self._processes if which in (-1, row.pid))

    def owner(self, lwp: int) -> int:
        return self._lwp(lwp).pid

    def mode(self, lwp: int) -> int:
        return self._lwp(lwp).mode

    def call_of(self, lwp: int) -> int:
        """The call that it is in; -1 for none."""
        row = self._lwp(lwp)
        return row.call if row.mode == LwpMode.IN_CALL.value else -1

    def is_suspended(self, lwp: int) -> bool:
        return bool(self._lwp(lwp).suspended)

    def _process(self, pid: int) -> CProcess:
        place = bisect_left(self._pids, pid)
        return self._processes[place] if place < len(self._pids) and self._pids[place] == pid else CProcess()

    def _lwp(self, lwp: int) -> CLwp:
        return next((self._lwps[place] for place, tid in enumerate(self._lwpids) if tid == lwp), CLwp())


def _first_words(rows: Any) -> Sequence[int]:
    """The first field of each row, without a copy."""
    if not len(rows):
        return ()
    words: Sequence[int] = memoryview(rows).cast("B").cast("I")
    return words[:: len(words) // len(rows)]


def _process_of(row: Mapping[str, Any]) -> CProcess:
    """With the fields that conditions ask for."""
    state, told = ProcessState[row["state"].upper()].value, int(row.get("reported", False))
    return CProcess(pid=row["pid"], parent=row["parent"], tracer=row.get("tracer", 0), state=state, told=told)


def _lwp_of(row: Mapping[str, Any]) -> CLwp:
    """With the fields that conditions ask for."""
    call = CALLS_OF_ENTER.index(Call(row["call"])) if "call" in row else 0
    mode, suspended = LwpMode[row["mode"].upper()].value, int(row.get("suspended", False))
    return CLwp(lwp=row["lwp"], pid=row["pid"], mode=mode, call=call, suspended=suspended)


_BY_NAME = {condition.name: condition for condition in CONDITIONS}


def conditions(asked: Asked) -> Iterator[Condition]:
    """The conditions that this call may meet, in order. Those that its arguments rule out aren't among them."""
    call = _call(asked)
    return (_BY_NAME[name] for name in call.order if _BY_NAME[name].possible(asked))


def explanation(answer: str, asked: Asked, rows: Callable[[], Optional[Rows]]) -> str:
    """What an errno, or ``held``, says of a call. It asks for rows only if the arguments leave a doubt."""
    possible = [condition for condition in conditions(asked) if condition.answer == answer]
    if len(possible) > 1:
        known = rows()
        if known is not None:
            possible = [condition for condition in possible if condition.holds(asked, known)][:1] or possible
    why = ", or ".join(_filled(condition.words, asked) for condition in possible)
    if not why:
        why = os.strerror(getattr(errno, answer)) if answer != "held" else "it doesn't run"
    return f"{_filled(_call(asked).text, asked)}: {answer}, {why}"


def _call(asked: Asked) -> CallOfTable:
    return next(call for call in CALLS if call.op == asked.op and call.request in (-1, asked.request))


def _filled(text: str, asked: Asked) -> str:
    return re.sub(r"\{(\w+)\}", lambda match: asked.word(match[1]), text)


def _signal(number: int) -> str:
    """Its name; a number that is none as it was given: -1 is sent as 4294967295."""
    if 1 <= number <= LAST_SIGNAL:
        return Signal(number).name
    return str(number - (1 << 32) if number >= 1 << 31 else number)


def _act(act: Act) -> str:
    if isinstance(act, Raise):
        return f"raise {_signal(act.signal)}"
    if isinstance(act, Enter):
        return f"enter {act.call.value}"
    return type(act).__name__.lower()


# ---- the call that a step makes


def asked_by(step: Mapping[str, Any]) -> Asked:
    """The call of a step of docs/FORMAT.md. The step was answered, so it has the keys of its op."""
    op = step["op"]
    return Asked(op, step["user"], step.get("caller", 0), _ARGUMENTS[op](step))


def _act_of(step: Mapping[str, Any]) -> Act:
    name = step["act"]
    if name == "raise":
        return Raise(step["signal"])
    if name == "block":
        return Block(step["set"])
    if name == "enter":
        return Enter(Call(step["call"]), step.get("code"))
    return Leave() if name == "leave" else Compute()


def _ptrace_of(step: Mapping[str, Any]) -> Sequence[Any]:
    mask = sum(int(EventMask[name]) for name in set(step.get("mask", ())))
    return Request[step["request"]], step.get("target", 0), mask or step.get("data", 0)


_ARGUMENTS: dict[str, Callable[[Mapping[str, Any]], Sequence[Any]]] = {
    "spawn": lambda step: (),
    "ptrace": _ptrace_of,
    "wait4": lambda step: (step["which"], 0),
    "kill": lambda step: (step["which"], step["signal"]),
    "sigaction": lambda step: (step["signal"], Action(step["action"])),
    "list": lambda step: (),
    "install": lambda step: (step["rules"],),
    "handle": lambda step: (),
    "turn": lambda step: (step["lwp"], _act_of(step)),
}
