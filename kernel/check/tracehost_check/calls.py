"""The calls of a log as parts: the steps of the model that they are made of, one after another."""

from __future__ import annotations

from collections.abc import Callable, Sequence
from typing import NamedTuple, Optional, Union

from tracehost import Action, Block, Call, Enter, EventMask, Leave, Raise, Request, Signal, WaitOption

from .log import Line, LogFault

SIGNALS = {signal.name: signal for signal in Signal}
_ACTIONS = {"default": Action.SIG_DFL, "ignore": Action.SIG_IGN, "catch": Action.CATCH}
_CODES = {
    "ptrace": 26,
    "wait4": 7,
    "waitid": 7,
    "wait6": 7,
    "kill": 37,
    "raise": 433,
    "sigaction": 416,
    "sigprocmask": 340,
    "sigsuspend": 341,
}
"""FreeBSD's numbers of the calls that are reported under PT_SYSCALL as `other`."""
_RESUMING = (
    Request.PT_CONTINUE,
    Request.PT_STEP,
    Request.PT_TO_SCE,
    Request.PT_TO_SCX,
    Request.PT_SYSCALL,
    Request.PT_DETACH,
)
CALL_STOPS = (Request.PT_TO_SCE, Request.PT_TO_SCX, Request.PT_SYSCALL)
_LINUX_EVENTS = {
    "PTRACE_O_TRACEFORK": EventMask.PTRACE_FORK,
    "PTRACE_O_TRACEVFORK": EventMask.PTRACE_FORK,
    "PTRACE_O_TRACEVFORKDONE": EventMask.PTRACE_VFORK,
    "PTRACE_O_TRACECLONE": EventMask.PTRACE_LWP,
}


class Turn(NamedTuple):
    """A turn of the LWP."""

    act: Union[Enter, Leave, Raise]


class Mask(NamedTuple):
    """The LWP blocks other signals."""

    how: str
    signals: int


class Back(NamedTuple):
    """The LWP blocks what it blocked before."""


class Ptrace(NamedTuple):
    request: Request
    target: int
    data: int


class Wait(NamedTuple):
    which: int
    options: WaitOption


class Kill(NamedTuple):
    which: int
    signal: int


class SetAction(NamedTuple):
    signal: int
    action: Action


class Take(NamedTuple):
    """A signal of the set that is pending is taken, as by sigwait(2)."""

    signals: int


class Handler(NamedTuple):
    """A handler of a signal has run."""


class Settled(NamedTuple):
    """No signal and no stop waits for the LWP: it comes back from the kernel."""


Part = Union[Turn, Mask, Back, Ptrace, Wait, Kill, SetAction, Take, Handler, Settled]


class Asked:
    """A call of the log. It has no parts if the model doesn't have it."""

    def __init__(self, line: Line, parts: Sequence[Part]) -> None:
        self.line = line
        self.parts = parts

    @property
    def is_modelled(self) -> bool:
        return bool(self.parts)

    @property
    def decisive(self) -> Part:
        """The part whose reply the call is told; the last one that isn't the way back."""
        return next(part for part in reversed(self.parts) if not isinstance(part, (Settled, Back)) and part != Turn(Leave()))

    def __str__(self) -> str:
        values = ", ".join(value for name, value in self.line.words.items() if name != "within")
        return f"{self.line.name}({values})"


class Unknown(Exception):
    """The model doesn't have what a call asks for."""


def _signal(text: str) -> int:
    """A signal's number in the model. Numbers that are no signals remain: they are refused. Raises Unknown."""
    if text in SIGNALS:
        return SIGNALS[text]
    if text.lstrip("-").isdigit() and not 32 <= int(text) <= 128:
        return int(text) & 0xFFFFFFFF
    raise Unknown


def set_of(names: Sequence[str]) -> int:
    """The bits of signals; those that the model doesn't have aren't among them."""
    return sum(1 << (SIGNALS[name] - 1) for name in set(names) if name in SIGNALS)


def signals_of(bits: int) -> Block:
    return Block(tuple(signal for signal in Signal if bits >> (signal - 1) & 1))


def _ptrace(line: Line) -> list[Part]:
    name = line.word("request")
    if name == "PTRACE_SETOPTIONS":
        return [Ptrace(Request.PT_SET_EVENT_MASK, line.whole("pid"), _linux_events(line.items("events")))]
    if name not in Request.__members__:
        raise Unknown
    request, data = Request[name], 0
    if request in _RESUMING:
        data = _signal(line.word("data"))
    elif request == Request.PT_SET_EVENT_MASK:
        data = _events(line.items("events"))
    elif "data" in line.words:
        data = line.whole("data")
    return [Ptrace(request, line.whole("pid"), data & 0xFFFFFFFF)]


def _events(names: Sequence[str]) -> int:
    if any(name not in EventMask.__members__ for name in names):
        raise Unknown
    return sum(int(EventMask[name]) for name in names)


def _linux_events(names: Sequence[str]) -> int:
    """An exec stops a process without an option too."""
    events = EventMask.PTRACE_EXEC
    for name in names:
        events |= _LINUX_EVENTS.get(name, EventMask(0))
    if "PTRACE_O_TRACEEXIT" in names:
        raise Unknown
    return int(events)


def _wait(line: Line) -> list[Part]:
    options, names = WaitOption(0), line.items("options")
    for name in names:
        if name in WaitOption.__members__:
            options |= WaitOption[name]
        elif name not in ("WEXITED", "WTRAPPED", "0x40000000"):
            raise Unknown
    if (line.name != "wait4" and "WEXITED" not in names) or not -1 <= line.whole("pid") != 0:
        raise Unknown
    return [Wait(line.whole("pid"), options)]


def _kill(line: Line) -> list[Part]:
    if line.whole("pid") < 1:
        raise Unknown
    return [Kill(line.whole("pid"), _signal(line.word("signal")))]


def _raise(line: Line) -> list[Part]:
    return [Turn(Raise(_signal(line.word("signal"))))]


def _abort(line: Line) -> list[Part]:
    turn = Turn(Raise(Signal.SIGABRT))
    return [turn, Settled(), SetAction(Signal.SIGABRT, Action.SIG_DFL), turn, Settled()]


def _sigaction(line: Line) -> list[Part]:
    signal, action = _signal(line.word("signal")), line.word("action")
    if action == "-":
        return []
    if action not in _ACTIONS:
        raise LogFault(line.place, f"action={action} is none")
    return [SetAction(signal, _ACTIONS[action])]


def _sigprocmask(line: Line) -> list[Part]:
    how = line.word("how")
    if how == "-":
        return []
    if how not in ("block", "unblock", "set"):
        raise Unknown
    return [Mask(how, set_of(line.items("signals")))]


def _sigsuspend(line: Line) -> list[Part]:
    return [Mask("set", set_of(line.items("signals"))), Handler(), Back()]


def _sigwait(line: Line) -> list[Part]:
    return [Take(set_of(line.items("signals")))]


def _call(call: Call) -> Callable[[Line], list[Part]]:
    return lambda line: [Turn(Enter(call)), Turn(Leave())]


def _exit(line: Line) -> list[Part]:
    if line.word("code") == "-":
        raise Unknown  # its code is that of the status that is told later
    return [Turn(Enter(Call.EXIT, line.whole("code") & 0xFF)), Turn(Leave())]


_PARTS: dict[str, Callable[[Line], list[Part]]] = {
    "ptrace": _ptrace,
    "wait4": _wait,
    "waitid": _wait,
    "wait6": _wait,
    "kill": _kill,
    "raise": _raise,
    "abort": _abort,
    "sigaction": _sigaction,
    "sigprocmask": _sigprocmask,
    "sigsuspend": _sigsuspend,
    "sigwait": _sigwait,
    "fork": _call(Call.FORK),
    "vfork": _call(Call.VFORK),
    "pthread_create": _call(Call.THR_NEW),
    "pthread_exit": _call(Call.THR_EXIT),
    "execve": _call(Call.EXEC),
    "exit": _exit,
}


def call_of(line: Line, is_reported: bool, is_linux: bool) -> Asked:
    """The call of a line `asks`. If it `is_reported`, a debugger may see its entry and its exit. Raises LogFault.

    On Linux an exec lets its vfork's parent go on before it stops, so a vfork is a fork there. That the parent waits is looked
    for in its lines.
    """
    name = "fork" if is_linux and line.name == "vfork" else line.name
    try:
        parts = _PARTS[name](line) if name in _PARTS else None
    except Unknown:
        parts = None
    if parts is None:
        return Asked(line, ())
    if is_reported and line.name in _CODES:
        entry: list[Part] = [Turn(Enter(Call.OTHER, _CODES[line.name]))]
        exit: list[Part] = [Turn(Leave())]
        if line.name == "sigsuspend":
            parts = parts[:1] + entry + exit + parts[1:]
        elif line.name in ("raise", "sigprocmask"):  # a turn in user mode
            parts = entry + exit + parts
        else:
            parts = entry + parts + exit
    return Asked(line, (*parts, Settled()))
