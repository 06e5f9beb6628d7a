"""Replies in words: statuses, signals and flags by name."""

from __future__ import annotations

import enum
import os

from .names import Signal
from .replies import Caught, Ended, Handled, LwpInfo, New, Stopped, Waited

REPLIES = (New, Waited, LwpInfo, Handled, Stopped, Caught, Ended)
_STATUSES = ("status",)


def status_text(status: int) -> str:
    """A status of wait(2): ``stopped SIGSTOP`` for 4479."""
    if os.WIFCONTINUED(status):
        return "continued"
    if os.WIFSTOPPED(status):
        return f"stopped {_signal(os.WSTOPSIG(status))}"
    if os.WIFSIGNALED(status):
        return f"signaled {_signal(os.WTERMSIG(status))}"
    return f"exited {os.WEXITSTATUS(status)}"


def word_text(word: int) -> str:
    """The same of a WORD of docs/FORMAT.md, in which 19 is a continued process, as FreeBSD has it."""
    return "continued" if word == Signal.SIGCONT else status_text(word)


def describe(value: object) -> str:
    """What a call returned, with names for its numbers: ``1001 stopped SIGSTOP`` for ``Waited(1001, 4479)``."""
    if isinstance(value, Waited):
        return f"{value.pid} {status_text(value.status)}" if value.pid else "nothing"
    if isinstance(value, Ended):
        return f"ended: {status_text(value.status)}"
    if isinstance(value, Caught):
        return f"caught {value.signal.name}"
    if isinstance(value, New):
        return f"new process {value.pid}, LWP {value.lwp}"
    if isinstance(value, Stopped):
        return f"LWP {value.lwp} stopped {value.signal.name}, {field_text('flags', value.flags)}"
    if isinstance(value, (LwpInfo, Handled)):
        fields = ", ".join(f"{name}={field_text(name, field)}" for name, field in value._asdict().items())
        return f"{type(value).__name__}({fields})"
    return field_text("", value)


def field_text(name: str, value: object) -> str:
    """A field of a reply."""
    if name in _STATUSES and isinstance(value, int):
        return f"{value} ({status_text(value)})"
    if isinstance(value, enum.IntFlag):
        kind = type(value)
        return "+".join(f.name for f in kind if f.name and f & (f - 1) == 0 and f & value) or "no flags"
    if isinstance(value, enum.Enum):
        return value.name
    if isinstance(value, frozenset):
        return "{" + ", ".join(_signal(number) for number in sorted(value)) + "}"
    return repr(value)


def _signal(number: int) -> str:
    try:
        return Signal(number).name
    except ValueError:
        return str(number)
