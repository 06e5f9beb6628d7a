"""Kinds of sessions: what a kernel can be asked in them, and how often."""

from __future__ import annotations

from collections.abc import Callable, Mapping, Sequence
from typing import NamedTuple

from tracehost.names import Signal
from tracehost.step_words import Step

from . import asking, habits
from .model import Lwp, Rows

# how often each step comes; those of ptrace(2) by their requests, those of an LWP by its act or call
_UNTRACED = {
    "spawn": 3, "fork": 8, "exit": 4, "kill": 14, "wait4": 16, "sigaction": 9, "block": 6, "raise": 8, "list": 2,
}  # fmt: skip
_TRACED = {"PT_TRACE_ME": 4, "PT_ATTACH": 8, "PT_CONTINUE": 14, "PT_DETACH": 4, "PT_KILL": 2, "wait4": 24}
_CALLS = {"vfork": 2, "exec": 2, "thr_new": 4, "thr_exit": 2, "other": 1}
_FREEBSD = {
    "PT_STEP": 4, "PT_TO_SCE": 3, "PT_TO_SCX": 3, "PT_SYSCALL": 4, "PT_SUSPEND": 4, "PT_RESUME": 3, "PT_LWPINFO": 4,
    "PT_GETNUMLWPS": 2, "PT_GETLWPLIST": 2, "PT_GET_EVENT_MASK": 2, "PT_SET_EVENT_MASK": 16, "PT_FOLLOW_FORK": 4, "PT_LWP_EVENTS": 4,
    "vfork": 5, "thr_new": 8, "thr_exit": 6, "exec": 4, "other": 4,
}  # fmt: skip
# numbers of signals on Linux that differ from FreeBSD's
_ON_LINUX = {
    "SIGBUS": 7, "SIGUSR1": 10, "SIGSYS": 31, "SIGUSR2": 12, "SIGURG": 23, "SIGSTOP": 19, "SIGTSTP": 20, "SIGCONT": 18,
    "SIGCHLD": 17, "SIGIO": 29,
}  # fmt: skip
# these Linux delivers before others
_SYNCHRONOUS = frozenset({"SIGSEGV", "SIGBUS", "SIGILL", "SIGTRAP", "SIGFPE", "SIGSYS"})


class Kind(NamedTuple):
    """What sessions of a kind are made of."""

    weights: Mapping[str, int]
    signals: Sequence[Signal]
    allows: Callable[[Rows, Step], bool]
    """Whether the kernels of this kind can be asked for the step."""
    unordered: Callable[[Rows, Lwp], bool]
    """Whether kernels may take the LWP's pending signals in another order, so that something else comes of it."""
    habit: Callable[[Rows, Step], str]
    """The habit of a kernel that would end most sessions at such a step; "" for none."""
    kills: float
    """How often the end of a debugger kills its tracees: a kernel without such a setting keeps them."""


def any_order(rows: Rows, lwp: Lwp) -> bool:
    """The model's order of signals is FreeBSD's."""
    return False


def _first_on_linux(names: frozenset[str]) -> str:
    return min(names, key=lambda name: (name not in _SYNCHRONOUS, _ON_LINUX.get(name, int(Signal[name]))))


def _other_order(rows: Rows, lwp: Lwp) -> bool:
    """Linux takes the LWP's own signals first, then those of the process, and numbers some of them differently."""
    unblocked = rows.unblocked(lwp)
    if len(unblocked) < 2:
        return False
    row = rows.processes[lwp["pid"]]
    if not row.get("tracer") and unblocked <= set(row.get("catch", [])):
        return False
    own = unblocked.intersection(lwp.get("pending", []))
    return _first_on_linux(own or unblocked) != min(unblocked, key=lambda name: int(Signal[name]))


_UNSHARED = frozenset({Signal.SIGEMT, Signal.SIGINFO})
_SHARED = [signal for signal in Signal if signal not in _UNSHARED]
_ALL = {**_UNTRACED, **_CALLS, **_TRACED, **_FREEBSD}
KINDS: dict[str, Kind] = {
    # what both systems have, without and with tracing
    "untraced": Kind(_UNTRACED, _SHARED, asking.on_both, _other_order, habits.on_linux, 0.1),
    "shared": Kind({**_UNTRACED, **_CALLS, **_TRACED}, _SHARED, asking.on_both, _other_order, habits.on_linux, 0.1),
    # all of FreeBSD, and what the model itself can be asked as a kernel
    "all": Kind(_ALL, list(Signal), asking.on_freebsd, any_order, habits.none, 0.7),
    "model": Kind(_ALL, list(Signal), asking.but_all, any_order, habits.none, 0.7),
}
