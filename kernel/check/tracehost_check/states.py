"""A state that the host may be in: the model's, which numbers of the host are whose, and how far the open calls are."""

from __future__ import annotations

from collections.abc import Mapping
from typing import Any, NamedTuple, Optional

from tracehost.library import Session

from .calls import Asked, Part
from .log import Caller
from .machine import Rows

NO_PROCESS, NO_LWP = 99_999, (1 << 32) - 1
"""Numbers that nothing has."""


class Open(NamedTuple):
    """A call that has begun."""

    call: Asked
    part: int = 0
    """The part that comes next."""
    reply: Any = None
    """What the model has answered."""
    caught: bool = False
    """Whether a signal handler has run since."""
    blocked: int = 0
    """What the LWP blocked before."""

    @property
    def next(self) -> Optional[Part]:
        return self.call.parts[self.part] if self.part < len(self.call.parts) else None


class State:
    """A state. It isn't changed once it is kept."""

    __slots__ = ("session", "numbers", "rows", "pids", "lwps", "open", "late", "turns", "unsent", "key")

    def __init__(
        self,
        pids: Mapping[int, int],
        lwps: Mapping[Caller, int],
        open: Mapping[Caller, tuple[Open, ...]],
        late: frozenset[Open],
        turns: int,
        unsent: int,
    ) -> None:
        self.session: Optional[Session] = None
        self.numbers: tuple[int, ...] = ()
        self.rows = Rows({}, {})
        self.pids, self.lwps, self.open, self.late = pids, lwps, open, late
        self.turns, self.unsent = turns, unsent
        self.key: Any = None

    def changed(
        self,
        *,
        pids: Optional[Mapping[int, int]] = None,
        lwps: Optional[Mapping[Caller, int]] = None,
        open: Optional[Mapping[Caller, tuple[Open, ...]]] = None,
        late: Optional[frozenset[Open]] = None,
        turns: int = 0,
        unsent: int = 0,
    ) -> State:
        """The same, except what is given. The model's part is still to be set."""
        return State(
            self.pids if pids is None else pids,
            self.lwps if lwps is None else lwps,
            self.open if open is None else open,
            self.late if late is None else late,
            self.turns + turns,
            self.unsent + unsent,
        )

    def changed_pids(self, pids: Mapping[int, int]) -> State:
        """The same rows with other numbers."""
        after = self.changed(pids=pids)
        after.rows = self.rows
        return after

    def innermost(self, caller: Caller) -> Optional[Open]:
        calls = self.open.get(caller)
        return calls[-1] if calls else None

    def with_innermost(self, caller: Caller, call: Optional[Open]) -> dict[Caller, tuple[Open, ...]]:
        """The open calls with another innermost one of this LWP, or without it."""
        calls = self.open[caller][:-1] + (() if call is None else (call,))
        return _without_empty({**self.open, caller: calls})

    def with_call(self, caller: Caller, call: Open) -> dict[Caller, tuple[Open, ...]]:
        return {**self.open, caller: (*self.open.get(caller, ()), call)}

    def pid(self, host: int) -> int:
        """The model's number of a process."""
        return self.pids.get(host, NO_PROCESS)

    def host_of(self, pid: int) -> Optional[int]:
        return next((host for host, own in self.pids.items() if own == pid), None)

    def caller_of(self, lwp: int) -> Optional[Caller]:
        return next((caller for caller, own in self.lwps.items() if own == lwp), None)

    def own_key(self) -> Any:
        return self.numbers, _items(self.pids), _items(self.lwps), _items(self.open), self.late


def _items(mapping: Mapping[Any, Any]) -> frozenset[Any]:
    return frozenset(mapping.items())


def _without_empty(open: Mapping[Caller, tuple[Open, ...]]) -> dict[Caller, tuple[Open, ...]]:
    return {caller: calls for caller, calls in open.items() if calls}


_SLACK = 16


def forget_ended(state: State) -> None:
    """Leaves out what is known of processes and LWPs that are gone, once it is much."""
    rows = state.rows
    if max(len(state.pids), len(state.lwps), len(state.open)) <= 2 * len(rows.lwps) + _SLACK:
        return
    state.pids = {host: pid for host, pid in state.pids.items() if pid in rows.processes}
    state.lwps = {caller: lwp for caller, lwp in state.lwps.items() if lwp in rows.lwps}
    state.open = {caller: calls for caller, calls in state.open.items() if caller in state.lwps}


def ended(state: State, host: int) -> tuple[dict[int, int], dict[Caller, int], dict[Caller, tuple[Open, ...]]]:
    """The numbers and the open calls without those of a process, if it is gone."""
    if state.pids.get(host) in state.rows.processes:
        return dict(state.pids), dict(state.lwps), dict(state.open)
    return (
        {other: pid for other, pid in state.pids.items() if other != host},
        {caller: lwp for caller, lwp in state.lwps.items() if caller.pid != host},
        {caller: calls for caller, calls in state.open.items() if caller.pid != host},
    )
