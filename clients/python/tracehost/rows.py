"""What a user sees of a host: `User.view`."""

from __future__ import annotations

import enum
from typing import NamedTuple, Optional

from .library import CLwp, CProcess
from .names import Call, EventMask, Signal, StopFlag
from .replies import status_of
from .typed import CALLS, events_of, flags_of, signals_of


# tools/format rows
class ProcessState(enum.Enum):
    """What a process is in."""

    RUNS = 0
    TRACE_STOP = 1
    JOB_STOP = 2
    ZOMBIE = 3


class LwpMode(enum.Enum):
    """What an LWP is in."""

    RUNS = 0
    IN_CALL = 1
    WAITS_FOR_VFORK = 2


class DueStop(enum.Enum):
    """The stop that an LWP meets at its next turn."""

    BORN = 1
    BEGUN = 2
    VFORK_DONE = 3


class ProcessRow(NamedTuple):
    """A process of the user, a zombie too."""

    pid: int
    parent: int
    tracer: Optional[int]
    state: ProcessState
    stop_lwp: Optional[int]
    """The LWP that reports a trace stop."""
    stop_signal: Optional[Signal]
    reported: bool
    """Whether a wait has reported the stop."""
    status: Optional[int]
    """A zombie's status, as `Waited` has it."""
    continued: bool
    """Whether a wait is to report that the process was continued."""
    events: EventMask
    pending: frozenset[Signal]


def process_row(row: CProcess) -> ProcessRow:
    return ProcessRow(
        row.pid,
        row.parent,
        row.tracer or None,
        ProcessState(row.state),
        row.lwp or None,
        Signal(row.signal) if row.signal else None,
        bool(row.told),
        status_of(row.status) if row.state == ProcessState.ZOMBIE.value else None,
        bool(row.continued),
        events_of(row.events),
        signals_of(row.pending),
    )


class LwpRow(NamedTuple):
    """An LWP of the user."""

    lwp: int
    pid: int
    mode: LwpMode
    call: Optional[Call]
    """The system call that the LWP is in."""
    argument: int
    """The exit code of `Call.EXIT`, and the number of `Call.OTHER`."""
    vfork_child: Optional[int]
    suspended: bool
    stepping: bool
    blocked: frozenset[Signal]
    pending: frozenset[Signal]
    due: Optional[DueStop]
    flags: StopFlag
    """These and the next two are of the LWP's last stop."""
    child: int
    code: int

    @property
    def tid(self) -> int:
        """As `lwp`."""
        return self.lwp

    @property
    def lwpid(self) -> int:
        """As `lwp`."""
        return self.lwp


def lwp_row(row: CLwp) -> LwpRow:
    return LwpRow(
        row.lwp,
        row.pid,
        LwpMode(row.mode),
        CALLS[row.call] if row.mode == LwpMode.IN_CALL.value else None,
        row.argument,
        row.vfork_child or None,
        bool(row.suspended),
        bool(row.stepping),
        signals_of(row.blocked),
        signals_of(row.pending),
        DueStop(row.due) if row.due else None,
        flags_of(row.flags),
        row.child,
        row.code,
    )


# end


class View(NamedTuple):
    """A user's processes by rising number, and LWPs in order of birth."""

    processes: tuple[ProcessRow, ...]
    lwps: tuple[LwpRow, ...]
