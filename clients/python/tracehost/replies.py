"""What is answered: the values of replies."""

from __future__ import annotations

import os
import sys

from .names import Decision, LwpEvent, Signal, StopFlag

TYPE_CHECKING = False
if TYPE_CHECKING:
    from typing import NamedTuple, NoReturn
else:
    from .plain_typing import NamedTuple

# the word of a process that was continued, and the status in which this system's os.WIFCONTINUED sees it
_CONTINUED_WORD = 0x13
_CONTINUED_STATUS = next((s for s in (_CONTINUED_WORD, 0xFFFF) if os.WIFCONTINUED(s)), _CONTINUED_WORD)


class Waited(NamedTuple):
    """What wait4(2) reports; `pid` and `status` are 0 if there was nothing to collect, as in `os.waitpid`.

    `os.WIFSTOPPED` and similar functions read `status`. The signals in it have FreeBSD's numbers:
    `Signal(os.WSTOPSIG(status))`.
    """

    pid: int
    status: int

    @property
    def word(self) -> int:
        """The status word as FreeBSD has it. It differs from `status` at most if a process was continued."""
        return _CONTINUED_WORD if self.status == _CONTINUED_STATUS else self.status


# tools/format classes
class New(NamedTuple):
    """A process was made, or an LWP of one."""

    pid: int
    tid: int

    @property
    def lwp(self) -> int:
        """As `tid`."""
        return self.tid

    @property
    def lwpid(self) -> int:
        """As `tid`."""
        return self.tid


class LwpInfo(NamedTuple):
    """The fields of FreeBSD's ``struct ptrace_lwpinfo`` that the model has."""

    pl_lwpid: int
    pl_event: LwpEvent
    pl_flags: StopFlag
    pl_sigmask: frozenset[Signal]
    pl_siglist: frozenset[Signal]
    pl_child_pid: int
    pl_syscall_code: int

    @property
    def tid(self) -> int:
        """As `pl_lwpid`."""
        return self.pl_lwpid

    @property
    def lwp(self) -> int:
        """As `pl_lwpid`."""
        return self.pl_lwpid

    @property
    def lwpid(self) -> int:
        """As `pl_lwpid`."""
        return self.pl_lwpid

    @property
    def event(self) -> LwpEvent:
        """As `pl_event`."""
        return self.pl_event

    @property
    def flags(self) -> StopFlag:
        """As `pl_flags`."""
        return self.pl_flags

    @property
    def mask(self) -> frozenset[Signal]:
        """As `pl_sigmask`."""
        return self.pl_sigmask

    @property
    def pending(self) -> frozenset[Signal]:
        """As `pl_siglist`."""
        return self.pl_siglist

    @property
    def child(self) -> int:
        """As `pl_child_pid`."""
        return self.pl_child_pid

    @property
    def code(self) -> int:
        """As `pl_syscall_code`."""
        return self.pl_syscall_code


class Handled(NamedTuple):
    """A trace stop that the caller's handlers were asked about, and what was done."""

    pid: int
    status: int
    tid: int
    signal: Signal
    flags: StopFlag
    child: int
    code: int
    handler: int | None
    """Which of the caller's handlers decided, from 0; None if all declined."""
    decision: Decision
    pass_signal: int | None
    """The signal that the process goes on with, 0 for none; None except for `Decision.CONTINUE` and `Decision.DETACH`."""

    @property
    def lwp(self) -> int:
        """As `tid`."""
        return self.tid

    @property
    def lwpid(self) -> int:
        """As `tid`."""
        return self.tid

    @property
    def pl_lwpid(self) -> int:
        """As `tid`."""
        return self.tid

    @property
    def pl_flags(self) -> StopFlag:
        """As `flags`."""
        return self.flags

    @property
    def pl_child_pid(self) -> int:
        """As `child`."""
        return self.child

    @property
    def pl_syscall_code(self) -> int:
        """As `code`."""
        return self.code


class Stopped(NamedTuple):
    """The LWP has stopped, in place of its act or at its act's end."""

    tid: int
    signal: Signal
    flags: StopFlag

    @property
    def lwp(self) -> int:
        """As `tid`."""
        return self.tid

    @property
    def lwpid(self) -> int:
        """As `tid`."""
        return self.tid

    @property
    def pl_lwpid(self) -> int:
        """As `tid`."""
        return self.tid

    @property
    def pl_flags(self) -> StopFlag:
        """As `flags`."""
        return self.flags


class Caught(NamedTuple):
    """A handler of the process's own took this signal, in place of the act."""

    signal: Signal


class Ended(NamedTuple):
    """The process has ended, with this status of wait(2)."""

    status: int


# end


if sys.version_info >= (3, 10):
    Turned = New | Stopped | Caught | Ended | None
else:
    from typing import Union

    Turned = Union[None, New, Stopped, Caught, Ended]


NOTHING = Waited(0, 0)
# FreeBSD's numbers in errno(2)
# tools/format errors
_ERRNOS = {1: "EPERM", 3: "ESRCH", 10: "ECHILD", 12: "ENOMEM", 16: "EBUSY", 22: "EINVAL", 35: "EAGAIN"}
# end


class Answered(Exception):
    """An errno was answered. `Host` makes it an OSError that says which call it was and why (`refusals`)."""

    def __init__(self, name: str) -> None:
        super().__init__(name)
        self.name = name


def raise_number(freebsd: int) -> NoReturn:
    """Raises Answered for FreeBSD's number."""
    raise Answered(_ERRNOS[freebsd])


def status_of(freebsd: int) -> int:
    """FreeBSD's status word, as this system's os.WIFCONTINUED and similar functions read it."""
    return _CONTINUED_STATUS if freebsd == _CONTINUED_WORD else freebsd
