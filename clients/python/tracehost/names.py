"""Names and numbers: those of <sys/ptrace.h>, <sys/signal.h> and <sys/wait.h>, and how a line has them."""

from __future__ import annotations

import enum
from collections.abc import Mapping


# tools/format requests
class Request(enum.IntEnum):
    """The requests of ptrace(2), with the numbers of <sys/ptrace.h>."""

    PT_TRACE_ME = 0
    PT_CONTINUE = 7
    PT_KILL = 8
    PT_STEP = 9
    PT_ATTACH = 10
    PT_DETACH = 11
    PT_LWPINFO = 13
    PT_GETNUMLWPS = 14
    PT_GETLWPLIST = 15
    PT_SUSPEND = 18
    PT_RESUME = 19
    PT_TO_SCE = 20
    PT_TO_SCX = 21
    PT_SYSCALL = 22
    PT_FOLLOW_FORK = 23
    PT_LWP_EVENTS = 24
    PT_GET_EVENT_MASK = 25
    PT_SET_EVENT_MASK = 26


# end


# tools/format flags
class EventMask(enum.IntFlag):
    """The events that a traced process stops for, with the bits of <sys/ptrace.h>."""

    PTRACE_EXEC = 0x0001
    PTRACE_SCE = 0x0002
    PTRACE_SCX = 0x0004
    PTRACE_FORK = 0x0008
    PTRACE_LWP = 0x0010
    PTRACE_VFORK = 0x0020
    PTRACE_SYSCALL = PTRACE_SCE | PTRACE_SCX


class StopFlag(enum.IntFlag):
    """What a stop is about: ``pl_flags``, with the bits of <sys/ptrace.h>."""

    PL_FLAG_SCE = 0x0004
    PL_FLAG_SCX = 0x0008
    PL_FLAG_EXEC = 0x0010
    PL_FLAG_FORKED = 0x0040
    PL_FLAG_CHILD = 0x0080
    PL_FLAG_BORN = 0x0100
    PL_FLAG_EXITED = 0x0200
    PL_FLAG_VFORKED = 0x0400
    PL_FLAG_VFORK_DONE = 0x0800


# end


class LwpEvent(enum.IntEnum):
    """``pl_event``: whether this LWP reports the stop."""

    PL_EVENT_NONE = 0
    PL_EVENT_SIGNAL = 1


# tools/format options and signals
class WaitOption(enum.IntFlag):
    """Options of wait4(2), with the bits of <sys/wait.h>. No wait blocks, so WNOHANG changes nothing."""

    WNOHANG = 1
    WUNTRACED = 2
    WCONTINUED = 4


class Signal(enum.IntEnum):
    """FreeBSD's signals, which `signal.Signals` of another system numbers differently."""

    SIGHUP = 1
    SIGINT = 2
    SIGQUIT = 3
    SIGILL = 4
    SIGTRAP = 5
    SIGABRT = 6
    SIGEMT = 7
    SIGFPE = 8
    SIGKILL = 9
    SIGBUS = 10
    SIGSEGV = 11
    SIGSYS = 12
    SIGPIPE = 13
    SIGALRM = 14
    SIGTERM = 15
    SIGURG = 16
    SIGSTOP = 17
    SIGTSTP = 18
    SIGCONT = 19
    SIGCHLD = 20
    SIGTTIN = 21
    SIGTTOU = 22
    SIGIO = 23
    SIGXCPU = 24
    SIGXFSZ = 25
    SIGVTALRM = 26
    SIGPROF = 27
    SIGWINCH = 28
    SIGINFO = 29
    SIGUSR1 = 30
    SIGUSR2 = 31


# end


# tools/format names
class Action(enum.Enum):
    """What a process does with a signal, as ``sa_handler`` of sigaction(2) says it."""

    SIG_DFL = "default"
    SIG_IGN = "ignore"
    CATCH = "catch"


class Call(enum.Enum):
    """A system call that an LWP enters."""

    EXIT = "exit"
    FORK = "fork"
    VFORK = "vfork"
    EXEC = "exec"
    THR_NEW = "thr_new"
    THR_EXIT = "thr_exit"
    OTHER = "other"


class Decision(enum.Enum):
    """What a stop handler does with a stop."""

    DECLINE = "decline"
    LEAVE = "leave"
    CONTINUE = "continue"
    DETACH = "detach"
    KILL = "kill"


# end


# limits of a user, and first and last numbers
# tools/format limits
FIRST_USER = 1001
LAST_USER = 1064
LAST_SIGNAL = 31
MOST_PROCESSES = 250
MOST_LWPS = 1000
MOST_HANDLERS = 64
MOST_RULES = 16
FIRST_PROCESS = 1000
PROCESS_NUMBERS = 1000
LAST_PROCESS = 99999
FIRST_LWP = 100000
LWP_NUMBERS = 4000
# end


# the ops that a process makes
# tools/format ops
CALLER_OPS = ("ptrace", "wait4", "kill", "sigaction", "list", "install", "handle")
# end


# the printed names, one bit each
EVENTS: dict[str, EventMask] = {e.name: e for e in EventMask if e.name is not None and e & (e - 1) == 0}
STOP_FLAGS: dict[str, StopFlag] = {f.name: f for f in StopFlag if f.name is not None}
OPTIONS: dict[str, WaitOption] = {o.name: o for o in WaitOption if o.name is not None}
ALL_EVENTS = sum(int(event) for event in EVENTS.values())


def names_of(flags: int, names: Mapping[str, int]) -> str:
    """The flags' names, as an array of JSON."""
    rest = int(flags) & ~sum(int(bit) for bit in names.values())
    if rest:
        raise ValueError(f"no flag has the bits {rest:#x}")
    return "[" + ",".join(f'"{name}"' for name, bit in names.items() if flags & bit) + "]"
