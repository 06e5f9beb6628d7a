"""What is said of LWPs: who waits in which call, and for whom."""

from __future__ import annotations

from typing import NamedTuple


class Met(NamedTuple):
    """A call at which another LWP could go on."""

    program: str
    call: str
    where: int


class Place(NamedTuple):
    """The place of an LWP, and what is said of it."""

    who: str
    """`PID/LWP`; empty if its process has ended."""
    asked: str
    where: int
    """The address behind the program's call; 0 if it isn't known."""
    program: str
    """The file whose address that is."""
    then: str
    step: int = 0
    """The number of the next step."""


def signal_name(number: int) -> str:
    """FreeBSD's name of a signal."""
    from tracehost import Signal  # the package takes a while to load, and is rarely needed

    return next((signal.name for signal in Signal if signal == number), str(number))


_NAMES = {
    "wait": "wait4",
    "mask": "sigprocmask",
    "action": "sigaction",
    "suspend": "sigsuspend",
    "pending": "sigpending",
    "thr_new": "pthread_create",
    "thr_exit": "pthread_exit",
    "join": "pthread_join",
    "point": "a lock",
    "user": "a call's return",
    "leave": "a call's return",
    "end": "a call's return",
    "hello": "its beginning",
    "fault": "a trap",
    "poke": "a computation",
    "memory": "ptrace",
    "timer": "setitimer",
    "sleep": "nanosleep",
    "exit": "exit",
    "foreign": "a program without the runtime",
    "masked": "ppoll",
    "restore": "a call's return",
    "cancel": "pthread_cancel",
    "timer_left": "getitimer",
    "overrun": "timer_getoverrun",
    "stat": "sysctl",
    "watch": "kevent",
    "unwatch": "kevent",
    "count": "kevent",
    "news": "kevent",
    "undescribed": "close",
    "thr_kill": "raise",
    "yield": "sched_yield",
}


CODES = {
    3: "read",
    4: "write",
    6: "close",
    7: "wait4",
    20: "getpid",
    24: "getuid",
    26: "ptrace",
    29: "pause",
    37: "kill",
    39: "getppid",
    41: "dup",
    53: "sigaltstack",
    59: "execve",
    81: "getpgrp",
    83: "setitimer",
    86: "getitimer",
    90: "dup2",
    93: "select",
    120: "readv",
    121: "writev",
    135: "socketpair",
    202: "sysctl",
    207: "getpgid",
    209: "poll",
    235: "timer_create",
    237: "timer_settime",
    238: "timer_gettime",
    239: "timer_getoverrun",
    240: "nanosleep",
    310: "getsid",
    331: "sched_yield",
    340: "sigprocmask",
    341: "sigsuspend",
    416: "sigaction",
    432: "thr_self",
    433: "raise",
    454: "pthread_join",
    362: "kqueue",
    519: "pdkill",
    520: "pdgetpid",
    522: "pselect",
    542: "pipe",
    545: "ppoll",
    560: "kevent",
    499: "openat",
    552: "fstatat",
    551: "fstat",
    478: "lseek",
    475: "pread",
    476: "pwrite",
    289: "preadv",
    290: "pwritev",
    479: "truncate",
    480: "ftruncate",
    95: "fsync",
    550: "fdatasync",
    131: "flock",
    92: "fcntl",
    54: "ioctl",
    33: "access",
    489: "faccessat",
    12: "chdir",
    13: "fchdir",
    61: "chroot",
    15: "chmod",
    124: "fchmod",
    490: "fchmodat",
    16: "chown",
    123: "fchown",
    254: "lchown",
    491: "fchownat",
    9: "link",
    495: "linkat",
    57: "symlink",
    502: "symlinkat",
    58: "readlink",
    500: "readlinkat",
    10: "unlink",
    503: "unlinkat",
    128: "rename",
    501: "renameat",
    136: "mkdir",
    496: "mkdirat",
    137: "rmdir",
    132: "mkfifo",
    60: "umask",
    477: "mmap",
    73: "munmap",
    74: "mprotect",
    75: "madvise",
    65: "msync",
    203: "mlock",
    204: "munlock",
    97: "socket",
    104: "bind",
    106: "listen",
    30: "accept",
    541: "accept4",
    98: "connect",
    133: "sendto",
    28: "sendmsg",
    27: "recvmsg",
    134: "shutdown",
    32: "getsockname",
    31: "getpeername",
    105: "setsockopt",
    118: "getsockopt",
    25: "geteuid",
    47: "getgid",
    43: "getegid",
    23: "setuid",
    183: "seteuid",
    181: "setgid",
    182: "setegid",
    194: "getrlimit",
    195: "setrlimit",
    117: "getrusage",
    575: "close_range",
    5: "open",
    82: "setpgid",
    147: "setsid",
    326: "getcwd",
    547: "utimensat",
    554: "getdents",
    555: "statfs",
    556: "fstatfs",
}
"""The program's calls, by the numbers of FreeBSD's that the model is given."""


def call_name(asked: str) -> str:
    """The program's call, of what its thread has asked."""
    words = asked.split(" ")
    if words[0] == "enter":
        return words[2]
    if words[0] == "begin":
        return CODES.get(int(words[1]), f"call {words[1]}")
    if words[0] in ("refused", "outside"):
        return words[1]
    if words[0] == "again":
        return words[1]
    return _NAMES.get(words[0], words[0])


class Waiting(NamedTuple):
    """An LWP that waits as a run ends."""

    pid: int
    tid: int
    asked: str
    stopped: bool
    """It waits until its process may run again."""
    tracer: int | None
    reporting: bool
    """Its process has been stopped."""
    holder: int
    """The LWP that holds the mutex it waits for; 0 if nobody does."""


def waiting(lwp: Waiting) -> str:
    """Who waits, and for whom."""
    words = lwp.asked.split()
    name = f"{lwp.pid}/{lwp.tid}"
    if lwp.stopped:
        tracer = lwp.tracer if lwp.tracer is not None else "SIGCONT"
        return f"{name} is stopped, and waits for {tracer}" if lwp.reporting else f"{name} doesn't run"
    if words[0] == "wait":
        return f"{name} waits in wait4 for {'any child' if words[1] == '-1' else words[1]}"
    if words[0] == "join":
        return f"{name} waits for the end of LWP {words[1]}"
    if words[0] == "poke":
        return f"{name} is a program without the runtime, and waits for those that it has started"
    if words[0] == "again" and words[1] == "mutex":
        return f"{name} waits for a mutex that {f'{lwp.pid}/{lwp.holder}' if lwp.holder else 'nobody'} holds"
    if words[0] == "again":
        return f"{name} waits in {words[1]}" + (f" of descriptor {words[2]}" if words[1] in ("read", "write") else "")
    return f"{name} waits in {call_name(lwp.asked)}"
