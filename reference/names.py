"""Names and numbers: signals, errors, flags, events, calls."""

from typing import Final

# tools/format names
SIGNAL_NAMES: Final = {
    1: "HUP", 2: "INT", 3: "QUIT", 4: "ILL", 5: "TRAP", 6: "ABRT", 7: "EMT", 8: "FPE", 9: "KILL", 10: "BUS",
    11: "SEGV", 12: "SYS", 13: "PIPE", 14: "ALRM", 15: "TERM", 16: "URG", 17: "STOP", 18: "TSTP", 19: "CONT",
    20: "CHLD", 21: "TTIN", 22: "TTOU", 23: "IO", 24: "XCPU", 25: "XFSZ", 26: "VTALRM", 27: "PROF", 28: "WINCH",
    29: "INFO", 30: "USR1", 31: "USR2",
}  # fmt: skip
ERRORS: Final = {"EPERM": 1, "ESRCH": 3, "ECHILD": 10, "EBUSY": 16, "EINVAL": 22, "EAGAIN": 35}
FLAGS: Final = (
    "PL_FLAG_SCE", "PL_FLAG_SCX", "PL_FLAG_EXEC", "PL_FLAG_FORKED", "PL_FLAG_CHILD", "PL_FLAG_BORN",
    "PL_FLAG_EXITED", "PL_FLAG_VFORKED", "PL_FLAG_VFORK_DONE",
)  # fmt: skip
EVENTS: Final = ("PTRACE_EXEC", "PTRACE_SCE", "PTRACE_SCX", "PTRACE_FORK", "PTRACE_LWP", "PTRACE_VFORK")
WITHOUT_DATA: Final = ("PT_TRACE_ME", "PT_SET_EVENT_MASK")
WITH_DATA: Final = (
    "PT_ATTACH", "PT_CONTINUE", "PT_STEP", "PT_TO_SCE", "PT_TO_SCX", "PT_SYSCALL", "PT_DETACH", "PT_KILL",
    "PT_SUSPEND", "PT_RESUME", "PT_GET_EVENT_MASK", "PT_FOLLOW_FORK", "PT_LWP_EVENTS", "PT_LWPINFO",
    "PT_GETNUMLWPS", "PT_GETLWPLIST",
)  # fmt: skip
REQUESTS: Final = (*WITHOUT_DATA, *WITH_DATA)
PASSING: Final = ("PT_CONTINUE", "PT_STEP", "PT_DETACH", "PT_TO_SCE", "PT_TO_SCX", "PT_SYSCALL")
CALLS: Final = ("exit", "fork", "vfork", "exec", "thr_new", "thr_exit", "other")
ACTS: Final = ("compute", "raise", "block", "enter", "leave")
OPTIONS: Final = ("WNOHANG", "WUNTRACED", "WCONTINUED")
ACTIONS: Final = ("default", "ignore", "catch")
DECISIONS: Final = ("decline", "leave", "continue", "detach", "kill")
FIRST_USER: Final = 1001
LAST_USER: Final = 1064
LAST_SIGNAL: Final = 31
MAX_PROCESSES: Final = 250
MAX_LWPS: Final = 1000
MAX_HANDLERS: Final = 64
MAX_RULES: Final = 16
FIRST_PROCESS: Final = 1000
PROCESS_NUMBERS: Final = 1000
LAST_PROCESS: Final = 99999
FIRST_LWP: Final = 100000
LWP_NUMBERS: Final = 4000
# end

TRAP, KILL, STOP, CONT, CHLD = 5, 9, 17, 19, 20
STOPPING: Final = frozenset({17, 18, 21, 22})
DISCARDED: Final = frozenset({16, 19, 20, 23, 28, 29})
UNBLOCKABLE: Final = frozenset({KILL, STOP})

SCE, SCX, EXECED, FORKED, CHILD, BORN, EXITED, VFORKED, VFORK_DONE = FLAGS

ON_EXEC, ON_ENTRY, ON_EXIT, ON_FORK, ON_LWP, ON_VFORK = EVENTS
FIRST_MASK: Final = frozenset({ON_EXEC})

CALL_CODES: Final = {"exit": 1, "fork": 2, "exec": 59, "vfork": 66, "thr_exit": 431, "thr_new": 455}
