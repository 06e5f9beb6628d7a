"""The help of the prompt: a line or two for each name. docs/FORMAT.md has all rules."""

from __future__ import annotations

import difflib
import errno
import os

from .names import MOST_HANDLERS, MOST_LWPS, MOST_PROCESSES, Signal

# tools/format usage
_STEPS = """\
  spawn                                      ptrace PID REQUEST TARGET [DATA]
  wait4 PID [PID] [OPTION ..]                kill PID PID SIGNAL
  sigaction PID SIGNAL default|ignore|catch  list PID
  install PID RULE, ..                       handle PID
  turn LWP compute|leave                     turn LWP enter CALL [CODE]
  turn LWP raise SIGNAL                      turn LWP block [SIGNAL ..]"""
# end
_GENERAL = f"""\
Steps (PID, LWP: a number; SIGNAL: a name or a number; [..]: may be left out):
{_STEPS}
  a step of docs/FORMAT.md as JSON
The first PID is the process that makes the call. `1002: spawn` is a step of user 1002.
In time: next [N], back [N], goto N, continue [WHAT], reverse [WHAT] (to a stop, error, held, a row's change, a text).
What is there: list, state [UID], why NUMBER [FIELD]. A step in the past: branches, branch N, compare [N], undo [N].
The session: user UID, save FILE, view [PAGE], quit.
help NAME: a command, an op, a request, an act, a call, a signal or an errno. Tab completes names and numbers."""

_PASS = "DATA is a signal to pass on, or 0. It ends the target if that is its default action; others have no effect."
# tools/format help
_NAMES = {
    "spawn": "Makes a process with one LWP, and process 1 as its parent.",
    "ptrace": "ptrace PID REQUEST TARGET [DATA]: a request of a debugger, as ptrace(2). `help PT_ATTACH` and so on.",
    "wait4": "wait4 PID [PID] [OPTION ..]: collects a status of a child or tracee, as wait4(2). It doesn't block here.",
    "kill": "kill PID PID SIGNAL: posts a signal, 0 for none; with -1 to all others of the user.",
    "sigaction": "sigaction PID SIGNAL default|ignore|catch: what the process does with a signal.",
    "install": "install PID RULE, ..: a stop handler. A rule is [SIGNAL] [FLAG ..] DECISION [PASS].",
    "handle": "handle PID: waits for any child, and gives a trace stop to the process's handlers.",
    "turn": "turn LWP ACT: an LWP runs. It meets a pending signal, or does the act.",
    "compute": "The LWP runs in user mode.",
    "raise": "turn LWP raise SIGNAL: the LWP posts a signal to itself, which it meets at its next turn.",
    "block": "turn LWP block [SIGNAL ..]: blocks these signals, and no others.",
    "enter": "turn LWP enter CALL [CODE]: enters a system call. CODE is `exit`'s exit code, or `other`'s number.",
    "leave": "The call that the LWP is in does its work, and is left.",
    "exit": "Ends the process with CODE, 0 to 255.",
    "fork": "Makes a child. Under PTRACE_FORK it is traced, and both stop.",
    "vfork": "Makes a child; the LWP waits until it ends or does an exec.",
    "exec": "Removes the other LWPs. Caught signals get the default action.",
    "thr_new": "Makes an LWP of the process.",
    "thr_exit": "Removes the LWP; the last one ends the process.",
    "other": "A system call with the number CODE, which does nothing.",
    "PT_TRACE_ME": "ptrace PID PT_TRACE_ME: the parent traces the caller.",
    "PT_ATTACH": "The caller traces the target. Its first LWP stops with SIGSTOP.",
    "PT_CONTINUE": f"Resumes the target. {_PASS}",
    "PT_STEP": f"Resumes the target; an LWP stops after its next compute. {_PASS}",
    "PT_TO_SCE": f"Resumes the target, which stops at entries of system calls from now on. {_PASS}",
    "PT_TO_SCX": f"Resumes the target, which stops at exits of system calls from now on. {_PASS}",
    "PT_SYSCALL": f"Resumes the target, which stops at entries and exits of system calls from now on. {_PASS}",
    "PT_DETACH": f"Resumes the target, which is traced no more. {_PASS}",
    "PT_KILL": "SIGKILL ends the target.",
    "PT_SUSPEND": "An LWP gets no turns until PT_RESUME.",
    "PT_RESUME": "An LWP gets turns again.",
    "PT_SET_EVENT_MASK": "ptrace PID PT_SET_EVENT_MASK TARGET [EVENT ..]: the events that the target stops for.",
    "PT_GET_EVENT_MASK": "Reads the events that the target stops for.",
    "PT_FOLLOW_FORK": "Sets PTRACE_FORK, or clears it if DATA is 0.",
    "PT_LWP_EVENTS": "Sets PTRACE_LWP, or clears it if DATA is 0.",
    "PT_LWPINFO": "Describes an LWP: its stop, blocked and pending signals, child and system call.",
    "PT_GETNUMLWPS": "Counts the LWPs of the process.",
    "PT_GETLWPLIST": "Lists the first DATA LWPs of the process, in order of birth.",
}
# end
_HELP = {
    **_NAMES,
    "held": "The caller or the LWP doesn't run: stopped, suspended, or waiting for its vfork's child.",
}
_ERRNOS = {
    "EPERM": "the target isn't traced, or for PT_TRACE_ME the parent is process 1",
    "ESRCH": "the user has no such process or LWP",
    "ECHILD": "the caller has no child and traces no process that the wait names",
    "EBUSY": "another process traces the target, or its stop isn't collected yet, or it is traced already",
    "EINVAL": "a number is out of range, the act doesn't go with the LWP's call, or tracers would make a cycle",
    "EAGAIN": f"the user has {MOST_PROCESSES} processes, {MOST_LWPS} LWPs or {MOST_HANDLERS} handlers",
}
_DISCARDED = {"SIGURG", "SIGCONT", "SIGCHLD", "SIGIO", "SIGWINCH", "SIGINFO"}
_STOPS = {"SIGSTOP", "SIGTSTP", "SIGTTIN", "SIGTTOU"}


def topics() -> list[str]:
    """The names that have help."""
    return [*_HELP, *_ERRNOS, *Signal.__members__]


def explain(name: str) -> str:
    """The help for a name; the general help for ""."""
    if not name:
        return _GENERAL
    if name in _HELP:
        return _HELP[name]
    if name in _ERRNOS:
        return f"{os.strerror(getattr(errno, name))}: {_ERRNOS[name]}."
    if name in Signal.__members__:
        default = "stops" if name in _STOPS else "is discarded by" if name in _DISCARDED else "ends"
        return f"Signal {int(Signal[name])}, which {default} a process by default."
    near = difflib.get_close_matches(name, topics(), 1)
    return f"No help for {name}{f'; did you mean {near[0]}?' if near else '.'} `help` lists the steps."
