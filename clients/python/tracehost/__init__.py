"""A client of tracehost: FreeBSD's ptrace(2), wait(2), sigaction(2) and kill(2), answered by a model.

    from tracehost import Host, Request

    with Host(record="session.json") as host:
        user = host.user(1001)
        debugger = user.process(user.spawn())
        target = user.spawn()
        debugger.ptrace(Request.PT_ATTACH, target.pid)
        print(debugger.wait4())                                     # Waited(pid=1001, status=4479)
        print(debugger.ptrace(Request.PT_LWPINFO, target.pid))      # LwpInfo(pl_lwpid=100001, ..)

A `Host` is a session of the library libtracehost.so, in this process. A `User` makes the steps that have no caller: a new
process, the turn of an LWP. A `Process` is a caller, and has the calls of the manual pages. A call returns what the
manual page says, or raises:

- `OSError` with the host's number of the errno that the model answers by name: ESRCH is `ProcessLookupError`,
  EPERM `PermissionError`, ECHILD `ChildProcessError` and EAGAIN `BlockingIOError`;
- `Held` if the caller, or the LWP at its turn, doesn't run;
- `RefusedStep` if what was sent is no step (a user outside 1001 to 1064, a 17th rule), with the reason and the line;
- `SessionClosed` after `Host.close`, `RecordingFailed` if a step can't be recorded, and `SessionBusy` for a call from a
  signal handler that has interrupted another call.

``tracehost session.json`` prints the lines of the recorded session again, and `view` makes a page that shows it.
``block=True`` lets `wait4`, `handle` and `turn` sleep until another thread's step has brought news; `Host.run` runs
functions by turns, so the steps are the same in every run. `User.view` shows a user's rows. The module
`tracehost.pytest_plugin` has a fixture for pytest, `tracehost.strategies` and `tracehost.stateful` are for Hypothesis.
``tracehost-debug`` is a prompt, which goes through a session in time.

Signals and the codes of system calls have FreeBSD's numbers, whatever the machine. Names are those of <sys/ptrace.h>,
<sys/signal.h> and <sys/wait.h>. docs/FORMAT.md describes the meaning of each call, and the protocol.
"""

from __future__ import annotations

from .errors import Held, RecordingFailed, RefusedStep, SessionBusy, SessionClosed
from .host import Host, Process, User
from .names import Action, Call, Decision, EventMask, LwpEvent, Request, Signal, StopFlag, WaitOption
from .replies import Caught, Ended, Handled, LwpInfo, New, Stopped, Turned, Waited
from .steps import Act, Block, Compute, Enter, Leave, Raise, Rule

TYPE_CHECKING = False  # as typing has it, which takes long to import
if TYPE_CHECKING:
    from .naming import describe
    from .rows import DueStop, LwpMode, LwpRow, ProcessRow, ProcessState, View
    from .viewing import view

# tools/format version
__version__ = "0.24.0"
# end

__all__ = [
    "Act", "Action", "Block", "Call", "Caught", "Compute", "Decision", "DueStop", "Ended", "Enter", "EventMask",
    "Handled", "Held", "Host", "Leave", "LwpEvent", "LwpInfo", "LwpMode", "LwpRow", "New", "Process", "ProcessRow",
    "ProcessState", "Raise", "RecordingFailed", "RefusedStep", "Request", "Rule",
    "SessionBusy", "SessionClosed", "Signal", "StopFlag", "Stopped", "Turned", "User", "View", "WaitOption", "Waited", "describe", "view",
]  # fmt: skip

# modules that most tests need not import
_LATER = {
    "describe": "naming", "view": "viewing",
    **dict.fromkeys(("DueStop", "LwpMode", "LwpRow", "ProcessRow", "ProcessState", "View"), "rows"),
}  # fmt: skip


def __dir__() -> list[str]:
    return __all__


def __getattr__(name: str) -> object:
    if name not in _LATER:
        raise AttributeError(f"module {__name__!r} has no attribute {name!r}")
    from importlib import import_module

    globals()[name] = getattr(import_module(f".{_LATER[name]}", __name__), name)
    return globals()[name]
