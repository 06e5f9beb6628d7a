"""Why a step is refused: the conditions of each call, in order. `tools/format` writes them from format/refusals.toml."""

from __future__ import annotations

from collections.abc import Callable
from typing import TYPE_CHECKING, NamedTuple

if TYPE_CHECKING:
    from .refusals import Asked, Rows


class Condition(NamedTuple):
    """A condition, and what is answered if it is the first that holds."""

    name: str
    answer: str
    """An errno, or ``held``."""
    words: str
    """For `str.format` with `Asked.word`."""
    possible: Callable[[Asked], bool]
    """What the arguments say of it."""
    holds: Callable[[Asked, Rows], bool]
    unseen: str = ""
    """Why the rows don't show it."""
    never: str = ""
    """Why no line meets it."""


class Call(NamedTuple):
    """A call, and its conditions in order."""

    op: str
    request: int
    """-1 for any."""
    text: str
    order: tuple[str, ...]


# fmt: off
# tools/format sets
SIGNAL_REQUESTS = (7, 9, 20, 21, 22, 11)
DATA_REQUESTS = (7, 9, 20, 21, 22, 11, 23, 24, 15)
# end

# tools/format conditions
CONDITIONS = (
    Condition("caller_gone", "ESRCH", "{caller} isn't a live process of user {user}", lambda a: True, lambda a, r: not r.is_live(a.caller)),
    Condition("caller_in_trace_stop", "held", "{caller} is in a trace stop", lambda a: True, lambda a, r: r.state(a.caller) == 1),
    Condition("caller_in_job_stop", "held", "a stop signal has stopped {caller}", lambda a: True, lambda a, r: r.state(a.caller) == 2),
    Condition("no_number_of_lwp", "ESRCH", "{lwp} is no LWP, whose numbers begin at 100000", lambda a: a.lwp <= 99999, lambda a, r: True),
    Condition("lwp_gone", "ESRCH", "user {user} has no LWP {lwp}", lambda a: a.lwp > 99999, lambda a, r: r.owner(a.lwp) == 0),
    Condition("lwp_in_trace_stop", "held", "the process of LWP {lwp} is in a trace stop", lambda a: True, lambda a, r: r.state(r.owner(a.lwp)) == 1),
    Condition("lwp_in_job_stop", "held", "a stop signal has stopped the process of LWP {lwp}", lambda a: True, lambda a, r: r.state(r.owner(a.lwp)) == 2),
    Condition("lwp_suspended", "held", "PT_SUSPEND holds LWP {lwp}", lambda a: True, lambda a, r: r.is_suspended(a.lwp)),
    Condition("lwp_waits", "held", "LWP {lwp} waits for the child of its vfork", lambda a: True, lambda a, r: r.mode(a.lwp) == 2),
    Condition("no_groups", "EINVAL", "which is {which}, and there are no process groups", lambda a: a.which == 0 or a.which < -1, lambda a, r: True),
    Condition("no_child", "ECHILD", "{caller} has no child and traces no process", lambda a: a.which == -1, lambda a, r: not r.has_child(a.caller, -1)),
    Condition("no_child_of_number", "ECHILD", "{which} is neither a child of {caller} nor traced by it", lambda a: a.which != -1, lambda a, r: not r.has_child(a.caller, a.which)),
    Condition("no_signal_to_post", "EINVAL", "{signal} is no signal", lambda a: not (0 <= a.signal and a.signal <= 31), lambda a, r: True),
    Condition("no_other_process", "ESRCH", "user {user} has no process except {caller}", lambda a: a.which == -1, lambda a, r: r.processes() == 1),
    Condition("process_gone", "ESRCH", "user {user} has no process {which}", lambda a: a.which != -1, lambda a, r: a.which > 99999 or r.process_of(a.which) == 0),
    Condition("no_signal", "EINVAL", "{signal} is no signal", lambda a: not (1 <= a.signal and a.signal <= 31), lambda a, r: True),
    Condition("fixed_signal", "EINVAL", "{signal} can be neither caught nor ignored", lambda a: (a.signal == 9 or a.signal == 17) and a.action != 0, lambda a, r: True),
    Condition("most_handlers", "EAGAIN", "user {user} has 64 stop handlers", lambda a: True, lambda a, r: True, unseen="rows have no stop handlers"),
    Condition("in_no_call", "EINVAL", "LWP {lwp} is in no system call", lambda a: a.act == 4, lambda a, r: r.mode(a.lwp) != 1),
    Condition("in_a_call", "EINVAL", "LWP {lwp} is in a system call, which it has to leave first", lambda a: a.act != 4, lambda a, r: r.mode(a.lwp) == 1),
    Condition("no_signal_to_raise", "EINVAL", "{signal} is no signal", lambda a: a.act == 1 and not (1 <= a.signal and a.signal <= 31), lambda a, r: True),
    Condition("most_processes", "EAGAIN", "user {user} has 250 processes", lambda a: a.lwp == 0 or a.act == 4, lambda a, r: r.processes() >= 250 and (a.lwp == 0 or r.call_of(a.lwp) == 0 or r.call_of(a.lwp) == 1)),
    Condition("most_lwps", "EAGAIN", "user {user} has 1000 LWPs", lambda a: a.lwp == 0 or a.act == 4, lambda a, r: r.lwps() >= 1000 and (a.lwp == 0 or r.call_of(a.lwp) == 0 or r.call_of(a.lwp) == 1 or r.call_of(a.lwp) == 3)),
    Condition("no_memory", "ENOMEM", "no memory is left", lambda a: True, lambda a, r: True, unseen="rows don't show what memory is left", never="memory has to run out"),
    Condition("caller_traced", "EBUSY", "{caller} is traced already", lambda a: True, lambda a, r: r.tracer(a.caller) != 0),
    Condition("parent_is_1", "EPERM", "the parent of {caller} is process 1", lambda a: True, lambda a, r: r.parent(a.caller) == 1),
    Condition("traces_its_parent", "EINVAL", "{caller} traces its parent, directly or through others", lambda a: True, lambda a, r: r.traces(a.caller, r.parent(a.caller))),
    Condition("target_is_0", "ESRCH", "the target is 0, which is no process", lambda a: a.target == 0, lambda a, r: True),
    Condition("target_process_gone", "ESRCH", "user {user} has no process {target}", lambda a: a.target != 0 and a.target <= 99999, lambda a, r: r.process_of(a.target) == 0),
    Condition("target_lwp_gone", "ESRCH", "user {user} has no LWP {target}", lambda a: a.target > 99999, lambda a, r: r.process_of(a.target) == 0),
    Condition("target_ended", "ESRCH", "{target} has ended", lambda a: True, lambda a, r: r.state(r.process_of(a.target)) == 3),
    Condition("traces_itself", "EINVAL", "a process can't trace itself", lambda a: True, lambda a, r: r.process_of(a.target) == a.caller),
    Condition("traced_already", "EBUSY", "{target} is traced already", lambda a: True, lambda a, r: r.tracer(r.process_of(a.target)) != 0),
    Condition("traces_the_caller", "EINVAL", "{target} traces {caller}, directly or through others", lambda a: True, lambda a, r: r.traces(r.process_of(a.target), a.caller)),
    Condition("not_traced", "EPERM", "{target} isn't traced", lambda a: True, lambda a, r: r.tracer(r.process_of(a.target)) == 0),
    Condition("traced_by_another", "EBUSY", "another process traces {target}", lambda a: True, lambda a, r: r.tracer(r.process_of(a.target)) != a.caller),
    Condition("in_no_stop", "EBUSY", "{target} is in no trace stop", lambda a: True, lambda a, r: r.state(r.process_of(a.target)) != 1),
    Condition("stop_not_told", "EBUSY", "no wait has reported the stop of {target}", lambda a: True, lambda a, r: not r.was_told(r.process_of(a.target))),
    Condition("no_signal_to_pass", "EINVAL", "{signal} is no signal", lambda a: (a.request == 7 or a.request == 9 or a.request == 20 or a.request == 21 or a.request == 22 or a.request == 11) and not (0 <= a.data and a.data <= 31), lambda a, r: True),
    Condition("no_count", "EINVAL", "data is 0, and has to be how many LWPs to list", lambda a: a.request == 15 and a.data == 0, lambda a, r: True),
    Condition("unnamed_events", "EINVAL", "the mask's {unnamed} is no event", lambda a: a.request == 26 and a.unnamed != 0, lambda a, r: True, never="a line has names of events"),
)
# end

# tools/format calls
CALLS = (
    Call("spawn", -1, "spawn() by user {user}", ("most_processes", "most_lwps", "no_memory",)),
    Call("list", -1, "list() by {caller}", ("caller_gone", "caller_in_trace_stop", "caller_in_job_stop", "no_memory",)),
    Call("wait4", -1, "wait4({which}) by {caller}", ("caller_gone", "caller_in_trace_stop", "caller_in_job_stop", "no_groups", "no_child", "no_child_of_number",)),
    Call("handle", -1, "handle() by {caller}", ("caller_gone", "caller_in_trace_stop", "caller_in_job_stop", "no_child",)),
    Call("kill", -1, "kill({which}, {signal}) by {caller}", ("caller_gone", "caller_in_trace_stop", "caller_in_job_stop", "no_signal_to_post", "no_groups", "no_other_process", "process_gone",)),
    Call("sigaction", -1, "sigaction({signal}, {action}) by {caller}", ("caller_gone", "caller_in_trace_stop", "caller_in_job_stop", "no_signal", "fixed_signal",)),
    Call("install", -1, "install({rules}) by {caller}", ("caller_gone", "caller_in_trace_stop", "caller_in_job_stop", "most_handlers", "no_memory",)),
    Call("turn", -1, "turn({lwp}, {act}) by user {user}", ("no_number_of_lwp", "lwp_gone", "lwp_in_trace_stop", "lwp_in_job_stop", "lwp_suspended", "lwp_waits", "in_no_call", "in_a_call", "no_signal_to_raise", "most_processes", "most_lwps", "no_memory",)),
    Call("ptrace", 0, "ptrace(PT_TRACE_ME) by {caller}", ("caller_gone", "caller_in_trace_stop", "caller_in_job_stop", "caller_traced", "parent_is_1", "traces_its_parent",)),
    Call("ptrace", 10, "ptrace({request}, {target}{data}) by {caller}", ("caller_gone", "caller_in_trace_stop", "caller_in_job_stop", "target_is_0", "target_process_gone", "target_lwp_gone", "target_ended", "traces_itself", "traced_already", "traces_the_caller",)),
    Call("ptrace", -1, "ptrace({request}, {target}{data}) by {caller}", ("caller_gone", "caller_in_trace_stop", "caller_in_job_stop", "target_is_0", "target_process_gone", "target_lwp_gone", "target_ended", "not_traced", "traced_by_another", "in_no_stop", "stop_not_told", "no_signal_to_pass", "no_count", "unnamed_events", "no_memory",)),
)
# end
