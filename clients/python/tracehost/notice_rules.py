"""What an author of a debugger may want to look at: rules. `tools/format` writes them from format/notices.toml."""

from __future__ import annotations

from collections.abc import Callable, Mapping
from typing import Any, NamedTuple

Facts = Mapping[str, Any]


class Rule(NamedTuple):
    """A rule, and what it says if it holds."""

    name: str
    kind: str
    """``wrong``, or ``open`` at the end of a session: the debugger may still do it."""
    of: str
    """What it is asked of."""
    at: str
    """The fact that is the step to look at; "" for the step that it is asked of."""
    words: str
    holds: Callable[[Facts], Any]


# fmt: off
# tools/format rules
RULES = (
    Rule("signal_dropped", "wrong", "go_on", "", "{request} of {pid} drops its {stop_signal}", lambda f: f["stop_signal"] != 0 and f["passed_signal"] == 0 and f["stop_signal"] != 17 and f["stop_signal"] != 5),
    Rule("signal_replaced", "wrong", "go_on", "", "{request} of {pid} passes {passed_signal} for its {stop_signal}", lambda f: f["stop_signal"] != 0 and f["passed_signal"] != 0 and f["passed_signal"] != f["stop_signal"]),
    Rule("trap_left", "wrong", "go_on", "", "{pid} is detached with a pending SIGTRAP", lambda f: f["is_detach"] and f["has_trap"]),
    Rule("all_suspended", "wrong", "go_on", "", "{request} of {pid} lets nothing run: all its LWPs are suspended", lambda f: not f["is_detach"] and f["state"] == 0 and f["running"] == 0),
    Rule("after_the_end", "wrong", "refusal", "", "{request} of {pid}, whose end step {ended_at} has reported", lambda f: f["ended_at"] != 0 and not f["is_wait"] and not f["is_attach"]),
    Rule("attach_failed", "wrong", "refusal", "", "{request} of {pid}, to which {caller} hasn't attached: step {failed_at} failed", lambda f: f["failed_at"] != 0 and not f["is_attach"] and not f["is_kill"]),
    Rule("of_another_user", "wrong", "refusal", "", "{request} of {pid}, which is a number of user {owner}", lambda f: f["owner"] != 0),
    Rule("before_the_wait", "wrong", "refusal", "", "{request} of {pid} comes before the wait that reports its {stop_signal}", lambda f: f["is_tracee"] and not f["is_wait"] and not f["is_kill"] and not f["is_attach"] and f["state"] == 1 and not f["is_reported"]),
    Rule("while_it_runs", "wrong", "refusal", "", "{request} of {pid}, which runs since step {went_on_at}", lambda f: f["is_tracee"] and not f["is_wait"] and not f["is_kill"] and not f["is_attach"] and f["state"] == 0 and not f["has_kill"] and f["went_on_at"] != 0),
    Rule("debugger_ends", "wrong", "debugger", "", "{pid} ends while it traces {tracee}", lambda f: f["tracee"] != 0),
    Rule("vfork_deadlock", "wrong", "process", "missed_at", "{waiter} waits only for {parent}, which waits for its vfork's child {pid}, and no wait reports the {stop_signal} of {pid}", lambda f: f["state"] == 1 and not f["is_reported"] and f["missed_at"] != 0),
    Rule("stop_not_reported", "open", "process", "since", "no wait of {waiter} reports this {stop_signal} of {pid}", lambda f: f["is_tracee"] and f["state"] == 1 and not f["is_reported"] and f["missed_at"] == 0 and not f["is_new"]),
    Rule("stop_lost", "open", "process", "vain_at", "{waiter} waits, but {pid} is still in the stop that it reported", lambda f: f["state"] == 1 and f["is_reported"] and f["vain_at"] != 0),
    Rule("stop_not_left", "open", "process", "reported_at", "{waiter} hasn't let {pid} go on from this {stop_signal}", lambda f: f["is_tracee"] and f["state"] == 1 and f["is_reported"] and f["vain_at"] == 0 and not f["is_new"]),
    Rule("end_not_reported", "open", "process", "since", "no wait of {waiter} reports the end of {pid}", lambda f: f["state"] == 3 and f["waiter"] != 0 and not f["is_new"]),
    Rule("step_of_the_process", "open", "process", "stepped_at", "PT_STEP of {pid} steps LWP {stepping}, which had reported the stop; its other LWPs run freely", lambda f: f["stepped_at"] != 0 and f["state"] != 3),
    Rule("vfork_waits", "open", "lwp", "since", "LWP {lwp} waits for its vfork's child {child}, which is in a stop: {tracer} has to let it go on", lambda f: f["child"] != 0 and f["child_state"] == 1),
    Rule("lwp_suspended", "open", "lwp", "suspended_at", "LWP {lwp} is still suspended while others of {pid} run", lambda f: f["suspended_at"] != 0),
)
# end
