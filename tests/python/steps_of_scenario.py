"""The steps of a scenario in the form of `asked` in a trace, read from the scenario by docs/FORMAT.md.

The keys are in the order of the tables. A key whose value is that of a missing key is left out, and WNOHANG too.
"""

from collections.abc import Callable
from typing import Any

Object = dict[str, Any]

OPTIONS = ["WUNTRACED", "WCONTINUED"]
EVENTS = ["PTRACE_EXEC", "PTRACE_SCE", "PTRACE_SCX", "PTRACE_FORK", "PTRACE_LWP", "PTRACE_VFORK"]
FLAGS = [f"PL_FLAG_{name}" for name in ("SCE", "SCX", "EXEC", "FORKED", "CHILD", "BORN", "EXITED", "VFORKED", "VFORK_DONE")]
# the keys of each op after `op`, in order; those of a request, an act and a call follow
KEYS: dict[str, list[str]] = {
    "spawn": [],
    "ptrace": ["caller", "request"],
    "wait4": ["caller", "which", "options"],
    "kill": ["caller", "which", "signal"],
    "sigaction": ["caller", "signal", "action"],
    "list": ["caller"],
    "install": ["caller", "rules"],
    "handle": ["caller"],
    "turn": ["lwp", "act"],
}
REQUEST_KEYS: dict[str, list[str]] = {"PT_TRACE_ME": [], "PT_SET_EVENT_MASK": ["target", "mask"]}
ACT_KEYS: dict[str, list[str]] = {"raise": ["signal"], "block": ["set"], "enter": ["call", "code"]}


def in_order(names: list[str]) -> Callable[[list[str]], list[str]]:
    return lambda given: [name for name in names if name in given]


def events(given: list[str]) -> list[str]:
    return in_order(EVENTS)([*given, *(["PTRACE_SCE", "PTRACE_SCX"] if "PTRACE_SYSCALL" in given else [])])


def rule(given: Object) -> Object:
    forms = {
        "signal": given.get("signal"),
        "flags": in_order(FLAGS)(given.get("flags", [])),
        "decision": given["decision"],
        "pass": given.get("pass"),
    }
    return {key: value for key, value in forms.items() if value}


# a value whose key may be missing, in the order of its form; empty if it is that of a missing key
OPTIONAL: dict[str, Callable[[Any], Any]] = {"options": in_order(OPTIONS), "data": lambda data: data}
FORMS: dict[str, Callable[[Any], Any]] = {
    "mask": events,
    "set": lambda given: sorted(set(given)),
    "rules": lambda given: [rule(one) for one in given],
}


def asked(step: Object) -> Object:
    """The step without its user."""
    keys = list(KEYS[step["op"]])
    if "request" in step:
        keys += REQUEST_KEYS.get(step["request"], ["target", "data"])
    keys += ACT_KEYS.get(step.get("act", ""), [])
    made: Object = {"op": step["op"]}
    for key in keys:
        if key in OPTIONAL:
            value = OPTIONAL[key](step[key]) if key in step else None
            if value:
                made[key] = value
        elif key in step:
            made[key] = FORMS[key](step[key]) if key in FORMS else step[key]
    return made
