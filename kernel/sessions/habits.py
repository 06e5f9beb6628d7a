"""Steps to which a known habit of a kernel would put an end: they are made now and then, not to end most sessions early."""

from __future__ import annotations

from tracehost.step_words import Step

from .model import Process, Rows

# signals that are discarded by default on FreeBSD
DISCARDED = {16: "SIGURG", 19: "SIGCONT", 20: "SIGCHLD", 23: "SIGIO", 28: "SIGWINCH"}
_SIGIO = 23


def none(rows: Rows, step: Step) -> str:
    """No habit of FreeBSD was seen yet."""
    return ""


def on_linux(rows: Rows, step: Step) -> str:
    """What the habit is about; "" for none."""
    if step["op"] == "ptrace":
        return _requests(rows, step)
    if step["op"] == "kill" and step["which"] == 0:
        return "its own process group"
    named: list[Process] = []
    if step["op"] == "kill":
        named = [row for row in rows.processes.values() if step["which"] in (-1, row["pid"])]
    elif step.get("act") == "raise" and step["lwp"] in rows.lwps:
        named = [rows.processes[rows.lwps[step["lwp"]]["pid"]]]
    return "a signal that is discarded" if any(_discards(rows, row, step["signal"]) for row in named) else ""


def _discards(rows: Rows, row: Process, signal: int) -> bool:
    """Whether a signal that FreeBSD discards ends the process, or stays pending since it is blocked."""
    name = DISCARDED.get(signal)
    if name is None or name in row.get("catch", ()) or name in row.get("ignore", ()):
        return False
    blocked = any(name in lwp.get("blocked", ()) for lwp in rows.of(row["pid"]))
    return blocked or (signal == _SIGIO and not row.get("tracer"))


def _requests(rows: Rows, step: Step) -> str:
    caller = rows.processes.get(step["caller"])
    if caller is None or caller["state"] != "runs":
        return ""
    if step["request"] == "PT_TRACE_ME":
        if caller["parent"] in _tracees(rows, caller["pid"]):
            return "a parent traces its tracer"
        return "a reaper traces" if caller["parent"] == 1 else ""
    target = step["target"]
    row = rows.processes.get(rows.lwps[target]["pid"] if target in rows.lwps else target)
    if row is None:
        return ""
    return _attaches(rows, caller, row) if step["request"] == "PT_ATTACH" else _commands(caller, row, step)


def _attaches(rows: Rows, caller: Process, row: Process) -> str:
    if caller["pid"] in _tracees(rows, row["pid"]):
        return "a tracee attaches to its tracer"
    if any(lwp["mode"] == "waits_for_vfork" for lwp in rows.of(row["pid"])):
        return "an attach in a vfork"
    return "an attach to a stopped process" if row["state"] == "job_stop" else ""


def _commands(caller: Process, row: Process, step: Step) -> str:
    if row.get("tracer") != caller["pid"]:
        return ""
    if not row.get("reported") and (row["state"] == "trace_stop" or step["request"] == "PT_KILL"):
        return f"{step['request']} of {row['state']}"
    return f"{step['request']} with a signal" if step.get("data", 0) in range(1, 32) else ""


def _tracees(rows: Rows, tracer: int) -> set[int]:
    """The processes that one traces, directly or through others."""
    found: set[int] = set()
    more = {tracer}
    while more:
        more = {row["pid"] for row in rows.processes.values() if row.get("tracer") in more} - found
        found |= more
    return found
