"""What kernels can be asked: steps that they can't make, or whose outcome no manual page says, are in no session."""

from __future__ import annotations

from tracehost.step_words import Step

from .model import Process, Rows

_SYSTEM_CALLS = frozenset({"PTRACE_SCE", "PTRACE_SCX", "PTRACE_SYSCALL"})
_TRACES_CALLS = ("PT_TO_SCE", "PT_TO_SCX", "PT_SYSCALL")


def on_freebsd(rows: Rows, step: Step) -> bool:
    return _has_caller(rows, step) and not (_is_any_child(rows, step) or _is_seen(rows, step) or _traces_start(rows, step))


def but_all(rows: Rows, step: Step) -> bool:
    """The model's own kernel has the player among a user's processes, so that no signal may go to all."""
    return on_freebsd(rows, step) and not (step["op"] == "kill" and step["which"] == -1)


def on_both(rows: Rows, step: Step) -> bool:
    return on_freebsd(rows, step) and _on_linux(rows, step)


def _owner(rows: Rows, number: int) -> Process | None:
    """The process of this number, or of the LWP of this number."""
    return rows.processes.get(rows.lwps[number]["pid"] if number in rows.lwps else number)


def _has_caller(rows: Rows, step: Step) -> bool:
    """A call is made by an LWP that runs: not by one that is suspended or waits for its vfork's child."""
    lwps = rows.of(step["caller"]) if "caller" in step else []
    return not lwps or any(lwp["mode"] == "runs" and not lwp.get("suspended") for lwp in lwps)


def _is_seen(rows: Rows, step: Step) -> bool:
    """To a kernel each step but a call's entry is a system call, and stops if these are traced. The start of an image makes
    calls too."""
    if step.get("act") == "enter" and step["call"] != "exec":
        return False
    row = _owner(rows, step.get("caller", step.get("lwp", 0)))
    return row is not None and row["state"] == "runs" and not _SYSTEM_CALLS.isdisjoint(row.get("events", ()))


def _traces_start(rows: Rows, step: Step) -> bool:
    """Whether system calls are to be traced before an image has gone through its start."""
    traces = step.get("request") in _TRACES_CALLS or not _SYSTEM_CALLS.isdisjoint(step.get("mask", ()))
    row = _owner(rows, step.get("target", 0)) if traces else None
    return row is not None and row["pid"] in rows.starting


def _is_any_child(rows: Rows, step: Step) -> bool:
    """Whether a wait may take one of several: in which order isn't said."""
    if step["op"] != "wait4" or step["which"] != -1:
        return False
    return sum(_is_news(row, step) for row in rows.processes.values()) > 1


def _is_news(row: Process, step: Step) -> bool:
    if row.get("tracer", row["parent"]) != step["caller"]:
        return False
    options = step.get("options", ())
    if row["state"] in ("zombie", "trace_stop"):
        return not row.get("reported")
    if row["state"] == "job_stop":
        return not row.get("reported") and "WUNTRACED" in options
    return bool(row.get("continued")) and "WCONTINUED" in options


def _on_linux(rows: Rows, step: Step) -> bool:
    """On Linux each thread is traced, and traces, by itself, an exec gives a thread its process's number, and the first thread of a
    process shows the process's state."""
    if step.get("act") == "enter" and step["lwp"] in rows.lwps:
        row = rows.processes[rows.lwps[step["lwp"]]["pid"]]
        threads = rows.of(row["pid"])
        is_first = bool(threads[0]["lwp"] == step["lwp"])
        if step["call"] == "thr_new":
            return not any(row["pid"] in (other["pid"], other.get("tracer")) for other in _tracees(rows))
        if step["call"] == "exec":
            return is_first
        return bool(step["call"] != "thr_exit" or not is_first or len(threads) == 1)
    if step["op"] != "ptrace":
        return True
    caller, target = _owner(rows, step["caller"]), _owner(rows, step.get("target", step["caller"]))
    tracer = caller if caller is None or "target" in step else rows.processes.get(caller["parent"])
    return all(row is None or len(rows.of(row["pid"])) < 2 for row in (target, tracer))


def _tracees(rows: Rows) -> list[Process]:
    return [row for row in rows.processes.values() if row.get("tracer")]
