"""Replays scenarios step by step: as they are (`Host.step`), and by typed calls, whose results are written as lines again."""

from __future__ import annotations

import errno
import pathlib
import sys
from collections.abc import Callable, Iterable
from typing import Any

sys.path.insert(0, str(pathlib.Path(__file__).resolve().parents[1]))
import tracehost as th

FREEBSD_ERRNO = {"EPERM": 1, "ESRCH": 3, "ECHILD": 10, "ENOMEM": 12, "EBUSY": 16, "EINVAL": 22, "EAGAIN": 35}


def flags_text(flags: th.StopFlag | th.EventMask) -> str:
    return "+".join(f.name for f in type(flags) if f.name and f.value & (f.value - 1) == 0 and f & flags) or "none"


def signals_text(signals: Iterable[int]) -> str:
    return ",".join(str(int(signal)) for signal in sorted(signals)) or "none"


def result_text(result: object) -> str:
    """The reply that a typed call's result means."""
    if result is None:
        return "ok"
    if isinstance(result, th.New):
        return f"new {result.pid} {result.tid}"
    if isinstance(result, th.Waited):
        return f"status {result.pid} {result.word}" if result.pid else "nothing"
    if isinstance(result, th.LwpInfo):
        event = result.pl_event.name.replace("PL_EVENT_", "")
        return (
            f"info {result.pl_lwpid} {event} flags={flags_text(result.pl_flags)} mask={signals_text(result.pl_sigmask)}"
            f" pending={signals_text(result.pl_siglist)} child={result.pl_child_pid} code={result.pl_syscall_code}"
        )
    if isinstance(result, th.Handled):
        handler = "none" if result.handler is None else result.handler
        decision = result.decision.value + ("" if result.pass_signal is None else f" {result.pass_signal}")
        return (
            f"handled {result.pid} {result.status} at {result.tid} signal={int(result.signal)}"
            f" flags={flags_text(result.flags)} child={result.child} code={result.code} by {handler} {decision}"
        )
    if isinstance(result, th.Stopped):
        return f"stopped {result.tid} {int(result.signal)} flags={flags_text(result.flags)}"
    if isinstance(result, th.Caught):
        return f"caught {int(result.signal)}"
    if isinstance(result, th.Ended):
        return f"ended {result.status}"
    if isinstance(result, th.EventMask):
        return f"mask {flags_text(result)}"
    raise AssertionError(f"no result: {result!r}")


def act_of(step: dict[str, Any]) -> th.Act:
    act = step["act"]
    if act == "raise":
        return th.Raise(step["signal"])
    if act == "block":
        return th.Block(step["set"])
    if act == "enter":
        return th.Enter(th.Call(step["call"]), step.get("code"))
    return th.Leave() if act == "leave" else th.Compute()


def rule_of(rule: dict[str, Any]) -> th.Rule:
    flags = th.StopFlag(0)
    for name in rule.get("flags", []):
        flags |= th.StopFlag[name]
    return th.Rule(th.Decision(rule["decision"]), rule.get("signal"), flags, rule.get("pass"))


def ptrace(caller: th.Process, step: dict[str, Any]) -> str:
    request = th.Request[step["request"]]
    data = step.get("data", 0)
    if request == th.Request.PT_SET_EVENT_MASK:
        data = th.EventMask(0)
        for name in step["mask"]:
            data |= th.EventMask[name]
    result = caller.ptrace(request, step.get("target", 0), data)
    if request == th.Request.PT_GETNUMLWPS:
        return f"number {result}"
    if request == th.Request.PT_GETLWPLIST:
        return " ".join(["lwps", *map(str, result)])
    return result_text(result)


def call(host: th.Host, step: dict[str, Any]) -> str:
    """Makes the step by a typed call, and writes what came of it."""
    user, op = host.user(step["user"]), step["op"]
    if op == "spawn":
        return result_text(user.spawn())
    if op == "turn":
        return result_text(user.turn(step["lwp"], act_of(step)))
    caller = user.process(step["caller"])
    if op == "ptrace":
        return ptrace(caller, step)
    if op == "wait4":
        options = th.WaitOption(0)
        for name in step.get("options", []):
            options |= th.WaitOption[name]
        return result_text(caller.wait4(step["which"], options))
    if op == "list":
        return " ".join(["pids", *map(str, caller.list())])
    if op == "handle":
        result = caller.handle()
        return "nothing" if result is None else result_text(result)
    if op == "kill":
        caller.kill(step["which"], step["signal"])
    elif op == "sigaction":
        caller.sigaction(step["signal"], th.Action(step["action"]))
    else:
        caller.install([rule_of(rule) for rule in step["rules"]])
    return "ok"


def by_step(host: th.Host, step: dict[str, Any]) -> str:
    """Makes the step as it is, and returns its reply."""
    return host.step(step).split(" ", 2)[2]


def replayed(host: th.Host, steps: list[dict[str, Any]], call: Callable[[th.Host, dict[str, Any]], str]) -> list[str]:
    lines: list[str] = []
    counts: dict[int, int] = {}
    for step in steps:
        uid = step["user"]
        counts[uid] = counts.get(uid, 0) + 1
        try:
            reply = call(host, step)
        except th.Held:
            reply = "held"
        except OSError as error:
            name = errno.errorcode[error.errno]
            reply = f"error {name} {FREEBSD_ERRNO[name]}"
        lines.append(f"{uid} {counts[uid]} {reply}")
    return lines
