"""Scenarios by chance: of up to three users, mostly about their first processes and LWPs."""

import random
from collections.abc import Callable
from typing import Any

Step = dict[str, object]

EVENTS = ["PTRACE_EXEC", "PTRACE_SCE", "PTRACE_SCX", "PTRACE_FORK", "PTRACE_LWP", "PTRACE_VFORK", "PTRACE_SYSCALL"]
STOPS = [f"PL_FLAG_{name}" for name in ("SCE", "SCX", "EXEC", "FORKED", "CHILD", "BORN", "EXITED")]
REQUESTS = (
    "PT_TRACE_ME PT_ATTACH PT_ATTACH PT_CONTINUE PT_CONTINUE PT_STEP PT_TO_SCE PT_TO_SCX PT_SYSCALL PT_DETACH PT_KILL "
    "PT_SUSPEND PT_RESUME PT_GET_EVENT_MASK PT_GET_EVENT_MASK PT_FOLLOW_FORK PT_LWP_EVENTS PT_LWPINFO PT_LWPINFO "
    "PT_GETNUMLWPS PT_GETLWPLIST"
).split()
# how often each op comes
WEIGHTS = {"spawn": 4, "ptrace": 24, "wait4": 14, "kill": 4, "sigaction": 4, "list": 2, "install": 3, "handle": 12, "turn": 40}


def some(chance: random.Random, names: list[str]) -> list[str]:
    return chance.sample(names, chance.randint(0, len(names)))


def rule(chance: random.Random) -> Step:
    decision = chance.choice(["decline", "leave", "continue", "continue", "detach", "kill"])
    rule: Step = {"decision": decision}
    if chance.random() < 0.3:
        rule["signal"] = chance.choice([5, 17])
    if chance.random() < 0.3:
        rule["flags"] = chance.sample(STOPS, 1)
    if decision in ("continue", "detach") and chance.random() < 0.5:
        rule["pass"] = chance.choice([0, 2, 5, 17, 30])
    return rule


def request(chance: random.Random, pid: Callable[[], int], lwp: Callable[[], int]) -> Step:
    if chance.random() < 0.15:
        return {"request": "PT_SET_EVENT_MASK", "target": pid(), "mask": some(chance, EVENTS)}
    name = chance.choice(REQUESTS)
    if name == "PT_TRACE_ME":
        return {"request": name}
    target = lwp() if chance.random() < 0.2 else pid()
    return {"request": name, "target": target, "data": chance.choice([0, 0, 1, 5, 9, 17])}


def turn(chance: random.Random) -> Step:
    act = chance.choice(["compute", "compute", "raise", "block", "enter", "enter", "leave", "leave", "leave"])
    keys: Step = {"act": act}
    if act == "raise":
        keys["signal"] = chance.choice([2, 5, 9, 17, 18, 20, 30])
    elif act == "block":
        keys["set"] = chance.sample(range(1, 32), chance.randint(0, 4))
    elif act == "enter":
        keys["call"] = chance.choice(["exit", "fork", "fork", "vfork", "exec", "thr_new", "thr_exit", "other", "other"])
        if keys["call"] in ("exit", "other"):
            keys["code"] = chance.randint(0, 255)
    return keys


def step(chance: random.Random, user: int) -> Step:
    """A step of any kind, mostly about the user's first processes and LWPs."""
    first = (user - 1000) * 1000
    caller = first if chance.random() < 0.7 else first + chance.randint(0, 4)
    signals = [0, 2, 9, 15, 17, 18, 19, 20, 30]

    def pid() -> int:
        return first + chance.randint(0, 4)

    def lwp() -> int:
        return 100000 + (user - 1001) * 4000 + chance.randint(0, 6)

    def keys_of(op: str) -> Step:
        if op == "ptrace":
            return request(chance, pid, lwp)
        if op == "wait4":
            return {"which": chance.choice([-1, -1, pid()]), "options": some(chance, ["WNOHANG", "WUNTRACED", "WCONTINUED"])}
        if op == "kill":
            return {"which": chance.choice([-1, pid(), pid(), pid()]), "signal": chance.choice(signals)}
        if op == "sigaction":
            return {"signal": chance.choice(signals), "action": chance.choice(["default", "ignore", "catch"])}
        if op == "install":
            return {"rules": [rule(chance) for _ in range(chance.randint(0, 3))]}
        return {}

    op = chance.choices(list(WEIGHTS), list(WEIGHTS.values()))[0]
    if op == "turn":
        return {"user": user, "op": op, "lwp": lwp()} | turn(chance)
    return {"user": user, "op": op} | ({"caller": caller} if op != "spawn" else {}) | keys_of(op)


def scenario(chance: random.Random) -> dict[str, Any]:
    users = chance.sample([1001, 1002, 1064], chance.randint(1, 3))
    steps = [{"user": user, "op": "spawn"} for user in users for _ in range(3)]
    steps += [step(chance, chance.choice(users)) for _ in range(250)]
    return {"steps": steps, "kill_on_debugger_exit": chance.randint(0, 1)}
