#!/usr/bin/env python3
"""Runs whose pages the viewer's tests open, and what these pages have to show.

viewer_runs.py FOLDER writes scenarios of 300 and 5,000 random steps there.
"""

from __future__ import annotations

import json
import pathlib
import random
import sys
from typing import Any, Optional

Step = dict[str, Any]  # a step of docs/FORMAT.md, or a reply of it
Scenario = dict[str, list[Step]]
Lane = tuple[str, int]
Mark = tuple[str, tuple[str, Any]]

# who traces whom, from which step to which, by the rules of docs/internals/MACHINE.md; None if tracing goes on
TRACES: dict[str, list[tuple[str, int, Optional[int]]]] = {
    "attach_and_continue": [("1000 1001", 3, 11)],
    "crash_collector": [("1000 1001", 3, 19), ("1000 1002", 6, 23)],
    "death_of_a_debugger_kills": [("1000 1001", 4, 10), ("1000 1002", 6, 10)],
    "death_of_a_debugger_leaves": [("1000 1001", 4, 10), ("1000 1002", 6, 10)],
    "first": [],
    "follow_a_fork": [("1000 1001", 3, None), ("1000 1002", 8, 14)],
    "job_control": [],
    "sandbox": [("1000 1001", 3, 14)],
    "two_users": [("1000 1001", 5, None), ("2000 2001", 8, 11)],
    "vfork_and_exec": [("1000 1001", 3, None), ("1000 1002", 8, None)],
}
# the ends that no `ended` tells: the process and the step
ENDS = {
    "crash_collector": [(1001, 19), (1002, 23)],
    "death_of_a_debugger_kills": [(1001, 10), (1002, 10)],
    "sandbox": [(1001, 14)],
    "two_users": [(2001, 11)],
}
# the children of followed forks: the process and the step
FOLLOWED = {"follow_a_fork": [(1002, 8)], "vfork_and_exec": [(1002, 8)]}


def thread_steps() -> Scenario:
    """A program is started by PT_TRACE_ME; one of its two LWPs is suspended, the other ends; then all is killed."""

    def turn(lwp: int, act: str, **more: Any) -> Step:
        return {"op": "turn", "lwp": lwp, "act": act, **more}

    def ptrace(request: str, target: int, **more: Any) -> Step:
        return {"op": "ptrace", "caller": 1000, "request": request, "target": target, **more}

    first, second = 100001, 100002
    wait, go = {"op": "wait4", "caller": 1000, "which": -1}, ptrace("PT_CONTINUE", 1001)
    steps: list[Step] = [
        {"op": "spawn"},
        turn(100000, "enter", call="fork"),
        turn(100000, "leave"),
        {"op": "ptrace", "caller": 1001, "request": "PT_TRACE_ME"},
        turn(first, "enter", call="exec"),
        turn(first, "leave"),
        wait,
        ptrace("PT_SET_EVENT_MASK", 1001, mask=["PTRACE_LWP"]),
        go,
        turn(first, "enter", call="thr_new"),
        turn(first, "leave"),
        turn(second, "compute"),
        wait,
        ptrace("PT_SUSPEND", first),
        go,
        turn(first, "compute"),
        turn(second, "raise", signal=15),
        turn(second, "compute"),
        wait,
        ptrace("PT_RESUME", first),
        go,
        turn(second, "enter", call="thr_exit"),
        turn(second, "leave"),
        wait,
        go,
        turn(second, "compute"),
        {"op": "kill", "caller": 1000, "which": -1, "signal": 9},
        wait,
    ]
    return {"steps": [{"user": 1001, **step} for step in steps]}


# what its page says along the lanes: what, from which step to which
THREAD_STRETCHES = {
    "in fork, from step 2 to 3",
    "in exec, from step 5 to 6",
    "in thr_new, from step 10 to 11",
    "in thr_exit, from step 22 to 23",
    "suspended, from step 14 to 20",
    "stopped: SIGTRAP SCX EXEC, from step 6 to 9, reported at 7",
    "stopped: SIGTRAP SCX BORN, from step 12 to 15, reported at 13",
    "stopped: SIGTERM, from step 18 to 21, reported at 19",
    "stopped: SIGTRAP EXITED, from step 23 to 25, reported at 24",
}


# its LWPs and processes, from which step to which they live
THREAD_LIVES = {
    ("process", 1000): (1, None),
    ("lwp", 100000): (1, None),
    ("process", 1001): (3, 27),
    ("lwp", 100001): (3, 27),
    ("lwp", 100002): (11, 25),
}


def untold_end() -> Scenario:
    """A process ends by the signal that it is detached with, and no wait reports it; a turn is answered ESRCH."""
    steps: list[Step] = [
        {"op": "spawn"},
        {"op": "spawn"},
        {"op": "ptrace", "caller": 1000, "request": "PT_ATTACH", "target": 1001},
        {"op": "wait4", "caller": 1000, "which": -1},
        {"op": "ptrace", "caller": 1000, "request": "PT_DETACH", "target": 1001, "data": 15},
        {"op": "turn", "lwp": 100001, "act": "compute"},
    ]
    return {"steps": [{"user": 1001, **step} for step in steps]}


def fork_steps() -> Scenario:
    """Two followed forks. The child of each is known only later, that of the second first."""
    steps: list[Step] = [{"op": "spawn"}] * 3

    def ptrace(request: str, *targets: int) -> None:
        data = int(request == "PT_FOLLOW_FORK")
        steps.extend({"op": "ptrace", "caller": 1000, "request": request, "target": target, "data": data} for target in targets)

    def wait(*pids: int) -> None:
        steps.extend({"op": "wait4", "caller": 1000, "which": pid} for pid in pids)

    ptrace("PT_ATTACH", 1001, 1002)
    wait(1001, 1002)
    ptrace("PT_FOLLOW_FORK", 1001, 1002)
    ptrace("PT_CONTINUE", 1001, 1002)
    steps.extend({"op": "turn", "lwp": lwp, "act": "enter", "call": "fork"} for lwp in (100001, 100002))
    steps.extend({"op": "turn", "lwp": lwp, "act": "leave"} for lwp in (100001, 100002))
    wait(1001, 1002)
    ptrace("PT_LWPINFO", 1002, 1001)
    wait(-1, -1)
    return {"steps": [{"user": 1001, **step} for step in steps]}


def long_scenario(count: int) -> Scenario:
    """A session of so many steps: a debugger of each of four users follows the system calls of two processes."""
    steps: list[list[Step]] = []
    for user in (1001, 1002, 1003, 1004):
        pid, lwp = 1000 * (user - 1000), 100000 + 4000 * (user - 1001)
        own: list[Step] = [{"op": "spawn"}] * 3

        def ptrace(request: str, target: int) -> None:
            own.append({"op": "ptrace", "caller": pid, "request": request, "target": target})

        def stopped(at: int) -> None:
            own.append({"op": "wait4", "caller": pid, "which": -1})
            ptrace("PT_SYSCALL", pid + at)

        for at in (1, 2):
            ptrace("PT_ATTACH", pid + at)
            stopped(at)
        while len(own) < count // 4:
            for at in (1, 2):
                own.append({"op": "turn", "lwp": lwp + at, "act": "enter", "call": "other", "code": 4})
                stopped(at)
                own.append({"op": "turn", "lwp": lwp + at, "act": "leave"})
                stopped(at)
        steps.append([{"user": user, **step} for step in own[: count // 4]])
    return {"steps": [step for four in zip(*steps) for step in four]}


def expected_mark(step: Step, reply: Step, known: dict[int, int]) -> Mark:
    """The kind of mark of a step, and its lane, by what docs/VIEWER.md says."""
    word = reply["reply"]
    if word == "new":
        return ("lwp-birth", ("lwp", reply["lwp"])) if reply["pid"] in known else ("birth", ("process", reply["pid"]))
    home: tuple[str, Any] = ("process", step["caller"]) if "caller" in step else ("lwp", step.get("lwp"))
    if word == "ended":
        return "end", ("process", known[step["lwp"]])
    fixed = {
        "status": "wait",
        "stopped": "stop",
        "nothing": "nothing",
        "handled": "handled",
        "caught": "caught",
        "error": "error",
        "held": "held",
    }
    if word in fixed:
        return fixed[word], home
    if word != "ok":
        return "request", home
    if step["op"] == "kill":
        others = sorted(pid for pid in known if pid // 1000 == step["caller"] // 1000 and pid != step["caller"])
        target = others[0] if step["which"] == -1 else step["which"]
        return ("post", ("process", target)) if step["signal"] else ("request", home)
    if step["op"] == "turn":
        return {"raise": "post", "enter": "call", "leave": "leave"}.get(step["act"], "run"), home
    requests = {
        "PT_ATTACH": "attach",
        "PT_TRACE_ME": "attach",
        "PT_DETACH": "detach",
        "PT_KILL": "kill",
        "PT_CONTINUE": "resume",
        "PT_STEP": "resume",
        "PT_TO_SCE": "resume",
        "PT_TO_SCX": "resume",
        "PT_SYSCALL": "resume",
    }
    return requests.get(step.get("request", ""), "request"), home


def expected_marks(steps: list[Step], replies: list[Step]) -> list[Mark]:
    known: dict[int, int] = {}
    marks: list[Mark] = []
    for step, reply in zip(steps, replies):
        if reply["reply"] == "info":
            known[reply["lwp"]] = step["target"]
        marks.append(expected_mark(step, reply, known))
        if reply["reply"] == "new":
            known[reply["pid"]] = known[reply["lwp"]] = reply["pid"]
    return marks


def expected_lanes(steps: list[Step], replies: list[Step]) -> set[Lane]:
    """The users, processes and LWPs that the replies, and the steps that aren't refused, name."""
    lanes: set[Lane] = set()
    for step, reply in zip(steps, replies):
        lanes.add(("user", step["user"]))
        lanes |= {("process", reply["pid"])} if "pid" in reply else set()
        lanes |= {("process", pid) for pid in reply.get("pids", [])}
        shown = reply.get("at", reply)
        lanes |= {("lwp", shown["lwp"])} if "lwp" in shown else set()
        lanes |= {("process", shown["child"])} if shown.get("child") else set()
        if step["op"] == "turn" and reply["reply"] != "error":
            lanes.add(("lwp", step["lwp"]))
    return lanes


CALLS = ["exec", "exit", "thr_exit", "other"]  # those that make nothing
SIGNALS = [2, 5, 9, 15, 17, 18, 19, 20, 30]
REQUESTS = [
    "PT_CONTINUE",
    "PT_STEP",
    "PT_SYSCALL",
    "PT_DETACH",
    "PT_LWPINFO",
    "PT_GETLWPLIST",
    "PT_SUSPEND",
    "PT_RESUME",
    "PT_KILL",
]
KEPT = 10  # processes of a user, about


class RandomUser:
    """Random steps of a user. Processes and LWPs are made only if that succeeds, so that their numbers are known."""

    def __init__(self, dice: random.Random, user: int) -> None:
        self.dice, self.user = dice, user
        self.pids: list[int] = []
        self.lwps: list[int] = []
        self.planned: list[Step] = []
        self.killed = 0

    def new_pid(self) -> int:
        self.pids.append(1000 * (self.user - 1000) + len(self.pids))
        return self.pids[-1]

    def new_lwp(self) -> int:
        self.lwps.append(100000 + 4000 * (self.user - 1001) + len(self.lwps))
        return self.lwps[-1]

    def pid(self) -> int:
        return self.dice.choice(self.pids[-KEPT:])

    def turn(self, act: str, lwp: Optional[int] = None, **more: Any) -> Step:
        return {"op": "turn", "lwp": lwp or self.dice.choice(self.lwps[-KEPT:]), "act": act, **more}

    def ptrace(self, caller: int, request: str, target: int, **more: Any) -> Step:
        return {"op": "ptrace", "caller": caller, "request": request, "target": target, **more}

    def wait(self, caller: Optional[int] = None) -> Step:
        return {"op": "wait4", "caller": caller or self.pid(), "which": -1}

    def spawn(self) -> tuple[int, int, list[Step]]:
        """A new process ends the old ones, so that there are never too many."""
        pid = self.new_pid()
        old = self.pids[self.killed : -KEPT]
        self.killed += len(old)
        kills: list[Step] = [{"op": "kill", "caller": pid, "which": other, "signal": 9} for other in old]
        return pid, self.new_lwp(), [{"op": "spawn"}, *kills]

    def calls(self, lwp: int, call: str) -> list[Step]:
        return [self.turn("enter", lwp, call=call), self.turn("leave", lwp)]

    def made(self) -> list[Step]:
        """A process that makes another one, or an LWP."""
        _, lwp, steps = self.spawn()
        call = self.dice.choice(["fork", "vfork", "thr_new"])
        if call != "thr_new":
            self.new_pid()
        self.new_lwp()
        return steps + self.calls(lwp, call)

    def traced(self) -> list[Step]:
        """A debugger that attaches, and follows a fork or a vfork."""
        debugger, _, steps = self.spawn()
        target, lwp, more = self.spawn()
        mask = ["PTRACE_FORK", *self.dice.sample(["PTRACE_VFORK", "PTRACE_LWP", "PTRACE_EXEC", "PTRACE_SCX"], 2)]
        child = self.new_pid()
        self.new_lwp()
        return (
            steps
            + more
            + [
                self.ptrace(debugger, "PT_ATTACH", target),
                self.wait(debugger),
                self.ptrace(debugger, "PT_SET_EVENT_MASK", target, mask=mask),
                self.ptrace(debugger, "PT_CONTINUE", target),
                *self.calls(lwp, self.dice.choice(["fork", "vfork"])),
                self.wait(debugger),
                self.wait(debugger),
                self.ptrace(debugger, self.dice.choice(["PT_LWPINFO", "PT_SUSPEND"]), target),
                self.ptrace(debugger, "PT_CONTINUE", target),
                self.ptrace(debugger, self.dice.choice(["PT_CONTINUE", "PT_SYSCALL", "PT_DETACH"]), child),
            ]
        )

    def other(self) -> list[Step]:
        dice = self.dice
        call, signal = dice.choice(CALLS), dice.choice(SIGNALS)
        code: dict[str, Any] = {"code": dice.randrange(4)} if call in ("exit", "other") else {}
        return dice.choice(
            [
                [self.turn("enter", call=call, **code)],
                [self.turn("leave")],
                [self.turn("compute")],
                [self.turn("compute")],
                [self.turn("raise", signal=signal)],
                [self.wait()],
                [self.wait()],
                [{"op": "kill", "caller": self.pid(), "which": self.pid(), "signal": signal}],
                [self.ptrace(self.pid(), dice.choice(REQUESTS), self.pid())],
                [{"op": "list", "caller": self.pid()}],
            ]
        )

    def step(self) -> Step:
        if not self.planned:
            makes = [self.other] * 12 + [self.made, self.traced] if self.pids else [self.made]
            self.planned = self.dice.choice(makes)()
        return {"user": self.user, **self.planned.pop(0)}


def random_scenario(seed: int, count: int) -> Scenario:
    dice = random.Random(seed)
    users = [RandomUser(dice, user) for user in (1001, 1002, 1003, 1004)]
    return {"steps": [dice.choice(users).step() for _ in range(count)]}


def write(folder: pathlib.Path) -> None:
    """Writes the scenarios that node's tests read."""
    for count in (300, 5000):
        (folder / f"random{count}.json").write_text(json.dumps(random_scenario(count, count)))


if __name__ == "__main__":
    write(pathlib.Path(sys.argv[1]))
