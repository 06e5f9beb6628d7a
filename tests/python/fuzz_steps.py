"""Random steps of one user in a small world, chosen by what the second model says of it."""

import random
from collections.abc import Sequence
from typing import Any, TypeVar

from reference import names
from reference.names import CALLS, OPTIONS, REQUESTS
from reference.reading import MASKS
from reference.rows import InCall, Lwp, Process, Run, TraceStop, View, lwps_of

Step = dict[str, Any]
Item = TypeVar("Item")

FATAL, STOPPING, QUIET = (2, 6, 11, 15, 30), (17, 18, 21, 22), (16, 19, 20, 23, 28, 29)
ACTIONS = ("default", "ignore", "catch")
DECISIONS = ("decline", "leave", "continue", "continue", "detach", "kill")
ODD_NUMBERS = (0, 1, 2, 999, 32768, 65999, 99999, 100000, 355999, 356000, 4294967295)
MANY = 8
OFTEN = (
    "PT_CONTINUE PT_CONTINUE PT_CONTINUE PT_CONTINUE PT_STEP PT_STEP PT_SYSCALL PT_TO_SCE PT_TO_SCX PT_DETACH "
    "PT_FOLLOW_FORK PT_LWP_EVENTS PT_SET_EVENT_MASK PT_SET_EVENT_MASK PT_LWPINFO PT_LWPINFO PT_SUSPEND PT_RESUME"
).split()


class World:
    """Makes the steps of one user: in a small world, in a crowd, or in a churn in which numbers come round again."""

    def __init__(self, chance: random.Random, kind: str) -> None:
        self.chance = chance
        self.crowd = kind == "crowd"
        self.churn = kind == "churn"
        self.careful = chance.random() < 0.5  # ends are rarer, so that rows live longer

    def one_of(self, items: Sequence[Item]) -> Item:
        return items[int(self.chance.random() * len(items))]

    def maybe(self, share: float) -> bool:
        return self.chance.random() < share

    def next(self, view: View) -> Step:
        """The next step, without its user."""
        if self.churn and len(view.processes) > 1 and self.maybe(0.85):
            return self.born_and_killed(view)
        spawns = 0.5 if self.crowd else 0.02 if len(view.processes) >= MANY else 0.06
        if not view.processes or self.maybe(spawns):
            return {"op": "spawn"}
        news = [row for row in view.processes if isinstance(row.state, TraceStop)]
        if news and self.maybe(0.5):
            return self.of_stop(view, self.one_of(news))
        if self.maybe(0.6):
            return self.turn(view)
        return self.call(view)

    def born_and_killed(self, view: View) -> Step:
        if len(view.processes) < MANY:
            return {"op": "spawn"}
        return {"op": "kill", "caller": self.caller(view), "which": self.one_of(view.processes).number, "signal": 9}

    # ---- numbers

    def odd_number(self, view: View) -> int:
        near = (1000 * (view.user - 999), 100000 + 4000 * (view.user - 1000), view.next_process, view.next_lwp)
        return self.one_of((*ODD_NUMBERS, *near, self.chance.randrange(2**32)))

    def process(self, view: View) -> int:
        if self.maybe(0.02) or not view.processes:
            return self.odd_number(view)
        return self.one_of(view.processes).number

    def caller(self, view: View) -> int:
        running = [row.number for row in view.processes if isinstance(row.state, Run)]
        return self.one_of(running) if running and self.maybe(0.95) else self.process(view)

    def collector(self, view: View) -> int:
        """Mostly the tracer or the parent of a process."""
        row = self.one_of(view.processes)
        collector = row.tracer or row.parent
        return collector if collector != 1 and self.maybe(0.8) else self.caller(view)

    def target(self, view: View) -> int:
        if view.lwps and self.maybe(0.25):
            return self.one_of(view.lwps).number
        return self.process(view)

    def signal(self) -> int:
        kind = self.chance.random()
        if kind < 0.04:
            return self.one_of((0, 9, 9, 32, 33, 255, 4294967295))
        if kind < 0.08:
            return self.chance.randrange(1, 32)
        return self.one_of(self.one_of((STOPPING, QUIET, QUIET, (5,), FATAL, (20, 19))))

    # ---- steps about a stop

    def of_stop(self, view: View, row: Process) -> Step:
        """A step of the tracer of a stopped process."""
        assert isinstance(row.state, TraceStop) and row.tracer is not None
        if row.state.collected:
            return self.request(view, row.tracer, row.number)
        if self.maybe(0.08):
            return self.install(row.tracer)
        if self.maybe(0.4):
            return {"op": "handle", "caller": row.tracer}
        return {"op": "wait4", "caller": row.tracer, "which": self.one_of((-1, row.number))}

    def request(self, view: View, caller: int, process: int) -> Step:
        request = self.one_of(OFTEN if self.maybe(0.85) else REQUESTS)
        if self.maybe(0.15):
            request = "PT_SET_EVENT_MASK"
        step: Step = {"op": "ptrace", "caller": caller, "request": request}
        if request == "PT_TRACE_ME":
            return step
        lwps = lwps_of(view, process)
        step["target"] = self.one_of(lwps).number if lwps and self.maybe(0.3) else process
        if request == "PT_SET_EVENT_MASK":
            share = self.one_of((0.2, 0.6, 0.9, 1))
            step["mask"] = [name for name in MASKS if self.maybe(share)]
        elif self.maybe(0.4):
            passed = request in ("PT_FOLLOW_FORK", "PT_LWP_EVENTS", "PT_GETLWPLIST")
            step["data"] = self.one_of((0, 1, 2, 4294967295)) if passed else self.signal()
        elif request == "PT_GETLWPLIST" or (request in ("PT_FOLLOW_FORK", "PT_LWP_EVENTS") and self.maybe(0.8)):
            step["data"] = self.one_of((1, 2, 3))
        return step

    # ---- turns

    def lwp(self, view: View) -> Lwp | None:
        """Mostly an LWP of a process that runs, and often of one that is traced."""
        if self.maybe(0.03):
            return None
        running = {row.number: row.tracer for row in view.processes if isinstance(row.state, Run)}
        traced = [row for row in view.lwps if running.get(row.process)] if self.maybe(0.5) else []
        lwps = traced or [row for row in view.lwps if row.process in running] or view.lwps
        return self.one_of(lwps) if lwps else None

    def turn(self, view: View) -> Step:
        lwp = self.lwp(view) if self.maybe(0.9) else self.one_of(view.lwps) if view.lwps else None
        step: Step = {"op": "turn", "lwp": self.odd_number(view) if lwp is None else lwp.number}
        leaves = lwp is not None and isinstance(lwp.mode, InCall)
        act = "leave" if leaves else self.one_of(("compute", "compute", "raise", "block", "enter", "enter", "enter"))
        step["act"] = act if self.maybe(0.97) else self.one_of(("compute", "raise", "block", "enter", "leave"))
        match step["act"]:
            case "raise":
                step["signal"] = self.signal()
            case "block":
                step["set"] = [self.chance.randrange(1, 32) for _ in range(self.one_of((0, 0, 3, 12)))]
            case "enter":
                self.enter(view, lwp, step)
        return step

    def enter(self, view: View, lwp: Lwp | None, step: Step) -> None:
        grows = self.crowd or len(view.processes) < MANY
        calls = ("fork", "vfork", "vfork", "thr_new", "thr_new") if grows and self.maybe(0.6) else CALLS
        call = self.one_of(calls)
        alone = lwp is None or len(lwps_of(view, lwp.process)) == 1
        if not alone and self.maybe(0.15):
            call = "thr_exit"
        elif self.careful and alone and call in ("exit", "thr_exit") and self.maybe(0.6):
            call = "other"
        step["call"] = call
        if call == "exit":
            step["code"] = self.one_of((0, 1, 127, 255))
        elif call == "other":
            step["code"] = self.one_of((0, 3, 20, 59, 4294967295))

    # ---- calls

    def call(self, view: View) -> Step:
        caller = self.caller(view)
        op = self.one_of(
            ('ptrace', 'ptrace', 'ptrace', 'ptrace', 'wait4', 'wait4', 'wait4', 'kill', 'kill', 'sigaction',
             'sigaction', 'list', 'install', 'handle')
        )  # fmt: skip
        if op in ("wait4", "handle"):
            caller = self.collector(view)
        step: Step = {"op": op, "caller": caller}
        match op:
            case "ptrace":
                return self.ptrace(view, caller)
            case "install":
                return self.install(caller)
            case "wait4":
                step["which"] = -1 if self.maybe(0.6) else self.one_of((self.process(view), self.target(view), 0, -2))
                if self.maybe(0.7):
                    step["options"] = [name for name in OPTIONS if self.maybe(0.6)]
            case "kill":
                step["which"] = -1 if self.maybe(0.04) else self.process(view) if self.maybe(0.95) else -2
                step["signal"] = self.one_of((19, 19, self.signal(), self.signal()))
            case "sigaction":
                step |= {"signal": self.signal(), "action": self.one_of(ACTIONS)}
        return step

    def install(self, caller: int) -> Step:
        return {"op": "install", "caller": caller, "rules": [self.rule() for _ in range(self.one_of((0, 1, 1, 2, 3)))]}

    def ptrace(self, view: View, caller: int) -> Step:
        if self.maybe(0.15):
            return {"op": "ptrace", "caller": caller, "request": "PT_TRACE_ME"}
        if self.maybe(0.6):
            return {"op": "ptrace", "caller": caller, "request": "PT_ATTACH", "target": self.target(view)}
        return self.request(view, caller, self.process(view))

    def rule(self) -> Step:
        rule: Step = {"decision": self.one_of(DECISIONS)}
        if self.maybe(0.5):
            rule["signal"] = self.one_of((5, 5, 17, 17, 20, 31))
        if self.maybe(0.4):
            rule["flags"] = [name for name in names.FLAGS if self.maybe(0.15)]
        if rule["decision"] in ("continue", "detach") and self.maybe(0.4):
            rule["pass"] = self.one_of((0, 2, 17, 19, 31))
        return rule
