"""Random steps of two users, about a few processes and LWPs: so that many are refused."""

from __future__ import annotations

import pathlib
import random
import sys
from typing import Any

sys.path.insert(0, str(pathlib.Path(__file__).resolve().parents[1]))
from tracehost import Call, Request
from tracehost.names import CALLER_OPS

Step = dict[str, Any]


class Chance(random.Random):
    """Numbers of a user, most of them those of the first few processes and LWPs."""

    def of_user(self, uid: int) -> Chance:
        self.first_pid, self.first_lwp = (uid - 1000) * 1000, 100_000 + (uid - 1001) * 4000
        return self

    def pid(self) -> int:
        return self.choice((self.first_pid, *(self.first_pid + n for n in range(7)), 1, 99))

    def lwp(self) -> int:
        return self.first_lwp + self.randrange(9)

    def signal(self) -> int:
        return self.choice((0, 1, 9, 15, 17, 19, 20, 31, 32))


def random_step(chance: Chance) -> Step:
    """A step of one of two users."""
    uid = chance.choice((1001, 1001, 1001, 1002))
    chance.of_user(uid)
    op = chance.choice(("spawn", "turn", "turn", "turn", "ptrace", "ptrace", "ptrace", *CALLER_OPS))
    if op == "spawn":
        return {"user": uid, "op": op}
    if op == "turn":
        return {"user": uid, "op": op, "lwp": chance.lwp(), **random_act(chance)}
    return {"user": uid, "op": op, "caller": chance.pid(), **random_arguments(op, chance)}


def random_act(chance: Chance) -> Step:
    act = chance.choice(("compute", "raise", "block", "enter", "enter", "leave", "leave"))
    if act == "raise":
        return {"act": act, "signal": chance.signal()}
    if act == "block":
        return {"act": act, "set": [chance.randint(1, 31)]}
    if act == "enter":
        call = chance.choice(list(Call))
        code = {"code": 7} if call in (Call.EXIT, Call.OTHER) else {}
        return {"act": act, "call": call.value, **code}
    return {"act": act}


def random_arguments(op: str, chance: Chance) -> Step:
    if op == "ptrace":
        request = chance.choice([*Request, Request.PT_ATTACH, Request.PT_ATTACH, Request.PT_CONTINUE])
        target = {} if request == Request.PT_TRACE_ME else {"target": chance.choice((chance.pid(), chance.lwp()))}
        more: Step = {"data": chance.signal()} if target else {}
        if request == Request.PT_SET_EVENT_MASK:
            more = {"mask": ["PTRACE_FORK", "PTRACE_LWP"]}
        return {"request": request.name, **target, **more}
    pid = chance.pid()
    arguments: dict[str, Step] = {
        "wait4": {"which": chance.choice((-1, -1, -2, 0, pid))},
        "kill": {"which": chance.choice((-1, -2, 0, pid, pid, pid)), "signal": chance.signal()},
        "sigaction": {"signal": chance.signal(), "action": chance.choice(("default", "ignore", "catch"))},
        "install": {"rules": [{"decision": "continue"}]},
    }
    return arguments.get(op, {})
