"""What an errno says: the call, and the condition of docs/FORMAT.md that held.

Each answer is compared with the conditions of
`tracehost.refusals` in sessions of random steps, looked up in the user's rows: the first that holds has the errno, and none holds for a step that
was done. TRACEHOST_TEST_SCALE multiplies the sessions.
"""

from __future__ import annotations

import errno
import os
import pathlib
import random
import re
import sys
from collections.abc import Callable, Iterator, Sequence
from typing import Any

import pytest

sys.path[:0] = [str(pathlib.Path(__file__).resolve().parent), str(pathlib.Path(__file__).resolve().parents[1])]
from random_steps import Chance, random_step
from tracehost import Action, Call, Compute, Decision, Enter, Held, Host, Leave, New, Raise, Request, Rule, Signal, User
from tracehost.names import CALLER_OPS
from tracehost.refusals import Asked, Rows, asked_by, conditions

FORMAT = pathlib.Path(__file__).resolve().parents[3] / "docs" / "FORMAT.md"
SCALE = int(os.environ.get("TRACEHOST_TEST_SCALE", "1"))
Step = dict[str, Any]


# ---- sessions of random steps


def first_answer(host: Host, asked: Asked) -> str | None:
    """The answer of the first condition that holds."""
    rows = Rows(host._rows(asked.user))
    found = (condition for condition in conditions(asked) if not condition.unseen and condition.holds(asked, rows))
    return next((condition.answer for condition in found), None)


def test_the_first_condition_that_holds_gives_the_errno() -> None:
    met: set[str] = set()
    for seed in range(120 * SCALE):
        chance = Chance(seed)
        with Host() as host:
            for _ in range(250):
                step = random_step(chance)
                asked = asked_by(step)
                before = first_answer(host, asked)
                try:
                    words = host.step(step).split()
                except (Held, OSError) as error:
                    name = "held" if isinstance(error, Held) else errno.errorcode[error.errno or 0]
                    assert before == name, (seed, step, str(error))
                    assert f": {name}, " in str(error)
                    met.add(f"{asked.op} {name}: " + re.sub(r"\d+", "N", str(error).split(f"{name}, ")[1]))
                    continue
                if words[2] in ("stopped", "caught", "ended") and asked.op == "turn":
                    continue  # in place of the act
                assert before is None, (seed, step, words)
    print("\n".join(sorted(met)))
    assert len(met) >= 30, sorted(met)


# ---- the texts


def told(call: Callable[[], object]) -> str:
    with pytest.raises(OSError) as caught:
        call()
    assert str(caught.value).startswith(f"[Errno {caught.value.errno}] ")
    return str(caught.value).split("] ", 1)[1]


@pytest.fixture
def host() -> Iterator[Host]:
    with Host() as made:
        yield made


def test_each_request_and_why(host: Host) -> None:
    user = host.user(1001)
    one, _, three = user.process(user.spawn()), user.spawn(), user.process(user.spawn())
    ptrace = one.ptrace
    assert told(lambda: ptrace(Request.PT_CONTINUE, 1005)) == (
        "ptrace(PT_CONTINUE, 1005) by 1000: ESRCH, user 1001 has no process 1005"
    )
    assert told(lambda: ptrace(Request.PT_LWPINFO, 100009)) == (
        "ptrace(PT_LWPINFO, 100009) by 1000: ESRCH, user 1001 has no LWP 100009"
    )
    assert told(lambda: user.process(1005).list()) == "list() by 1005: ESRCH, 1005 isn't a live process of user 1001"
    assert told(lambda: ptrace(Request.PT_DETACH, 1001, 9)) == (
        "ptrace(PT_DETACH, 1001, SIGKILL) by 1000: EPERM, 1001 isn't traced"
    )
    assert told(lambda: ptrace(Request.PT_TRACE_ME)) == "ptrace(PT_TRACE_ME) by 1000: EPERM, the parent of 1000 is process 1"
    assert told(lambda: ptrace(Request.PT_ATTACH, 1000)).endswith("EINVAL, a process can't trace itself")
    ptrace(Request.PT_ATTACH, 1001)
    assert told(lambda: ptrace(Request.PT_CONTINUE, 1001)) == (
        "ptrace(PT_CONTINUE, 1001) by 1000: EBUSY, no wait has reported the stop of 1001"
    )
    assert told(lambda: three.ptrace(Request.PT_ATTACH, 1001)).endswith("by 1002: EBUSY, 1001 is traced already")
    assert told(lambda: three.ptrace(Request.PT_KILL, 1001)).endswith("EBUSY, another process traces 1001")
    one.wait4()
    assert told(lambda: ptrace(Request.PT_CONTINUE, 1001, 32)) == ("ptrace(PT_CONTINUE, 1001, 32) by 1000: EINVAL, 32 is no signal")
    assert told(lambda: ptrace(Request.PT_GETLWPLIST, 1001, 0)).endswith("EINVAL, data is 0, and has to be how many LWPs to list")
    assert told(lambda: ptrace(Request.PT_SET_EVENT_MASK, 1001, 0x41)) == (
        "ptrace(PT_SET_EVENT_MASK, 1001) by 1000: EINVAL, the mask's 0x40 is no event"
    )
    ptrace(Request.PT_CONTINUE, 1001)
    assert told(lambda: ptrace(Request.PT_CONTINUE, 1001)).endswith("EBUSY, 1001 is in no trace stop")


def test_each_other_call_and_why(host: Host) -> None:
    user = host.user(1001)
    one, two, three = user.process(user.spawn()), user.spawn(), user.process(user.spawn())
    turn = user.turn
    assert told(lambda: one.wait4(0)) == "wait4(0) by 1000: EINVAL, which is 0, and there are no process groups"
    assert told(lambda: one.wait4(1002)).endswith("ECHILD, 1002 is neither a child of 1000 nor traced by it")
    assert told(lambda: three.handle()) == "handle() by 1002: ECHILD, 1002 has no child and traces no process"
    assert told(lambda: one.kill(1005, Signal.SIGTERM)) == "kill(1005, SIGTERM) by 1000: ESRCH, user 1001 has no process 1005"
    assert told(lambda: one.kill(1001, 77)) == "kill(1001, 77) by 1000: EINVAL, 77 is no signal"
    assert told(lambda: one.sigaction(Signal.SIGKILL, Action.CATCH)) == (
        "sigaction(SIGKILL, catch) by 1000: EINVAL, SIGKILL can be neither caught nor ignored"
    )
    assert told(lambda: turn(two.tid, Leave())) == "turn(100001, leave) by user 1001: EINVAL, LWP 100001 is in no system call"
    turn(two.tid, Enter(Call.OTHER, 4))
    assert told(lambda: turn(two.tid, Compute())).endswith("EINVAL, LWP 100001 is in a system call, which it has to leave first")
    assert told(lambda: turn(100077, Compute())).endswith("ESRCH, user 1001 has no LWP 100077")
    assert told(lambda: turn(100002, Raise(32))) == "turn(100002, raise 32) by user 1001: EINVAL, 32 is no signal"
    assert told(lambda: host.step({"user": 1001, "op": "kill", "caller": 1000, "which": 0, "signal": 9})) == (
        "kill(0, SIGKILL) by 1000: EINVAL, which is 0, and there are no process groups"
    )


def test_limits(host: Host) -> None:
    user = host.user(1002)
    first = user.spawn()
    process = user.process(first)
    for _ in range(64):
        process.install([])
    assert told(lambda: process.install([Rule(Decision.LEAVE)])) == (
        "install(1 rule) by 2000: EAGAIN, user 1002 has 64 stop handlers"
    )
    user.turn(first.tid, Enter(Call.FORK))
    for _ in range(249):
        user.spawn()
    assert told(user.spawn) == "spawn() by user 1002: EAGAIN, user 1002 has 250 processes"
    assert told(lambda: user.turn(first.tid, Leave())) == ("turn(104000, leave) by user 1002: EAGAIN, user 1002 has 250 processes")


def test_the_limit_of_lwps(host: Host) -> None:
    user = host.user(1001)
    lwp = user.spawn().tid
    for _ in range(999):
        user.turn(lwp, Enter(Call.THR_NEW))
        user.turn(lwp, Leave())
    assert told(user.spawn) == "spawn() by user 1001: EAGAIN, user 1001 has 1000 LWPs"


def new_lwp(user: User, lwp: int) -> int:
    user.turn(lwp, Enter(Call.THR_NEW))
    made = user.turn(lwp, Leave())
    assert isinstance(made, New)
    return made.tid


def test_a_younger_lwp_with_a_lower_number() -> None:
    """The search for a free number has gone round, so LWPs in order of birth don't have rising numbers."""
    with Host() as host:
        user = host.user(1001)
        lwp = user.spawn().tid
        numbers = range(lwp + 1, lwp + 3999)
        for number in numbers:
            assert new_lwp(user, lwp) == number
            user.turn(number, Enter(Call.THR_EXIT))
            user.turn(number, Leave())
        assert [new_lwp(user, lwp), new_lwp(user, lwp)] == [lwp + 3999, lwp + 1]
        for number in (lwp, lwp + 3999, lwp + 1):
            assert told(lambda: user.process(1000).ptrace(Request.PT_ATTACH, number)).endswith("a process can't trace itself")


def test_an_ended_target_and_cycles(host: Host) -> None:
    user = host.user(1001)
    parent, child = user.spawn(), 1001
    user.turn(parent.tid, Enter(Call.FORK))
    user.turn(parent.tid, Leave())
    debugger = user.process(parent)
    user.process(child).ptrace(Request.PT_ATTACH, parent.pid)
    user.process(child).wait4()
    user.process(child).ptrace(Request.PT_CONTINUE, parent.pid)
    assert told(lambda: user.process(child).ptrace(Request.PT_TRACE_ME)) == (
        "ptrace(PT_TRACE_ME) by 1001: EINVAL, 1001 traces its parent, directly or through others"
    )
    assert told(lambda: debugger.ptrace(Request.PT_ATTACH, child)).endswith("EINVAL, 1001 traces 1000, directly or through others")


def test_a_target_that_has_ended(host: Host) -> None:
    user = host.user(1001)
    parent = user.spawn()
    user.turn(parent.tid, Enter(Call.FORK))
    user.turn(parent.tid, Leave())
    user.process(parent).kill(1001, Signal.SIGKILL)
    assert told(lambda: user.process(parent).ptrace(Request.PT_ATTACH, 1001)).endswith("ESRCH, 1001 has ended")


def test_without_rows_each_possible_condition_is_told() -> None:
    with Host(explain=False) as session:
        user = session.user(1001)
        debugger = user.process(user.spawn())
        user.spawn()
        debugger.ptrace(Request.PT_ATTACH, 1001)
        assert told(lambda: debugger.ptrace(Request.PT_STEP, 1001)) == (
            "ptrace(PT_STEP, 1001) by 1000: EBUSY, another process traces 1001, or 1001 is in no trace stop, or no wait has"
            " reported the stop of 1001"
        )


# ---- against the tables of docs/FORMAT.md


def table(heading: str, after: str) -> list[list[str]]:
    """The rows of the first table behind a heading, without the head. An empty first cell repeats the one above."""
    text = FORMAT.read_text(encoding="utf-8").split(after, 1)[1].split(heading, 1)[1]
    lines = re.search(r"(?:^\|.*\n)+", text, re.MULTILINE)
    assert lines is not None
    rows = [[cell.strip() for cell in line.strip("|\n").split("|")] for line in lines[0].splitlines()[2:]]
    for above, row in zip(rows, rows[1:]):
        row[0] = row[0] or above[0]
    return rows


def errnos(asked: Asked) -> list[str]:
    """The errnos of the call's conditions, each once, in order; those of its caller and of memory aside."""
    names = [condition.answer for condition in conditions(asked) if condition.answer not in ("held", "ENOMEM")]
    names = names[1 if asked.caller else 0 :]
    return [name for n, name in enumerate(names) if n == 0 or names[n - 1] != name]


def test_the_table_of_requests() -> None:
    rows = table("### Errors", "## 3. Requests")
    passing = {"PT_CONTINUE", "PT_STEP", "PT_TO_SCE", "PT_TO_SCX", "PT_SYSCALL", "PT_DETACH"}
    for request in Request:
        name = request.name
        wanted = []
        for who, code, _ in rows:
            applies = {
                "`PT_TRACE_ME`": name == "PT_TRACE_ME",
                "all others": name != "PT_TRACE_ME",
                "`PT_ATTACH`": name == "PT_ATTACH",
                "all but these two": name not in ("PT_TRACE_ME", "PT_ATTACH"),
                "those that pass on a signal": name in passing,
                "`PT_GETLWPLIST`": name == "PT_GETLWPLIST",
            }[who]
            if applies:
                wanted.append(code)
        data = 0 if name == "PT_GETLWPLIST" else 77 if name in passing else 1
        assert errnos(Asked("ptrace", 1001, 1000, (request, 1001, data))) == wanted, name


def test_the_table_of_ops() -> None:
    faulty: dict[str, Sequence[Any]] = {
        "spawn": (),
        "wait4": (0, 0),
        "kill": (0, 77),
        "sigaction": (0, Action.CATCH),
        "install": ([],),
        "handle": (),
        "list": (),
    }
    rows = table("### Errors", "## 2. Steps")
    for op, arguments in faulty.items():
        wanted = [code for who, code, _ in rows if who == f"`{op}`"]
        assert errnos(Asked(op, 1001, 0 if op == "spawn" else 1000, arguments)) == wanted, op


def test_the_table_of_turns() -> None:
    wanted = [row[0] for row in table("\n4. ", "## 4. Turns")]
    assert wanted == ["ESRCH", "EINVAL", "EAGAIN"]
    assert errnos(Asked("turn", 1001, 0, (100000, Leave()))) == wanted
    assert errnos(Asked("turn", 1001, 0, (100000, Raise(32)))) == wanted[:2]
