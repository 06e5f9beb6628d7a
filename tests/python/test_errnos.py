"""Each row of docs/ERRNOS.md: a session whose last step is answered by that errno, for each call that the row names.

    python3 -m pytest tests/python/test_errnos.py
"""

from __future__ import annotations

import json
import re
from pathlib import Path
from typing import NamedTuple

import pytest
from checking import run

TOP = Path(__file__).resolve().parents[2]
ROW = re.compile(r"^\| (?:`(E\w+)` \d+)? ?\| ([^|]*) \|", re.MULTILINE)
Step = dict[str, object]


class Row(NamedTuple):
    """A row of the page: an errno, and the calls that answer it."""

    errno: str
    calls: str


def rows() -> list[Row]:
    table = (TOP / "docs/ERRNOS.md").read_text(encoding="utf-8").partition("| errno |")[2].partition("\n\n")[0]
    found: list[Row] = []
    for errno, calls in ROW.findall(table.partition("|---|---|---|---|\n")[2]):
        found.append(Row(errno or found[-1].errno, calls))
    return found


def ptrace(request: str, target: int = 1001, caller: int = 1000, **keys: object) -> Step:
    given = {} if request == "PT_TRACE_ME" else {"target": target}
    return {"op": "ptrace", "caller": caller, "request": request, **given, **keys}


def call(op: str, caller: int = 1000, **keys: object) -> Step:
    return {"op": op, "caller": caller, **keys}


def act(kind: str, lwp: int = 100000, **keys: object) -> Step:
    return {"op": "turn", "lwp": lwp, "act": kind, **keys}


SPAWN: Step = {"op": "spawn"}
TWO = [SPAWN, SPAWN]
FORK = [SPAWN, act("enter", call="fork"), act("leave")]
ATTACHED = [*TWO, ptrace("PT_ATTACH")]
STOPPED = [*ATTACHED, call("wait4", which=-1)]
HANDLER = call("install", rules=[])
MANY = [SPAWN] * 250

SESSIONS: list[tuple[str, str, list[Step]]] = [
    ("EPERM", "`PT_TRACE_ME`", [SPAWN, ptrace("PT_TRACE_ME")]),
    ("EPERM", "other requests", [*TWO, ptrace("PT_CONTINUE")]),
    ("ESRCH", "any", [SPAWN, call("list", 1500)]),
    ("ESRCH", "any", [SPAWN, call("list", 2000)]),
    ("ESRCH", "requests, `kill`, `turn`", [SPAWN, ptrace("PT_ATTACH")]),
    ("ESRCH", "requests, `kill`, `turn`", [SPAWN, call("kill", which=1001, signal=0)]),
    ("ESRCH", "requests, `kill`, `turn`", [SPAWN, act("compute", 100001)]),
    ("ESRCH", "requests, `kill`, `turn`", [*FORK, call("kill", which=1001, signal=9), ptrace("PT_ATTACH")]),
    ("ESRCH", "`kill` with -1", [SPAWN, call("kill", which=-1, signal=0)]),
    ("ECHILD", "`wait4`, `handle`", [*TWO, call("wait4", which=1001)]),
    ("ECHILD", "`wait4`, `handle`", [SPAWN, call("handle")]),
    ("EBUSY", "`PT_TRACE_ME`, `PT_ATTACH`", [*FORK, ptrace("PT_TRACE_ME", caller=1001), ptrace("PT_TRACE_ME", caller=1001)]),
    ("EBUSY", "`PT_TRACE_ME`, `PT_ATTACH`", [*ATTACHED, ptrace("PT_ATTACH")]),
    ("EBUSY", "other requests", [*ATTACHED, ptrace("PT_CONTINUE")]),
    ("EBUSY", "other requests", [*ATTACHED, SPAWN, ptrace("PT_CONTINUE", caller=1002)]),
    ("EINVAL", "`PT_ATTACH`, `PT_TRACE_ME`", [SPAWN, ptrace("PT_ATTACH", 1000)]),
    ("EINVAL", "`PT_ATTACH`, `PT_TRACE_ME`", [*FORK, ptrace("PT_ATTACH", 1000, 1001), ptrace("PT_TRACE_ME", caller=1001)]),
    ("EINVAL", "`PT_CONTINUE` and the like", [*STOPPED, ptrace("PT_CONTINUE", data=32)]),
    ("EINVAL", "`PT_GETLWPLIST`", [*STOPPED, ptrace("PT_GETLWPLIST", data=0)]),
    ("EINVAL", "`kill`, `wait4`", [*TWO, call("kill", which=0, signal=0)]),
    ("EINVAL", "`kill`, `wait4`", [*TWO, call("kill", which=1001, signal=32)]),
    ("EINVAL", "`kill`, `wait4`", [*TWO, call("wait4", which=-2)]),
    ("EINVAL", "`sigaction`", [SPAWN, call("sigaction", signal=9, action="ignore")]),
    ("EINVAL", "`sigaction`", [SPAWN, call("sigaction", signal=0, action="default")]),
    ("EINVAL", "`turn`", [SPAWN, act("leave")]),
    ("EINVAL", "`turn`", [SPAWN, act("enter", call="fork"), act("compute")]),
    ("EINVAL", "`turn`", [SPAWN, act("raise", signal=32)]),
    ("EAGAIN", "`spawn`, `fork`, `vfork`, `thr_new`", [*MANY, SPAWN]),
    ("EAGAIN", "`spawn`, `fork`, `vfork`, `thr_new`", [*MANY, act("enter", call="vfork"), act("leave")]),
    ("EAGAIN", "`install`", [SPAWN, *[HANDLER] * 64, HANDLER]),
]  # fmt: skip


@pytest.mark.parametrize("errno, calls, steps", SESSIONS, ids=[f"{errno}-{number}" for number, (errno, *_) in enumerate(SESSIONS)])
def test_a_row(program: Path, errno: str, calls: str, steps: list[Step]) -> None:
    assert Row(errno, calls) in rows()
    printed = run(program, given=json.dumps({"steps": [{"user": 1001, **step} for step in steps]}))
    *before, last = printed.out.splitlines()
    assert (printed.status, len(before) + 1) == (0, len(steps))
    assert last.split()[2:4] == ["error", errno]
    assert not any(line.split()[2] in ("error", "held") for line in before)


def test_each_row_has_a_session() -> None:
    """But for the bits of a mask, which a scenario can't give."""
    tried = {Row(errno, calls) for errno, calls, _ in SESSIONS}
    assert [row for row in rows() if row not in tried] == [Row("EINVAL", "`PT_SET_EVENT_MASK`")]
