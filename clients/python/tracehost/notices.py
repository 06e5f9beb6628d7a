"""What an author of a debugger may want to look at in a session: the rules of `notice_rules`, asked of its steps and rows."""

from __future__ import annotations

import re
from collections import defaultdict
from collections.abc import Iterator, Mapping, Sequence
from typing import TYPE_CHECKING, Any, NamedTuple, Optional

from .conditions import SIGNAL_REQUESTS
from .names import FIRST_LWP, FIRST_PROCESS, FIRST_USER, LAST_PROCESS, LWP_NUMBERS, PROCESS_NUMBERS, Request, Signal
from .notice_rules import RULES, Facts

if TYPE_CHECKING:
    from .timeline import Row, Step

_STATES = ("runs", "trace_stop", "job_stop", "zombie")
_DECISIONS = {"continue": "PT_CONTINUE", "detach": "PT_DETACH"}


class Notice(NamedTuple):
    """What to look at."""

    at: int
    """A step, from 1 among all users' steps."""
    user: int
    kind: str
    """``wrong``, or ``open`` at the end of a session: the debugger may still do it."""
    text: str


class _Process:
    """What the steps have told of a process. Each is a step, or 0."""

    def __init__(self) -> None:
        self.since = self.reported_at = self.went_on_at = self.vain_at = self.missed_at = self.stepped_at = 0
        self.waits_missed = self.missed_for = self.stepping = 0
        self.have_others_gone_on = False  # since the stop was reported


class _User:
    """A user's rows, and what the steps have told of them."""

    def __init__(self, uid: int, users: set[int]) -> None:
        self._uid, self._users = uid, users
        self._processes: dict[int, Row] = {}
        self._lwps: dict[int, Row] = {}
        self._told: defaultdict[int, _Process] = defaultdict(_Process)
        self._ended_at: dict[int, int] = {}
        self._suspended_at: dict[int, int] = {}
        self._failed_at: dict[tuple[int, int], int] = {}  # by caller and target
        self._with_news: set[int] = set()  # those to whom a stop was reported since they let a process go on
        self._last = 0

    def read(self, step: Step) -> Iterator[Notice]:
        """The user's next step."""
        self._last = step.number
        refused = self._refusal(step)
        if refused is not None:
            yield from self._ask("refusal", step.number, refused)
        gone_on, ended = self._gone_on(step), [*self._ended(step.reply["rows"])]
        tracees = [(pid, self._tracees(pid)) for pid in ended]
        self._change(step.number, step.reply["rows"])
        self._note_answer(step)
        if gone_on is not None:
            yield from self._ask("go_on", step.number, self._let_on(step, gone_on))
        for pid, traced in tracees:
            yield from self._ask("debugger", step.number, {"pid": pid, "tracee": min(traced, default=0)})

    def end(self) -> Iterator[Notice]:
        """The session ends."""
        for pid, row in self._processes.items():
            yield from self._ask("process", self._last, self._facts_of_process(pid, row))
        for lwp, row in self._lwps.items():
            yield from self._ask("lwp", self._last, self._facts_of_lwp(lwp, row))

    def _ask(self, of: str, at: int, facts: Facts) -> Iterator[Notice]:
        for rule in RULES:
            if rule.of == of and rule.holds(facts):
                text = re.sub(r"\{(\w+)\}", lambda found: _shown(found[1], facts[found[1]]), rule.words)
                yield Notice(facts[rule.at] if rule.at else at, self._uid, rule.kind, text)

    # ---- what a step asks and answers

    def _process_of(self, number: int) -> int:
        """The process of this number, or of the LWP of this number."""
        return int(self._lwps[number]["pid"]) if number in self._lwps else number

    def _gone_on(self, step: Step) -> Optional[dict[str, Any]]:
        """The facts of a process that goes on, before the step."""
        asked, reply = step.asked, step.reply
        if reply["reply"] == "handled" and reply["decision"] in _DECISIONS:
            passed = 0 if not reply.get("pass") else reply["pass"]["number"]
            pid, target, request, stop = reply["pid"], 0, _DECISIONS[reply["decision"]], reply["stopped"]
        elif asked["op"] == "ptrace" and reply["reply"] == "ok" and Request[asked["request"]] in SIGNAL_REQUESTS:
            target, request, passed = asked["target"], asked["request"], asked.get("data", 0)
            pid = self._process_of(target)
            stop = self._processes.get(pid, {}).get("stop_signal")
        else:
            return None
        own = [self._processes.get(pid, {}), *(row for row in self._lwps.values() if row["pid"] == pid)]
        by = own[0].get("stop_lwp", 0)
        return {
            "request": request,
            "pid": pid,
            "stop_signal": Signal[stop].value if stop else 0,
            "passed_signal": passed,
            "has_trap": any("SIGTRAP" in row.get("pending", ()) for row in own),
            "is_detach": request == "PT_DETACH",
            "stepping": by if request == "PT_STEP" and target == pid and len(own) > 2 else 0,
        }

    def _let_on(self, step: Step, facts: dict[str, Any]) -> Facts:
        """The same with what is so afterwards."""
        pid, caller = facts["pid"], step.asked["caller"]
        told = self._told[pid]
        told.stepped_at, told.stepping = step.number if facts["stepping"] else 0, facts["stepping"]
        self._with_news.discard(caller)
        for other, row in self._processes.items():
            if other != pid and row.get("tracer") == caller and _is_reported_stop(row):
                self._told[other].have_others_gone_on = True
        return {
            **facts,
            "state": _STATES.index(self._processes.get(pid, {"state": "zombie"})["state"]),
            "running": sum(row["pid"] == pid and not row.get("suspended") for row in self._lwps.values()),
        }

    def _refusal(self, step: Step) -> Optional[Facts]:
        """The facts of an errno that answers what names a process."""
        asked = step.asked
        number = (
            asked.get("target", 0) if asked["op"] == "ptrace" else asked.get("which", 0) if asked["op"] in ("kill", "wait4") else 0
        )
        if number <= 0 or step.reply["reply"] != "error":
            if step.reply["reply"] == "ok":
                self._failed_at.pop((asked.get("caller", 0), number), None)
            return None
        caller, request = asked["caller"], asked.get("request", asked["op"])
        row = self._processes.get(self._process_of(number), {})
        told, is_tracee = self._told[self._process_of(number)], row.get("tracer") == caller
        facts = {
            "request": request,
            "caller": caller,
            "pid": number,
            "is_wait": request == "wait4",
            "is_kill": request == "kill",
            "is_attach": request == "PT_ATTACH",
            "ended_at": self._ended_at.get(number, 0),
            "failed_at": self._failed_at.get((caller, number), 0),
            "owner": self._owner(number),
            "is_tracee": is_tracee,
            "state": _STATES.index(row.get("state", "runs")),
            "is_reported": bool(row.get("reported")),
            "stop_signal": Signal[row["stop_signal"]].value if "stop_signal" in row else 0,
            "went_on_at": told.went_on_at,
            "has_kill": "SIGKILL" in row.get("pending", ()),
        }
        if request == "PT_ATTACH" and not is_tracee:
            self._failed_at[caller, number] = step.number
        return facts

    def _owner(self, number: int) -> int:
        """The other user of the session whose number it is, or 0."""
        if number <= LAST_PROCESS:
            owner = FIRST_USER + (number - FIRST_PROCESS) // PROCESS_NUMBERS
        else:
            owner = FIRST_USER + (number - FIRST_LWP) // LWP_NUMBERS
        return owner if owner != self._uid and owner in self._users else 0

    def _note_answer(self, step: Step) -> None:
        asked, reply = step.asked, step.reply
        if asked["op"] not in ("wait4", "handle"):
            return
        caller, which = asked["caller"], asked.get("which", -1)
        if "stopped" in reply:
            self._with_news.add(caller)
        elif "pid" in reply and "continued" not in reply:
            self._ended_at[reply["pid"]] = step.number
        for pid, told in self._told.items():
            if which in (-1, pid) and self._processes.get(pid, {}).get("tracer") == caller:
                told.waits_missed = 0
        if reply["reply"] == "nothing":
            self._note_vain_wait(step.number, caller, which)

    def _note_vain_wait(self, at: int, caller: int, which: int) -> None:
        own = {pid: row for pid, row in self._processes.items() if row.get("tracer", row["parent"]) == caller}
        if which == -1 and caller not in self._with_news and all(map(_is_reported_stop, own.values())):
            for pid in own:
                told = self._told[pid]
                told.vain_at = told.vain_at or (at if told.have_others_gone_on else 0)
        for row in self._lwps.values():
            child = row.get("vfork_child", 0)
            if row["pid"] == which and child in own and own[child]["state"] == "trace_stop" and not own[child].get("reported"):
                told = self._told[child]
                told.waits_missed, told.missed_for = told.waits_missed + 1, which
                told.missed_at = told.missed_at or (at if told.waits_missed == 2 else 0)

    # ---- rows

    def _ended(self, changes: Mapping[str, Any]) -> Iterator[int]:
        """The processes that end with these changes."""
        gone = [row["pid"] for row in changes.get("processes", ()) if row["state"] == "zombie"]
        for pid in (*gone, *changes.get("removed_processes", ())):
            if self._processes.get(pid, {"state": "zombie"})["state"] != "zombie":
                yield pid

    def _tracees(self, pid: int) -> list[int]:
        return [other for other, row in self._processes.items() if row.get("tracer") == pid and row["state"] != "zombie"]

    def _change(self, at: int, changes: Mapping[str, Any]) -> None:
        for row in changes.get("processes", ()):
            self._note_row(at, row)
            self._processes[row["pid"]] = row
        for pid in changes.get("removed_processes", ()):
            self._processes.pop(pid, None)
            self._told.pop(pid, None)
        for row in changes.get("lwps", ()):
            if row.get("suspended") and not self._lwps.get(row["lwp"], {}).get("suspended"):
                self._suspended_at[row["lwp"]] = at
            self._lwps[row["lwp"]] = row
        for lwp in changes.get("removed_lwps", ()):
            self._lwps.pop(lwp, None)

    def _note_row(self, at: int, row: Row) -> None:
        """When a stop begins, is reported and ends, and when a process ends."""
        pid, before = row["pid"], self._processes.get(row["pid"], {})
        if not before:
            self._told.pop(pid, None)
            self._ended_at.pop(pid, None)
        told, state, was = self._told[pid], row["state"], before.get("state")
        is_new_stop = state == "trace_stop" and (was != state or (before.get("reported") and not row.get("reported")))
        if is_new_stop or (state == "zombie" and was != state):
            told.since, told.waits_missed, told.missed_at = at, 0, 0
        if _is_reported_stop(row) and (is_new_stop or not before.get("reported")):
            told.reported_at, told.vain_at, told.have_others_gone_on = at, 0, False
        if was == "trace_stop" and state == "runs":
            told.went_on_at = at

    # ---- the end

    def _facts_of_process(self, pid: int, row: Row) -> Facts:
        told, tracer = self._told[pid], row.get("tracer", 0)
        waiter = tracer or row["parent"]
        is_there = self._processes.get(waiter, {"state": "zombie"})["state"] != "zombie"
        return {
            "pid": pid,
            "waiter": waiter if is_there else 0,
            "is_tracee": bool(tracer),
            "state": _STATES.index(row["state"]),
            "is_reported": bool(row.get("reported")),
            "stop_signal": Signal[row["stop_signal"]].value if "stop_signal" in row else 0,
            "since": told.since,
            "reported_at": told.reported_at,
            "is_new": max(told.since, told.reported_at) == self._last,
            "vain_at": told.vain_at,
            "parent": told.missed_for,
            "missed_at": told.missed_at,
            "stepped_at": told.stepped_at,
            "stepping": told.stepping,
        }

    def _facts_of_lwp(self, lwp: int, row: Row) -> Facts:
        pid, child = row["pid"], row.get("vfork_child", 0)
        child_row, process = self._processes.get(child, {}), self._processes[pid]
        others = [one for other, one in self._lwps.items() if one["pid"] == pid and other != lwp and not one.get("suspended")]
        is_left = row.get("suspended") and process["state"] == "runs" and others
        return {
            "lwp": lwp,
            "pid": pid,
            "child": child,
            "tracer": child_row.get("tracer", 0),
            "child_state": _STATES.index(child_row.get("state", "runs")),
            "since": self._told[child].since,
            "suspended_at": self._suspended_at.get(lwp, 0) if is_left else 0,
        }


def _is_reported_stop(row: Row) -> bool:
    return row["state"] == "trace_stop" and bool(row.get("reported"))


def _shown(name: str, value: Any) -> str:
    return Signal(value).name if name.endswith("signal") and value in Signal.__members__.values() else str(value)


def notices_of(steps: Sequence[Step]) -> list[Notice]:
    """What to look at, by the steps."""
    uids = {step.user for step in steps}
    users = {uid: _User(uid, uids) for uid in sorted(uids)}
    found = [notice for step in steps for notice in users[step.user].read(step)]
    found += [notice for user in users.values() for notice in user.end()]
    return sorted(found, key=lambda notice: notice.at)


def nearest_first(notices: Sequence[Notice], at: int, user: int) -> list[tuple[Notice, int]]:
    """Equal ones once, with how many there are: the user's first, then what may be wrong, then what is nearest before a step."""
    texts: dict[tuple[int, str, str], list[Notice]] = defaultdict(list)
    order = sorted(notices, key=lambda one: (one.user != user, one.kind != "wrong", one.at > at, abs(at - one.at)))
    for notice in order:
        texts[notice.user, notice.kind, notice.text].append(notice)
    return [(equal[0], len(equal)) for equal in texts.values()]
