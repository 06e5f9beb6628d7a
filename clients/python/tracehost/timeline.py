"""A session in time: its steps with their replies, the rows that a user sees after each, and which step made a row so."""

from __future__ import annotations

import json
import subprocess
from bisect import bisect_right
from collections.abc import Callable, Iterator, Mapping, Sequence
from typing import Any, NamedTuple, Optional

from .naming import word_text
from .program import default
from .step_words import words_of

Row = Mapping[str, Any]
_MOST_LINKS = 8  # of a chain of causes
_SECONDS = 300.0
_RESUMES = ("PT_CONTINUE", "PT_STEP", "PT_TO_SCE", "PT_TO_SCX", "PT_SYSCALL", "PT_DETACH", "PT_KILL")
_MET = ("stopped", "ended", "caught")  # the replies of a turn that has met a signal
_STOPS = ("trace_stop", "job_stop")


class Refused(Exception):
    """The program doesn't run the steps; the message has its words."""


class Step(NamedTuple):
    """A step, and the reply: members of docs/FORMAT.md."""

    number: int
    """From 1, among all users' steps."""
    user: int
    asked: Mapping[str, Any]
    reply: Mapping[str, Any]

    def answer(self) -> str:
        """The reply in words."""
        return answer_text(self.reply)

    def words(self) -> str:
        return f"{words_of(self.asked)} -> {self.answer()}"


class Change(NamedTuple):
    """A row before and after a step; None if it isn't there."""

    number: int
    """Of the process or LWP."""
    before: Optional[Row]
    after: Optional[Row]


class Cause(NamedTuple):
    """A step that made a row as it is, and how far it is from the one that was asked for."""

    depth: int
    step: Step


class Timeline:
    """The steps of a session that the program runs. Steps are counted from 1; at 0 nothing is there yet."""

    def __init__(
        self, steps: Sequence[Mapping[str, Any]], kill_on_debugger_exit: Optional[bool] = None, program: Optional[str] = None
    ) -> None:
        """Raises Refused."""
        self.steps: list[Step] = []
        self._changed: list[list[int]] = []
        """For each step the numbers of the rows that it changed."""
        self._past: dict[int, dict[int, tuple[list[int], list[Optional[Row]]]]] = {}
        """For each user and row: the steps that changed it, and what it was then."""
        for line in _trace_of(scenario_text(steps, kill_on_debugger_exit), program):
            self._add(json.loads(line))

    def __len__(self) -> int:
        return len(self.steps)

    def user_at(self, at: int) -> int:
        """Whose step it is; 1001 before the first one."""
        return self.steps[at - 1].user if at else 1001

    def users(self) -> list[int]:
        return sorted({step.user for step in self.steps})

    def rows(self, at: int, user: int) -> dict[int, Row]:
        """The rows that the user sees after a step, by the numbers of processes and LWPs."""
        found = ((number, self.row(at, user, number)) for number in sorted(self._past.get(user, ())))
        return {number: row for number, row in found if row is not None}

    def row(self, at: int, user: int, number: int) -> Optional[Row]:
        steps, rows = self._past.get(user, {}).get(number, ([], []))
        place = bisect_right(steps, at)
        return rows[place - 1] if place else None

    def changes(self, at: int) -> list[Change]:
        """What a step changed of its user's rows."""
        user = self.user_at(at)
        return [Change(number, self.row(at - 1, user, number), self.row(at, user, number)) for number in self._changed[at - 1]]

    def last_change(self, at: int, user: int, number: int, field: Optional[str] = None) -> Optional[int]:
        """The last step up to this one that changed a row, or the field of it; None if none did."""
        steps, rows = self._past.get(user, {}).get(number, ([], []))
        for place in range(bisect_right(steps, at) - 1, -1, -1):
            before = rows[place - 1] if place else None
            if field is None or (before or {}).get(field) != (rows[place] or {}).get(field):
                return steps[place]
        return None

    def causes(self, at: int, user: int, number: int, field: Optional[str] = None) -> list[Cause]:
        """The step that made a row, or a field of it, as it is after step `at`, and what led to that step."""
        return list(self._causes(at, user, number, field, 0, set()))

    def is_stop(self, at: int) -> bool:
        """Whether a process stopped at this step."""
        stopped = (change for change in self.changes(at) if change.after is not None and change.after.get("state") in _STOPS)
        return any(change.before is None or change.before.get("state") not in _STOPS for change in stopped)

    def _causes(self, at: int, user: int, number: int, field: Optional[str], depth: int, seen: set[int]) -> Iterator[Cause]:
        found = self.last_change(at, user, number, field)
        if found is None or found in seen or depth == _MOST_LINKS:
            return
        seen.add(found)
        step = self.steps[found - 1]
        yield Cause(depth, step)
        for other, other_field in self._led_to(step):
            yield from self._causes(found - 1, user, other, other_field, depth + 1, seen)

    def _led_to(self, step: Step) -> Iterator[tuple[int, Optional[str]]]:
        """The rows, and their fields, that made a step do what it did."""
        asked, before = step.asked, step.number - 1
        if asked["op"] == "turn" and step.reply["reply"] in _MET:
            lwp = self.row(before, step.user, asked["lwp"]) or {}
            signal = step.reply.get("signal") or step.reply.get("signaled")
            for number in (asked["lwp"], lwp.get("pid", 0)):
                if signal in (self.row(before, step.user, number) or {}).get("pending", ()):
                    yield number, "pending"
            if lwp.get("stepping"):
                yield asked["lwp"], "stepping"
            if lwp.get("due"):
                yield asked["lwp"], "due"
            if step.reply.get("flags"):
                yield asked["lwp"], "mode"
                yield lwp.get("pid", 0), "events"
        elif asked["op"] == "ptrace" and asked["request"] in _RESUMES:
            yield asked["target"], "state" if asked["target"] < 100_000 else None
        elif asked["op"] in ("wait4", "handle") and "pid" in step.reply:
            yield step.reply["pid"], "state"

    def _add(self, line: Mapping[str, Any]) -> None:
        step = Step(len(self.steps) + 1, line["user"], line["asked"], line)
        rows = line["rows"]
        self.steps.append(step)
        numbers = []
        for row in (*rows.get("processes", ()), *rows.get("lwps", ())):
            numbers.append(row.get("lwp") or row["pid"])
            self._note(step, numbers[-1], row)
        for number in (*rows.get("removed_processes", ()), *rows.get("removed_lwps", ())):
            numbers.append(number)
            self._note(step, number, None)
        self._changed.append(numbers)

    def _note(self, step: Step, number: int, row: Optional[Row]) -> None:
        steps, rows = self._past.setdefault(step.user, {}).setdefault(number, ([], []))
        steps.append(step.number)
        rows.append(row)


def scenario_text(steps: Sequence[Mapping[str, Any]], kill_on_debugger_exit: Optional[bool]) -> str:
    """The scenario of these steps, a line each."""
    setting = "" if kill_on_debugger_exit is None else f'"kill_on_debugger_exit":{int(kill_on_debugger_exit)},'
    lines = ",\n".join(json.dumps(step, separators=(",", ":")) for step in steps)
    return f'{{{setting}"steps":[\n{lines}\n]}}\n'


def lines_of(scenario: str, *options: str, program: Optional[str] = None) -> list[str]:
    """The lines that the program prints of a scenario. Raises Refused, with what it says, and OSError."""
    command = [program or default(), *options, "--explain=always", "-"]
    given = scenario.encode("utf-8", "surrogateescape")
    try:
        done = subprocess.run(command, input=given, stdout=subprocess.PIPE, stderr=subprocess.PIPE, timeout=_SECONDS, check=False)
    except subprocess.TimeoutExpired:
        raise Refused(f"{command[0]}: it didn't end in {_SECONDS:.0f} seconds") from None
    if done.returncode:
        raise Refused(done.stderr.decode("utf-8", "replace").strip() or f"{command[0]}: status {done.returncode}")
    return done.stdout.decode().splitlines()


def _trace_of(scenario: str, program: Optional[str]) -> list[str]:
    return lines_of(scenario, "--json=trace+rows", program=program)


# ---- words


def answer_text(reply: Mapping[str, Any]) -> str:
    """A reply of docs/FORMAT.md in words."""
    kind = reply["reply"]
    return _ANSWERS[kind](reply) if kind in _ANSWERS else str(kind)


def _flags(names: Sequence[str]) -> str:
    return "+".join(names) or "no flags"


def _handled(reply: Mapping[str, Any]) -> str:
    by = "no handler" if reply["by"] is None else f"handler {reply['by']}"
    passed = f" with {reply['pass']['signal']}" if reply.get("pass") else ""
    return f"{reply['pid']} {word_text(reply['word'])}, {by}: {reply['decision']}{passed}"


def _info(reply: Mapping[str, Any]) -> str:
    sets = "".join(f", {name} {' '.join(reply[name])}" for name in ("mask", "pending") if reply[name])
    child = f", child {reply['child']}" if reply["child"] else ""
    code = f", code {reply['code']}" if reply["code"] else ""
    return f"LWP {reply['lwp']}, event {reply['event']}, {_flags(reply['flags'])}{sets}{child}{code}"


_ANSWERS: dict[str, Callable[[Mapping[str, Any]], str]] = {
    "new": lambda reply: f"new process {reply['pid']}, LWP {reply['lwp']}",
    "number": lambda reply: str(reply["number"]),
    "status": lambda reply: f"{reply['pid']} {word_text(reply['word'])}",
    "info": _info,
    "lwps": lambda reply: " ".join(["LWPs", *map(str, reply["lwps"])]),
    "pids": lambda reply: " ".join(["processes", *map(str, reply["pids"])]),
    "mask": lambda reply: f"events {_flags(reply['events'])}",
    "handled": _handled,
    "stopped": lambda reply: f"LWP {reply['lwp']} stopped {reply['signal']}, {_flags(reply['flags'])}",
    "caught": lambda reply: f"caught {reply['signal']}",
    "ended": lambda reply: f"ended: {word_text(reply['word'])}",
    "error": lambda reply: str(reply["errno"]),
}


def value_text(value: Any) -> str:
    if isinstance(value, list):
        return " ".join(value) or "none"
    return "none" if value in (None, False) else "yes" if value is True else str(value)


def change_text(change: Change) -> str:
    """What became of a row, by the names of its members."""
    name = f"LWP {change.number}" if change.number >= 100_000 else f"process {change.number}"
    if change.after is None:
        return f"{name} is gone"
    if change.before is None:
        return f"{name} is new: {row_text(change.after)}"
    before, after = change.before, change.after
    fields = [
        field for field in (*before, *(field for field in after if field not in before)) if before.get(field) != after.get(field)
    ]
    return f"{name}: " + ", ".join(f"{field} {value_text(before.get(field))} => {value_text(after.get(field))}" for field in fields)


def row_text(row: Row) -> str:
    """A row's members, without its number."""
    own = "lwp" if "lwp" in row else "pid"
    return ", ".join(f"{name} {value_text(value)}" for name, value in row.items() if name != own)


def tree_of(rows: Mapping[int, Row]) -> list[str]:
    """The processes below their parents, with their LWPs, a line each."""
    processes = {number: row for number, row in rows.items() if "lwp" not in row}
    lines: list[str] = []

    def add(number: int, depth: int) -> None:
        lines.append(f"{'  ' * depth}{number}: {row_text(processes[number])}")
        for lwp, row in rows.items():
            if "lwp" in row and row["pid"] == number:
                lines.append(
                    f"{'  ' * depth}  LWP {lwp}: {row_text({name: value for name, value in row.items() if name != 'pid'})}"
                )
        for child, row in processes.items():
            if row["parent"] == number:
                add(child, depth + 1)

    for number, row in processes.items():
        if row["parent"] not in processes:
            add(number, 0)
    return lines
