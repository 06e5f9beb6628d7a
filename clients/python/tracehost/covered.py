"""Which rows of the machine sessions have met: the goals of their steps, counted."""

from __future__ import annotations

from collections.abc import Iterator, Mapping, Sequence
from fnmatch import fnmatchcase
from typing import Any, NamedTuple

from .goals import ALL, LookUp, Row, of_lwp, of_process, of_refusal, of_reply
from .refusals import Rows
from .timeline import Change, Step, Timeline

_REFUSED = ("held", "error")


class Place(NamedTuple):
    """A step of a trace, from 1."""

    trace: str
    step: int


class Met(NamedTuple):
    """How often a goal was met, and where first."""

    times: int
    first: Place


class Unnamed(Exception):
    """A step met what no table names: a fault of these tables, and not of the trace."""


class Coverage:
    """What traces have met."""

    def __init__(self) -> None:
        self.met: dict[str, Met] = {}
        self.traces = self.steps = 0
        self.unread: list[str] = []
        """What is missing, and why."""

    def add(self, timeline: Timeline, name: str) -> None:
        """Counts what the steps of a session have met. Raises Unnamed."""
        self.traces += 1
        met = _Met(timeline)
        for step in timeline.steps:
            self.steps += 1
            for goal in met.goals(step):
                if goal not in ALL:
                    raise Unnamed(f"{name}, step {step.number}: no table has {goal!r}")
                self._count(goal, 1, Place(name, step.number))

    def add_counts(self, counts: Mapping[str, Any]) -> None:
        """Those of another process, as `counts` gives them."""
        self.traces += counts["traces"]
        self.steps += counts["steps"]
        self.unread += counts["unread"]
        for goal, (times, trace, step) in counts["met"].items():
            self._count(goal, times, Place(trace, step))

    def counts(self) -> dict[str, Any]:
        """All of it as plain values."""
        met = {goal: (met.times, *met.first) for goal, met in self.met.items()}
        return {"traces": self.traces, "steps": self.steps, "unread": self.unread, "met": met}

    def _count(self, goal: str, times: int, place: Place) -> None:
        before = self.met.get(goal)
        self.met[goal] = Met(times, place) if before is None else Met(before.times + times, before.first)


class _Met:
    """What the steps of a session meet, one after the other."""

    def __init__(self, timeline: Timeline) -> None:
        self._timeline = timeline
        self._rows: dict[int, dict[int, Row]] = {}
        """Those of each user, as the steps so far have left them."""

    def goals(self, step: Step) -> Iterator[str]:
        """What the next step meets. Raises Unnamed."""
        rows = self._rows.setdefault(step.user, {})
        if step.reply["reply"] in _REFUSED:
            known = Rows.of_objects(row for _, row in sorted(rows.items()))
            try:
                yield of_refusal({**step.asked, "user": step.user}, step.reply.get("errno", "held"), known)
            except LookupError as error:
                raise Unnamed(str(error)) from error
            return
        yield of_reply(step.asked, step.reply, rows.get)
        changes = self._timeline.changes(step.number)
        for number, _, row in changes:
            if row is None:
                rows.pop(number, None)
            else:
                rows[number] = row
        for change in changes:
            yield from _of_change(change, rows.get)


def _of_change(change: Change, after: LookUp) -> Iterator[str]:
    old, new = change.before, change.after
    row = new if new is not None else old
    if row is not None and old != new:
        yield from of_lwp(old, new) if "lwp" in row else of_process(old, new, after)


def chosen(omitted: Sequence[str]) -> list[str]:
    """The goals that no pattern leaves out, in their order."""
    return [goal for goal in ALL if not any(fnmatchcase(goal, pattern) for pattern in omitted)]
