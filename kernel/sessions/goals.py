"""What sessions are to reach: refusals, replies, stops, and edges between the states of processes and LWPs."""

from __future__ import annotations

import csv
from collections.abc import Iterable, Iterator, Mapping, Sequence
from fnmatch import fnmatchcase
from itertools import permutations
from pathlib import Path
from typing import Any, NamedTuple

from tracehost.goals import DUE, MODES, STATES, of_lwp, of_process, of_refusal, of_reply, refusals_of, replies_of, stops_of
from tracehost.names import Request
from tracehost.refusals import Rows as KnownRows

from .kinds import Kind
from .model import Made, Model, Rows, step_in

UNREACHED = Path(__file__).with_name("unreached.tsv")
LEAST = 20


class Group(NamedTuple):
    """A step of a user with the turns that follow it, and the rows on both sides."""

    user: int
    before: Rows
    after: Rows
    made: Sequence[Made]

    @property
    def is_refused(self) -> bool:
        reply = self.made[0].reply
        return reply == "held" or reply.startswith("error")


def reached(group: Group, model: Model) -> set[str]:
    """The goals that a group reaches; `model` is in the state after it."""
    if group.is_refused:
        words, reply = group.made[0]
        answer = "held" if reply == "held" else reply.split()[1]
        # a refused step has changed nothing, so the rows after it say why
        return {of_refusal(step_in(words), answer, KnownRows(model.session.rows(group.user)))}
    before, after = group.before, group.after
    goals = {of_reply(step_in(made.words), _reply(made.reply), before.row) for made in group.made}
    for pid in {**before.processes, **after.processes}:
        old, new = before.processes.get(pid), after.processes.get(pid)
        if old != new:
            goals.update(of_process(old, new, after.row))
    for number in {**before.lwps, **after.lwps}:
        if before.lwps.get(number) != after.lwps.get(number):
            goals.update(of_lwp(before.lwps.get(number), after.lwps.get(number)))
    return goals


def _reply(text: str) -> Mapping[str, Any]:
    """The members that goals ask for."""
    kind, *words = text.split()
    if kind == "status":
        return {"reply": kind, "pid": int(words[0]), "word": int(words[1])}
    return {"reply": kind, "event": words[1]} if kind == "info" else {"reply": kind}


# ---- all goals


def goals_of(kind: Kind) -> Iterator[str]:
    """All goals that sessions of the kind may have. A group is many steps, so each edge may be one of its."""
    requests = [request for request in Request if request.name in kind.weights]
    yield from refusals_of(requests)
    yield from replies_of(requests)
    yield from stops_of(kind.signals)
    yield from (f"process {first} -> {last}" for first, last in permutations(STATES, 2) if first != "gone" and last != "new")
    yield from (f"lwp {first} -> {last}" for first, last in permutations(MODES, 2) if first != "gone" and last != "new")
    yield from ("lwp suspended", "lwp resumed", "lwp stepping begins", "lwp stepping ends")
    yield from (f"lwp due {first} -> {last}" for first, last in permutations(DUE, 2))


class Unreached(NamedTuple):
    """Goals that sessions of these kinds can't reach, as a pattern, and why."""

    kinds: Sequence[str]
    pattern: str
    why: str


def read_unreached(path: Path = UNREACHED) -> list[Unreached]:
    with path.open(newline="", encoding="utf-8") as file:
        rows = csv.DictReader(file, delimiter="\t", quoting=csv.QUOTE_NONE)
        return [Unreached(row["kinds"].split(), row["goal"], row["why"]) for row in rows]


def why_unreached(name: str, goal: str, unreached: Iterable[Unreached]) -> str:
    """Why sessions of the kind of this name can't reach the goal; "" if they can."""
    return next((u.why for u in unreached if name in u.kinds and fnmatchcase(goal, u.pattern)), "")
