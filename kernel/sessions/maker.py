"""Makes random settled sessions that reach rare goals."""

from __future__ import annotations

import random
from collections import Counter
from collections.abc import Iterable, Iterator
from itertools import islice
from typing import NamedTuple, Optional

from .choosing import Chooser, Numbers
from .goals import Group, reached
from .kinds import KINDS
from .model import FIRST_USER, NO_ROWS, Made, Model, Rows, Settler, Unsettled, by_user, changed_lines, lines_of, step_in
from .starts import Starts

_STEPS = (20, 30)
_MOST_LWPS = 12
_TRIES = 20
# how often a session is to reach a goal, 30 of 2,500, and how often a habit of a kernel may end one
_PACE = 0.012
# how often a further user takes part
_SHARES = 0.3
# how often a step is to be refused, and how often if the refusal is behind
_REFUSED, _REFUSED_BEHIND = 0.15, 0.4
# how many candidates there are for another; the one with the rarest goal is taken
_CANDIDATES = (1, 3, 6)
_NOTHING_NEW = 1 << 30


class Part(NamedTuple):
    """A step with the turns that follow it, and the lines of the rows that it has changed."""

    made: tuple[Made, ...]
    rows: tuple[str, ...]


class Session(NamedTuple):
    name: str
    kills: bool
    parts: tuple[Part, ...]

    def __str__(self) -> str:
        """The session as a file has it, without the empty line at its end."""
        lines = [f"# {self.name}", *([] if self.kills else ["kill_on_debugger_exit: 0"])]
        for part in self.parts:
            lines += [*map(str, part.made), *part.rows]
        return "\n".join(lines) + "\n"


class _Tried(NamedTuple):
    """A candidate, and a model in the state after it."""

    model: Model
    group: Group
    goals: set[str]
    habit: str


class _Started:
    """A session that is being made."""

    def __init__(self, model: Model) -> None:
        self.model = model
        self.parts: list[Part] = []
        self.rows: dict[int, Rows] = {}
        self.seen: dict[int, Numbers] = {}
        self._lines: dict[int, dict[str, str]] = {}

    def rows_of(self, user: int) -> Rows:
        return self.rows.get(user, NO_ROWS)

    def seen_by(self, user: int) -> Numbers:
        return self.seen.setdefault(user, Numbers())

    def add(self, group: Group) -> None:
        user, seen = group.user, self.seen_by(group.user)
        self.rows[user] = group.after.since(self.rows_of(user), group.made)
        seen.gone_processes += [pid for pid in group.before.processes if pid not in group.after.processes]
        seen.gone_lwps += [lwp for lwp in group.before.lwps if lwp not in group.after.lwps]
        for other in self.seen:
            if other != user:
                self.seen[other].others = [*group.after.processes, *group.after.lwps]
        lines = lines_of(user, self.rows[user])
        self.parts.append(Part(tuple(group.made), tuple(changed_lines(self._lines.get(user, {}), lines))))
        self._lines[user] = lines


class Maker:
    """Makes sessions of a kind, and counts what they reach."""

    def __init__(self, seed: int, kind: str, users: int = 1) -> None:
        self.name, self.seed = kind, seed
        self.counts: Counter[str] = Counter()
        self.unsettled: Counter[str] = Counter()
        self.steps = 0
        self._pace = 1.0
        self._habits: Counter[str] = Counter()
        self._kind, self._chance = KINDS[kind], random.Random(seed)
        self._users = [FIRST_USER + number for number in range(users)]
        self._chooser = Chooser(self._chance, self._kind, self.counts)
        self._starts = Starts(self._chance, kind, self.counts)
        self._settler = Settler(self._chance, self._kind.unordered)
        self._new = {kills: Model(kills) for kills in (True, False)}
        self._free = [Model() for _ in range(max(_CANDIDATES) + 1)]

    def sessions(self, count: int) -> Iterator[Session]:
        return (self._session(f"{self.name} {self.seed} {number}") for number in range(count))

    def _session(self, name: str) -> Session:
        self._pace += _PACE
        start = self._starts.choose()
        kills = self._chance.random() < self._kind.kills
        if start is not None and start.kills is not None:
            kills = start.kills
        started = _Started(self._free.pop())
        started.model.become(self._new[kills])
        for words in start.steps if start is not None else ["spawn"] * self._chance.choice((1, 2, 3)):
            self._take(started, self._tried(started, self._users[0], words))
        for user in self._users[1:]:
            if self._chance.random() < _SHARES:
                self._take(started, self._tried(started, user, by_user(user, "spawn")))
        for _ in range(self._chance.randint(*_STEPS) - len(started.parts)):
            self._take(started, self._next(started))
        self._free.append(started.model)
        return Session(name, kills, tuple(started.parts))

    def _next(self, started: _Started) -> Optional[_Tried]:
        """A step that is refused, or of some candidates the one with the rarest goal."""
        user = self._chance.choice(list(started.rows))
        rows, seen = started.rows_of(user), started.seen_by(user)
        chance = self._chance.random()
        if chance < _REFUSED_BEHIND:
            refused = self._chooser.refused_steps(rows, seen)
            if chance < _REFUSED or self.counts[refused[0][0]] < self._pace:
                return self._candidate(started, user, (words for _, words in refused))
        best: Optional[_Tried] = None
        for _ in range(self._chance.choice(_CANDIDATES)):
            tried = self._candidate(started, user, (self._chooser.step(rows, seen) for _ in range(_TRIES)))
            if tried is not None and best is not None:
                best, tried = sorted((best, tried), key=self._rarity)
                self._free.append(tried.model)
            best = best or tried
        return best

    def _rarity(self, tried: _Tried) -> int:
        if tried.group.is_refused:
            return _NOTHING_NEW
        return min((self.counts[goal] for goal in tried.goals), default=_NOTHING_NEW)

    def _candidate(self, started: _Started, user: int, steps: Iterable[str]) -> Optional[_Tried]:
        """The first of these steps that a kernel can make, and that leads to one state; None if there is none."""
        rows = started.rows_of(user)
        for words in islice(steps, _TRIES):
            if len(rows.lwps) >= _MOST_LWPS and words.endswith(("spawn", "fork", "thr_new")):
                continue
            words = by_user(user, words)
            step = step_in(words)
            if self._kind.allows(rows, step) and self._is_wanted(self._kind.habit(rows, step)):
                tried = self._tried(started, user, words)
                if tried is not None:
                    return tried
        return None

    def _is_wanted(self, habit: str) -> bool:
        """Whether a step is to be made that a habit of a kernel would end."""
        return not habit or self._habits[habit] < self._pace

    def _tried(self, started: _Started, user: int, words: str) -> Optional[_Tried]:
        model = self._free.pop()
        model.become(started.model)
        try:
            made = self._settler.group(model, words)
        except Unsettled as unsettled:
            self.unsettled[str(unsettled)] += 1
            self._free.append(model)
            return None
        rows = started.rows_of(user)
        group = Group(user, rows, model.rows(user), made)
        return _Tried(model, group, reached(group, model), self._kind.habit(rows, step_in(words)))

    def _take(self, started: _Started, tried: Optional[_Tried]) -> None:
        if tried is None:
            return
        self.steps += 1
        self.counts.update(tried.goals)
        self._habits[tried.habit] += 1
        started.add(tried.group)
        self._free.append(started.model)
        started.model = tried.model
