"""How some sessions begin: steps that lead to states in which rare goals are near."""

from __future__ import annotations

import random
from collections import Counter
from collections.abc import Sequence
from pathlib import Path
from typing import NamedTuple, Optional

from .goals import goals_of
from .kinds import KINDS

FILE = Path(__file__).with_name("starts.txt")
_ONLY_HERE = "kinds: "
_SETTING = "kill_on_debugger_exit: "
_AT_RANDOM = 0.3


class Start(NamedTuple):
    name: str
    kills: Optional[bool]
    """The setting, if the start needs one."""
    kinds: Sequence[str]
    steps: Sequence[str]


def read_starts(text: str) -> list[Start]:
    blocks = [block.splitlines() for block in text.split("\n\n")]
    return [_start(lines) for lines in blocks if len(lines) > 1]


def _start(lines: list[str]) -> Start:
    name, *rest = lines
    kinds = [line[len(_ONLY_HERE) :].split() for line in rest if line.startswith(_ONLY_HERE)]
    kills = [line == f"{_SETTING}1" for line in rest if line.startswith(_SETTING)]
    steps = [line for line in rest if line.strip() and not line.startswith((_SETTING, _ONLY_HERE))]
    return Start(name[2:], kills[0] if kills else None, kinds[0] if kinds else ("shared", "all", "model"), steps)


class Starts:
    """Chooses starts for sessions of a kind."""

    def __init__(self, chance: random.Random, kind: str, counts: Counter[str]) -> None:
        self._chance, self._counts = chance, counts
        self._all = [start for start in read_starts(FILE.read_text(encoding="utf-8")) if kind in start.kinds]
        goals = set(goals_of(KINDS[kind]))
        self._goals = [start for start in self._all if start.name in goals]

    def choose(self) -> Optional[Start]:
        """None half the time. Else mostly the one whose goal was reached least often, or any."""
        if not self._all or self._chance.random() < 0.5:
            return None
        if self._chance.random() < _AT_RANDOM:
            return self._chance.choice(self._all)
        return min(self._goals, key=lambda start: self._counts[start.name])
