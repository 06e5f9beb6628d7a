"""Mutated logs: tracehost-check tells each at its line, or explains it.

Small random logs, and their mutants, are judged by a plain search on the second model, `small_logs.py`: verdict and line have to be
the same. Mutants of recorded runs say themselves what comes of them, `mutated_logs.py`.
"""

from __future__ import annotations

import random
from collections.abc import Sequence
from pathlib import Path
from typing import Optional

import pytest

from checking import needs
from log_checker import Checker, recorded
from mutated_logs import KINDS, mutants
from posix_kit import RACES, SCALE, Posix
from recorded_logs import signal_name
from small_logs import SENT, Event, small_log, unexplained

MUTANTS = 300 * SCALE
EACH = 4 * SCALE
"""So many of each kind."""


@pytest.fixture
def checker(library: Path, tmp_path: Path) -> Checker:
    return Checker(library, tmp_path)


# ---- recorded runs


@needs("cc")
def test_mutants_of_recorded_runs(posix: Posix, checker: Checker, tmp_path: Path) -> None:
    """Of each kind some, of races of chance."""
    draw = random.Random(7)
    logs = [recorded(posix, tmp_path, f"races/{race}.c", seed=1) for race in draw.sample(RACES, min(len(RACES), 4 * SCALE))]
    made = [mutants(log) for log in logs]
    tried = 0
    for kind in (kind.__name__ for kind in KINDS):
        found = [mutant for kinds in made for mutant in kinds[kind]]
        tried += min(EACH, len(found))
        for mutant in draw.sample(found, min(EACH, len(found))):
            text = "\n".join([*mutant.lines, ""])
            verdict = checker.of_text(text)
            assert (verdict.status, verdict.line) == (mutant.status, mutant.line), f"{kind}\n{text}\n{verdict.text}"
    assert tried > 4 * EACH


# ---- small logs and mutants, judged by the second model


def text_of(events: Sequence[Event]) -> str:
    return "".join(f"{event.line()}\n" for event in events)


def first_gap(events: Sequence[Event]) -> Optional[int]:
    """The first line whose number isn't the one that is due."""
    last: dict[int, int] = {}
    asking: dict[int, bool] = {}
    for place, event in enumerate(events, 1):
        if event.kind == "begins":
            last[event.pid], asking[event.pid] = 0, False
            continue
        is_due = event.pid in last and event.number == last[event.pid] + (event.kind == "asks")
        if not is_due or asking[event.pid] != (event.kind == "told"):
            return place
        last[event.pid], asking[event.pid] = event.number, event.kind == "asks"
    return None


def mutant(events: Sequence[Event], draw: random.Random) -> Optional[list[Event]]:
    """The log with another errno or status, or without a line, or with a line at another place."""
    made = list(events)
    told = [at for at, event in enumerate(made) if event.kind == "told" and event.call[0] != "fork"]
    statuses = [at for at in told if "status=" in made[at].answer]
    kind = draw.choice(["errno", "errno", "status", "status", "remove", "move", "move"])
    if kind == "errno" and told:
        at = draw.choice(told)
        answers = ["0", *(f"-1 errno={name}" for name in ("EPERM", "ESRCH", "EBUSY", "EINVAL", "ECHILD"))]
        made[at] = made[at]._replace(answer=draw.choice([answer for answer in answers if answer != made[at].answer]))
        return made
    if kind == "status" and statuses:
        at = draw.choice(statuses)
        pid, _, status = made[at].answer.partition(" status=")
        signals = [signal_name(number) for number in SENT]
        others = [f"exited:{code}" for code in range(4)] + [f"{how}:{name}" for how in ("stopped", "signaled") for name in signals]
        made[at] = made[at]._replace(answer=f"{pid} status={draw.choice([o for o in others if o != status])}")
        return made
    at = draw.randrange(1, len(made))
    moved = made.pop(at)
    if kind == "move":
        made.insert(max(1, at + draw.choice([-4, -2, -1, 1, 2, 4])), moved)
    return made if kind in ("move", "remove") else None


def wanted(events: Sequence[Event]) -> tuple[int, Optional[int]]:
    gap = first_gap(events)
    if gap is not None:
        return 2, gap
    place = unexplained(events)
    return (0, None) if place is None else (1, place)


@pytest.mark.parametrize("part", range(10))
def test_mutants(checker: Checker, part: int) -> None:
    """The verdict, and the line, are those of a plain search on the second model."""
    found = {0: 0, 1: 0, 2: 0}
    for seed in range(part * MUTANTS // 10, (part + 1) * MUTANTS // 10):
        draw = random.Random(seed)
        events = small_log(seed, 8)
        if seed % 5 == 0:
            assert wanted(events) == (0, None) and checker.of_text(text_of(events)).status == 0, text_of(events)
        changed = next(made for made in iter(lambda: mutant(events, draw), 0) if made is not None)
        verdict, right = checker.of_text(text_of(changed)), wanted(changed)
        assert (verdict.status, verdict.line) == right, f"{right}\n{text_of(changed)}\n{verdict.text}"
        found[verdict.status] += 1
    assert all(found.values()), found
