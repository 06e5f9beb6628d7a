"""The instructions of a step that names a number of another user's block: they don't tell what the other user has.

callgrind counts. The cost of a step is the difference of two runs with one preparation, so what a run costs besides is
not in it.
"""

from __future__ import annotations

import json
import pathlib
import shutil
import sys

import pytest

TOP = pathlib.Path(__file__).resolve().parents[2]
sys.path.insert(0, str(TOP / "bench"))

from runs import profile, whole  # noqa: E402

Steps = list[dict[str, object]]

# A user with two processes; and another one with a process that lives, has gone, or never was. Both scenarios of a
# difference have room for their lines from the beginning.
OWN: Steps = [{"user": 1001, "op": "spawn"}] * 2
LIVES: Steps = [{"user": 1002, "op": "spawn"}]
KILLED: Steps = [{"user": 1002, "op": "kill", "caller": 2000, "which": 2000, "signal": 9}]
OTHERS: dict[str, Steps] = {"never was": [], "lives": LIVES, "has gone": [*LIVES, *KILLED]}

NAMING: dict[str, dict[str, object]] = {
    "a kill of it": {"user": 1001, "op": "kill", "caller": 1000, "which": 2000, "signal": 0},
    "a kill by it": {"user": 1001, "op": "kill", "caller": 2000, "which": 1001, "signal": 0},
    "an attach": {"user": 1001, "op": "ptrace", "caller": 1000, "request": "PT_ATTACH", "target": 2000},
    "an attach to its LWP": {"user": 1001, "op": "ptrace", "caller": 1000, "request": "PT_ATTACH", "target": 104000},
    "a turn of its LWP": {"user": 1001, "op": "turn", "lwp": 104000, "act": "compute"},
    "a wait for it": {"user": 1001, "op": "wait4", "caller": 1000, "which": 2000},
    "a list by it": {"user": 1001, "op": "list", "caller": 2000},
}
FEW, MANY = 1000, 2000

pytestmark = pytest.mark.skipif(not shutil.which("valgrind"), reason="needs valgrind")


def instructions(program: pathlib.Path, steps: Steps, room: pathlib.Path) -> int:
    scenario, counts = room / "scenario.json", room / "counts"
    scenario.write_text(json.dumps({"steps": steps}, separators=(",", ":")))
    profile(str(program), str(scenario), str(counts))
    return whole(str(counts))


def cost(program: pathlib.Path, before: Steps, step: dict[str, object], room: pathlib.Path) -> float:
    few, many = (instructions(program, [*before, *[step] * count], room) for count in (FEW, MANY))
    return (many - few) / (MANY - FEW)


@pytest.mark.parametrize("name", NAMING)
def test_a_foreign_number_costs_the_same(name: str, program: pathlib.Path, tmp_path: pathlib.Path) -> None:
    costs = {state: cost(program, [*OWN, *steps], NAMING[name], tmp_path) for state, steps in OTHERS.items()}
    assert max(costs.values()) - min(costs.values()) < 1, costs
