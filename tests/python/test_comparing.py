"""Two sessions in the terminal: `tracehost-debug A --compare B`, whatever numbers their processes got."""

from __future__ import annotations

import json
import os
import subprocess
import sys
from pathlib import Path
from typing import Any

import pytest
from checking import TOP

Step = dict[str, Any]
FORK = json.loads((TOP / "examples/follow_a_fork.json").read_text())["steps"]
USERS = json.loads((TOP / "examples/two_users.json").read_text())["steps"]
SPAWN: Step = {"user": 1001, "op": "spawn"}


def one_higher(step: Step) -> Step:
    """With the numbers that the processes of the first user have after one more spawn, except its first process."""
    numbers = {key: step[key] for key in ("caller", "target", "which", "lwp") if key in step and step["user"] == 1001}
    own = (*range(1001, 2000), *range(100_001, 104_000))
    return {**step, **{key: value + 1 for key, value in numbers.items() if value in own}}


def compare(folder: Path, left: list[Step], right: list[Step]) -> tuple[int, list[str]]:
    for name, steps in (("a", left), ("b", right)):
        (folder / f"{name}.json").write_text(json.dumps({"steps": steps}))
    environment = {**os.environ, "PYTHONPATH": str(TOP / "clients/python")}
    words = [sys.executable, "-m", "tracehost.debug", str(folder / "a.json"), "--compare", str(folder / "b.json")]
    done = subprocess.run(words, env=environment, capture_output=True, text=True, check=False)
    assert done.stderr == ""
    return done.returncode, done.stdout.splitlines()


@pytest.mark.parametrize("steps, listed", [(FORK, 0), (USERS, 1)], ids=["fork", "users"])
def test_one_more_process(steps: list[Step], listed: int, tmp_path: Path) -> None:
    """Only one step differs, and it is the right one's, but those that list the processes; and the other way round."""
    more = [*steps[:1], SPAWN, *map(one_higher, steps[1:])]
    status, lines = compare(tmp_path, steps, more)
    assert status == 1
    assert lines[:2] == [
        f"{len(steps) - listed} of {len(more)} steps are the same",
        "the first difference: only b makes step 2 of user 1001, spawn -> new process 1001, LWP 100001",
    ]
    assert lines[2].startswith("user 1001: 1001 of a is 1002 in b, and ")
    assert [line for line in lines[3:] if line[0] in "+-" and " list " not in line] == [
        "+     2 1001: spawn -> new process 1001, LWP 100001",
        "+ 1001 of b: parent 1, state runs",
        "+ LWP 100001 of b: mode runs",
    ]
    status, lines = compare(tmp_path, more, steps)
    assert status == 1
    assert lines[1] == "the first difference: only a makes step 2 of user 1001, spawn -> new process 1001, LWP 100001"


def test_the_same_session(tmp_path: Path) -> None:
    """In another order of two users' steps, too."""
    ordered = sorted(USERS, key=lambda step: int(step["user"]))
    assert compare(tmp_path, USERS, ordered) == (0, [f"{len(USERS)} of {len(USERS)} steps are the same"])


def test_another_reply_and_another_step(tmp_path: Path) -> None:
    attach = {"user": 1001, "op": "ptrace", "caller": 1000, "request": "PT_ATTACH", "target": 1001}
    wait = {"user": 1001, "op": "wait4", "caller": 1000, "which": -1}
    listed = {"user": 1001, "op": "list", "caller": 1000}
    left = [SPAWN, SPAWN, attach, wait, listed]
    status, lines = compare(tmp_path, left, [SPAWN, SPAWN, wait, wait, listed])
    assert status == 1 and lines[0] == "3 of 5 steps are the same"
    assert lines[1] == (
        "the first difference: step 3 of user 1001 in a, ptrace 1000 PT_ATTACH 1001 -> ok; b has wait4 1000 -> ECHILD"
    )
    status, lines = compare(tmp_path, left, [SPAWN, SPAWN, wait, listed])
    assert status == 1 and lines[0] == "3 of 5 steps are the same"


def test_what_is_no_session(tmp_path: Path) -> None:
    environment = {**os.environ, "PYTHONPATH": str(TOP / "clients/python")}
    for words in (["--compare", "x"], [str(TOP / "examples/first.json"), "--compare", str(tmp_path / "none")]):
        done = subprocess.run(
            [sys.executable, "-m", "tracehost.debug", *words], env=environment, capture_output=True, text=True, check=False
        )  # fmt: skip
        assert done.returncode == (2 if len(words) == 2 else 1) and "tracehost-debug: " in done.stderr
