"""A run as files: the scenario of its steps, its lines, and the schedule to run it again."""

from __future__ import annotations

import os
from typing import IO, Any

from .outcome import Kept, Outcome
from .setting import Setting

FIRST_USER = 1001
"""The only user of a run."""


def scenario(kept: Kept, kill_on_debugger_exit: bool | None) -> str:
    """The steps, as docs/FORMAT.md has them."""
    head = "{" if kill_on_debugger_exit is None else f'{{"kill_on_debugger_exit":{int(kill_on_debugger_exit)},'
    return head + '"steps":[\n' + ",\n".join(step for step, _ in kept) + "\n]}\n"


def lines(kept: Kept) -> str:
    """What the program `tracehost` prints for that scenario."""
    return "".join(f"{FIRST_USER} {number} {reply}\n" for number, (_, reply) in enumerate(kept, 1))


def digest(kept: Kept, output: bytes) -> str:
    """Two runs with the same digest have the same steps, the same answers and the same output."""
    import hashlib

    text = hashlib.sha256()
    for step, reply in kept:
        text.update(f"{step}\n{reply}\n".encode())
    text.update(output)
    return text.hexdigest()[:16]


def switches_of(text: str) -> dict[tuple[int, int], int]:
    """The reverse of `setting.text_of`; ValueError if it isn't one."""
    found = {}
    for item in filter(None, text.split(",")):
        at, _, to = item.partition(":")
        tid, _, point = at.partition(".")
        found[int(tid), int(point)] = int(to)
    return found


def write(path: str, outcome: Outcome, command: list[str], kill_on_debugger_exit: bool | None, settings: dict[str, Any]) -> None:
    """FILE, FILE.lines and FILE.schedule."""
    import json

    kept = outcome.kept
    with open(path, "w") as file:
        file.write(scenario(kept, kill_on_debugger_exit))
    with open(path + ".lines", "w") as file:
        file.write(lines(kept))
    schedule = {"program": command, "switches": outcome.result.schedule, **settings}
    with open(path + ".schedule", "w") as file:
        json.dump(schedule, file, indent=1)
        file.write("\n")


def read_schedule(path: str) -> dict[str, Any]:
    """What `write` has put into FILE.schedule; ValueError if it is something else."""
    import json

    with open(path + ".schedule") as file:
        schedule = json.load(file)
    try:
        switches_of(schedule["switches"])
        words, numbers = schedule["program"], (schedule["limit"], schedule.get("kill_on_debugger_exit") or 0)
        known = all(isinstance(word, str) for word in words) and words and all(isinstance(number, int) for number in numbers)
    except (ValueError, KeyError, TypeError, AttributeError):
        known = False
    if not known:
        raise ValueError("it isn't one that --record has written")
    return schedule  # type: ignore[no-any-return]


def difference(path: str, kept: Kept) -> str | None:
    """Where a run goes another way than the recorded one, or None."""
    with open(path) as file:
        steps = [line.rstrip(",\n") for line in file][1:-1]
    with open(path + ".lines") as file:
        answers = file.read().splitlines()
    for number, (step, reply) in enumerate(kept):
        if number >= min(len(steps), len(answers)):
            return f"step {number + 1}: the recorded run has ended; this one makes {step}"
        if step != steps[number]:
            return f"step {number + 1}: recorded {steps[number]}; this run makes {step}"
        answer = f"{FIRST_USER} {number + 1} {reply}"
        if answer != answers[number]:
            return f"step {number + 1}: recorded answer {answers[number]!r}; this run has {answer!r}"
    if len(kept) < len(steps):
        return f"step {len(kept) + 1}: this run has ended; the recorded one makes {steps[len(kept)]}"
    return None


def verify(steps: Kept, setting: Setting) -> str | None:
    """What `tracehost --expect` says against the record, or None. The record is in memory: no file is left, whatever ends this."""
    import subprocess

    with _in_memory(scenario(steps, setting.kill_on_debugger_exit)) as kept, _in_memory(lines(steps)) as answers:
        numbers = answers.fileno(), kept.fileno()
        words = [setting.model, "--expect", *(f"/proc/self/fd/{number}" for number in numbers)]
        done = subprocess.run(words, capture_output=True, text=True, pass_fds=numbers)
    return None if done.returncode == 0 else f"the record is answered otherwise: {done.stderr.strip() or done.returncode}"


def _in_memory(text: str) -> IO[str]:
    file = os.fdopen(os.memfd_create("tracehost-record"), "w")
    file.write(text)
    file.flush()
    return file
