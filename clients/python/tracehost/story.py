"""What a failed session comes to, in at most twenty lines: the last step and why, whom it concerns, what to look at, and what
the last steps changed."""

from __future__ import annotations

import shlex
from collections.abc import Iterator, Mapping
from typing import Any, Optional

from .notices import nearest_first, notices_of
from .prompt import reason_of
from .saving import Session
from .timeline import Row, Step, Timeline, change_text, row_text

_MOST_LINES = 20
_LAST = 5  # steps
_MOST_ROWS = 4
_MOST_NOTICES = 4
_WIDTH = 150
_HEADS = {"wrong": "look at", "open": "still open"}


def story(session: Session, file: str, at: Optional[int] = None, program: Optional[str] = None) -> list[str]:
    """The lines. The session is that of the file, and it failed after step `at`, or after its last one."""
    timeline = Timeline(session.steps, session.kill_on_debugger_exit, program)
    end = len(timeline) if at is None else min(at, len(timeline))
    command = f"to go on from here: tracehost-debug {shlex.quote(file)}{'' if end == len(timeline) else f' --at {end}'}"
    if not end:
        return ["no step was made", command]
    step = timeline.steps[end - 1]
    lines = [f"step {end} of user {step.user}: {step.words()}{reason_of(session, step)}"]
    lines += [f"  {line}" for line in _concerned(timeline, end, step)]
    lines += _to_look_at(timeline, step)
    lines += ["the last steps, and what each changed:", *_last_steps(timeline, end, _MOST_LINES - len(lines) - 2)]
    return [_cut(line) for line in lines] + [command]


def _last_steps(timeline: Timeline, end: int, room: int) -> list[str]:
    """The steps up to this one, and what each changed, as far as there is room for so many lines."""
    lines: list[str] = []
    for step in reversed(timeline.steps[max(0, end - _LAST) : end]):
        changes = "; ".join(map(change_text, timeline.changes(step.number)))
        of_step = [f"{step.number:6} {step.words()}", *([f"         {changes}"] if changes else [])]
        if len(lines) + len(of_step) > room:
            break
        lines = of_step + lines
    return lines


def _to_look_at(timeline: Timeline, step: Step) -> Iterator[str]:
    """What is so at this step: those of its user, and the nearest before it, first."""
    found = nearest_first(notices_of(timeline.steps[: step.number]), step.number, step.user)
    for notice, count in found[:_MOST_NOTICES]:
        more = f" ({count} times)" if count > 1 else ""
        yield f"{_HEADS[notice.kind]}: step {notice.at}, {notice.text}{more}"
    if len(found) > _MOST_NOTICES:
        yield f"and {len(found) - _MOST_NOTICES} more to look at"


def _concerned(timeline: Timeline, at: int, step: Step) -> list[str]:
    """The rows of the processes and LWPs that a step and its reply name, and of who traces them."""
    rows = timeline.rows(at, step.user)
    numbers = dict.fromkeys(number for number in _named(step, rows) if number in rows)
    return [f"{'LWP ' if 'lwp' in rows[number] else ''}{number}: {row_text(rows[number])}" for number in list(numbers)[:_MOST_ROWS]]


def _named(step: Step, rows: Mapping[int, Row]) -> Iterator[int]:
    for member in ("caller", "target", "which", "lwp"):
        yield from _with_others(step.asked.get(member), rows)
    for member in ("pid", "lwp", "child"):
        yield from _with_others(step.reply.get(member), rows)


def _with_others(number: Any, rows: Mapping[int, Row]) -> Iterator[int]:
    """A process or an LWP, the process of an LWP, and the tracer."""
    row = rows.get(number)
    if row is None:
        return
    yield number
    if "lwp" in row:
        yield row["pid"]
    tracer = rows.get(row["pid"], row).get("tracer")
    if tracer is not None:
        yield tracer


def _cut(line: str) -> str:
    return line if len(line) <= _WIDTH else f"{line[: _WIDTH - 3]}..."
