"""A session with fewer steps that still has what somebody looks for: delta debugging over the steps of a scenario.

A. Zeller, R. Hildebrandt, Simplifying and Isolating Failure-Inducing Input (IEEE Transactions on Software Engineering, 2002).
"""

from __future__ import annotations

import json
import re
import shlex
import subprocess
import tempfile
from collections.abc import Callable, Mapping, Sequence
from pathlib import Path
from typing import Any, NamedTuple, Optional

from . import library
from .notices import Notice, nearest_first, notices_of
from .saving import Session
from .timeline import Refused, Step, Timeline, answer_text, lines_of

_NUMBERS = ("caller", "target", "which", "lwp")  # the members of a step that are a process or an LWP
_FIRST = 1000  # the least number of a process
_NOT_RUN = (126, 127)  # the statuses of a shell for a command that isn't there, or can't be run
_FAULT = re.compile(r"refused: (\w+)")
_NEAR = 8  # steps that may only go together, such as the entry of a call and its return, are as near as that
_NAMED = ("pid", "lwp", "child", "pids", "lwps")  # and of a reply


class Keep(NamedTuple):
    """What the shorter session has to keep."""

    kind: str
    words: str

    @classmethod
    def of(cls, text: str) -> Keep:
        """Of "last", "fault", "notice=TEXT", "reply=TEXT" or "status=COMMAND". Raises ValueError."""
        kind, _, words = text.partition("=")
        if kind not in ("last", "fault", "notice", "reply", "status") or (kind not in ("last", "fault")) != bool(words):
            raise ValueError(f"--keep {text}: it is last, fault, notice=TEXT, reply=TEXT or status=COMMAND")
        return cls(kind, words)


class Shorter(NamedTuple):
    """A session with fewer steps, what it has kept, in words, and how many were tried."""

    session: Session
    kept: str
    runs: int


class Made(NamedTuple):
    """Some steps of a session, with the numbers that their processes and LWPs have if only these steps are made."""

    steps: list[Mapping[str, Any]]
    replies: list[str]
    """In words, with the numbers of the session."""


class _Replay:
    """Makes some of a session's steps. A process or LWP of the session is the one that the same step makes here."""

    def __init__(self, session: Session, timeline: Timeline) -> None:
        self._session = session
        self._library = library.find()
        self._births = [self._born(timeline, step) for step in timeline.steps]
        self._all = {number for numbers in self._births for number in numbers}
        self.runs = 0

    def __call__(self, kept: Sequence[int]) -> Optional[Made]:
        """The steps with these indices; None if one names what isn't made."""
        self.runs += 1
        here: dict[int, int] = {}
        there: dict[int, int] = {}
        made = Made([], [])
        host = library.Session(self._library, self._session.kill_on_debugger_exit is not False)
        for index in kept:
            step = self._renamed(self._session.steps[index], here)
            if step is None:
                return None
            made.steps.append(step)
            host.exchange(json.dumps(step))
            if self._births[index]:
                rows = json.loads(host.rows_text(step["user"]))
                seen = [row["pid"] for row in rows.get("processes", ())] + [row["lwp"] for row in rows.get("lwps", ())]
                for old, new in zip(self._births[index], sorted(set(seen) - set(there))):
                    here[old], there[new] = new, old
            made.replies.append(answer_text(_with_numbers(json.loads(host.last_line(json=True)), there)))
        host.close()
        return made

    def _renamed(self, step: Mapping[str, Any], here: Mapping[int, int]) -> Optional[Mapping[str, Any]]:
        renamed = dict(step)
        for name in _NUMBERS:
            number = step.get(name)
            if isinstance(number, int) and number >= _FIRST:
                if number in self._all and number not in here:
                    return None
                renamed[name] = here.get(number, number)
        return renamed

    @staticmethod
    def _born(timeline: Timeline, step: Step) -> list[int]:
        """The processes and LWPs that a step makes, by number."""
        return sorted(change.number for change in timeline.changes(step.number) if change.before is None)


def _with_numbers(reply: Mapping[str, Any], names: Mapping[int, int]) -> dict[str, Any]:
    """The reply with other numbers of processes and LWPs."""

    def named(value: Any) -> Any:
        return [names.get(one, one) for one in value] if isinstance(value, list) else names.get(value, value)

    return {name: named(value) if name in _NAMED else value for name, value in reply.items()}


def shrink(session: Session, keep: Keep, program: Optional[str] = None) -> Shorter:
    """The fewest steps that could be found. Raises Refused if the session hasn't what is to be kept."""
    timeline = Timeline(session.steps, session.kill_on_debugger_exit, program)
    if not len(timeline):
        raise Refused(f"{session.name}: it has no step")
    replay = _Replay(session, timeline)
    if keep.kind == "status":
        command = _Command(session, keep.words)
        kept = _fewest(list(range(len(timeline))), 0, lambda steps: _is_made(replay(steps), command.is_alike))
        words = f"status {command.wanted} of {keep.words}"
    elif keep.kind == "notice":
        notice = _Named(session, keep.words, timeline)
        kept = _fewest(list(range(len(timeline))), 0, lambda steps: _is_made(replay(steps), notice.is_alike))
        words = notice.wanted.text
    else:
        last, text = _last_of(keep, timeline)
        kept = _fewest(list(range(last)), 1, lambda steps: _is_made(replay(steps), lambda made: text(made.replies[-1])))
        words = f"step {last}, {timeline.steps[last - 1].words()}"
    made = replay(kept)
    assert made is not None
    return Shorter(session._replace(steps=made.steps), words, replay.runs)


def shrink_refused(session: Session, program: Optional[str] = None) -> Shorter:
    """The fewest steps that the program refuses by the same fault. Their numbers stay. Raises Refused if it takes them."""
    runs = [0]

    def fault_of(steps: Sequence[int]) -> Optional[str]:
        runs[0] += 1
        try:
            lines_of(session._replace(steps=[session.steps[index] for index in steps]).text(), program=program)
        except Refused as refused:
            found = _FAULT.search(str(refused))
            return found[1] if found else str(refused)
        return None

    every = list(range(len(session.steps)))
    wanted = fault_of(every)
    if wanted is None:
        raise Refused(f"{session.name}: the program takes it")
    kept = _fewest(every, 0, lambda steps: fault_of(steps) == wanted)
    return Shorter(session._replace(steps=[session.steps[index] for index in kept]), wanted, runs[0])


def _is_made(made: Optional[Made], wanted: Callable[[Made], bool]) -> bool:
    return made is not None and wanted(made)


def _last_of(keep: Keep, timeline: Timeline) -> tuple[int, Callable[[str], bool]]:
    """The last step that is kept, and what its reply in words has to be."""
    if keep.kind == "last":
        wanted = timeline.steps[-1].answer()
        return len(timeline), lambda words: words == wanted
    found = next((step.number for step in timeline.steps if keep.words in step.answer()), None)
    if found is None:
        raise Refused(f"no reply has the words {keep.words}")
    return found, lambda words: keep.words in words


class _Named:
    """What a story says to look at. Its processes and LWPs may have other numbers, and be others."""

    def __init__(self, session: Session, words: str, timeline: Timeline) -> None:
        self._session = session
        found = [notice for notice, _ in nearest_first(notices_of(timeline.steps), len(timeline), timeline.steps[-1].user)]
        wanted = next((notice for notice in found if words in notice.text), None)
        if wanted is None:
            raise Refused(f"nothing to look at has the words {words}{''.join(f'; {notice.text}' for notice in found)}")
        self.wanted = wanted

    def is_alike(self, made: Made) -> bool:
        steps = Timeline(made.steps, self._session.kill_on_debugger_exit).steps
        return self._shape(self.wanted) in map(self._shape, notices_of(steps))

    @staticmethod
    def _shape(notice: Notice) -> tuple[str, str]:
        return notice.kind, re.sub(r"\b[0-9]+\b", "#", notice.text)


class _Command:
    """A command of the shell, and its status for the whole session."""

    def __init__(self, session: Session, command: str) -> None:
        self._session, self._command = session, command
        self.wanted = self._status(session.steps)
        if self.wanted in _NOT_RUN:
            raise Refused(f"{command}: the shell can't run it, status {self.wanted}")
        if self._status(()) == self.wanted:
            raise Refused(f"{command}: status {self.wanted} without any step too")

    def is_alike(self, made: Made) -> bool:
        return self._status(made.steps) == self.wanted

    def _status(self, steps: Sequence[Mapping[str, Any]]) -> int:
        with tempfile.TemporaryDirectory() as room:
            file = Path(room, "scenario.json")
            file.write_text(self._session._replace(steps=steps).text(), encoding="utf-8")
            command = self._command.replace("{}", shlex.quote(str(file)))
            return subprocess.run(command, shell=True, stdin=subprocess.DEVNULL, capture_output=True, check=False).returncode


def _fewest(steps: list[int], fixed: int, is_fine: Callable[[Sequence[int]], bool]) -> list[int]:
    """Leaves out steps as long as the others are fine, but not the last ones that are fixed."""
    before = len(steps) + 1
    while len(steps) < before:
        before = len(steps)
        size = max(1, len(steps) // 2)
        while size:
            steps = _without_parts(steps, size, fixed, is_fine)
            size //= 2
        steps = _without_pairs(steps, fixed, is_fine)
    return steps


def _without_parts(steps: list[int], size: int, fixed: int, is_fine: Callable[[Sequence[int]], bool]) -> list[int]:
    at = 0
    while at < len(steps) - fixed:
        tried = steps[:at] + steps[min(at + size, len(steps) - fixed) :]
        if is_fine(tried):
            steps = tried
        else:
            at += size
    return steps


def _without_pairs(steps: list[int], fixed: int, is_fine: Callable[[Sequence[int]], bool]) -> list[int]:
    first = len(steps) - fixed - 2
    while first >= 0:
        for second in range(first + 1, min(first + _NEAR, len(steps) - fixed)):
            tried = steps[:first] + steps[first + 1 : second] + steps[second + 1 :]
            if is_fine(tried):
                steps = tried
                break
        first -= 1
    return steps
