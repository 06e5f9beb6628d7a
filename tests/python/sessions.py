"""Sessions of text: the files tests/sessions/*.txt, in the form that docs/internals/TESTING.md describes.

A session is a heading, `# NAME`, then settings, `KEY: VALUE`, and then its steps, `STEP -> REPLY` a line. An empty line
ends it. Other lines that begin with `#` are comments. The words of a step are those of the prompt.
"""

from __future__ import annotations

import itertools
import json
import re
from collections.abc import Iterable, Iterator, Sequence
from pathlib import Path
from typing import Any, NamedTuple

from tracehost.step_words import Unclear, step_of

TOP = Path(__file__).resolve().parents[2]
FOLDER = TOP / "tests/sessions"
FIRST_USER = 1001
SETTINGS = ("after", "kill_on_debugger_exit")


class NoSession(Exception):
    """The text is none of a session."""


class Line(NamedTuple):
    """A step, its words, and the reply that it must have."""

    words: str
    step: dict[str, Any]
    reply: str

    @property
    def user(self) -> int:
        return int(self.step["user"])


class Session(NamedTuple):
    name: str
    kills: bool
    """Whether the end of a debugger kills the processes that it traces."""
    lines: tuple[Line, ...]

    @property
    def users(self) -> list[int]:
        return sorted({line.user for line in self.lines})

    @property
    def is_json(self) -> bool:
        """Whether the replies are objects, as `--json` prints them."""
        return any(line.reply.startswith("{") for line in self.lines)

    @property
    def only_calls(self) -> bool:
        """Whether a step has a mask by its number, which a call of the library takes and JSON doesn't."""
        return any(isinstance(line.step.get("mask"), int) for line in self.lines)

    def of(self, user: int) -> Session:
        """The user's own steps."""
        return self._replace(lines=tuple(line for line in self.lines if line.user == user))

    def printed(self) -> list[str]:
        """The lines that the program must print: the user, the user's own step number, the reply."""
        if self.is_json:
            return [line.reply for line in self.lines]
        counts = {user: itertools.count(1) for user in self.users}
        return [f"{line.user} {next(counts[line.user])} {line.reply}" for line in self.lines]

    def scenario(self) -> str:
        steps = ",\n".join(json.dumps(line.step) for line in self.lines)
        return f'{{"kill_on_debugger_exit":{int(self.kills)},"steps":[\n{steps}\n]}}\n'


def slug(name: str) -> str:
    """The name in a form that `pytest -k` takes."""
    return re.sub(r"[^a-z0-9]+", "_", name.lower().replace("'", "")).strip("_")


def _line_of(text: str) -> Line:
    words, arrow, reply = text.partition(" -> ")
    if not arrow or not reply.strip():
        raise NoSession(f"`{text}` has no arrow and reply")
    parts = words.split()
    mask = parts.pop() if parts[-3:-2] == ["PT_SET_EVENT_MASK"] and parts[-1].isdecimal() else None
    try:
        step = step_of(parts, FIRST_USER)
    except Unclear as reason:
        raise NoSession(f"`{text}`: {reason}") from None
    return Line(words, {**step, "mask": int(mask)} if mask else step, reply.strip())


def _session_of(block: Sequence[str], starts: dict[str, Session]) -> Session:
    heading, *rest = [line for place, line in enumerate(block) if place == 0 or not line.startswith("#")]
    if not heading.startswith("# "):
        raise NoSession(f"`{heading}` is no heading")
    settings: dict[str, str] = {}
    while rest and (match := re.fullmatch(f"({'|'.join(SETTINGS)}): (.*)", rest[0])):
        settings[match[1]] = match[2]
        del rest[0]
    lines = [_line_of(line) for line in rest]
    if not lines:
        raise NoSession(f"`{heading}` has no steps")
    start = settings.get("after")
    if start is not None and slug(start) not in starts:
        raise NoSession(f"`{heading}`: no session is named {start}")
    before = starts[slug(start)].lines if start is not None else ()
    return Session(heading[2:], settings.get("kill_on_debugger_exit", "1") == "1", (*before, *lines))


def _blocks(text: str) -> Iterator[list[str]]:
    """The parts between empty lines, except those that are only comments."""
    for part in re.split(r"\n\s*\n", text.strip()):
        lines = [line.strip() for line in part.splitlines()]
        if not all(line.startswith("#") for line in lines):
            yield lines


def sessions_of(text: str, starts: dict[str, Session]) -> dict[str, Session]:
    """The sessions of a text by their names. One may begin after one of `starts`, or after an earlier one. Raises NoSession."""
    found: dict[str, Session] = {}
    for block in _blocks(text):
        session = _session_of(block, {**starts, **found})
        if slug(session.name) in found:
            raise NoSession(f"two sessions are named {session.name}")
        found[slug(session.name)] = session
    if not found:
        raise NoSession("the text has no session")
    return found


def read_sessions(files: Iterable[Path]) -> dict[str, Session]:
    """The sessions of the files, by `FILE/NAME`."""
    starts = sessions_of((FOLDER / "starts.txt").read_text(), {})
    return {
        f"{file.stem}/{name}": session
        for file in files
        for name, session in sessions_of(file.read_text(), {} if file.stem == "starts" else starts).items()
    }
