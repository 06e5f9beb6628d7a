"""Files of sessions: their lines, and the steps of which a session can be made again."""

from __future__ import annotations

from collections.abc import Iterator, Sequence
from pathlib import Path
from typing import NamedTuple

from .model import Made

NO_KILLING = "kill_on_debugger_exit: 0"
_BY_THEMSELVES = ("compute", "leave")


class Text(NamedTuple):
    """A session as a file has it: its name, the setting, and the lines of steps and rows."""

    name: str
    kills: bool
    lines: Sequence[str]

    def __str__(self) -> str:
        """The lines, without the empty line at the end."""
        return "\n".join([f"# {self.name}", *([] if self.kills else [NO_KILLING]), *self.lines]) + "\n"

    def steps(self) -> list[str]:
        """The words of the steps, without the turns that LWPs take by themselves."""
        return [made.words for made in map(made_in, self.lines) if made.words and not _by_itself(made.words)]


def made_in(line: str) -> Made:
    """The step of a line, and its reply; empty for a line of rows."""
    words, arrow, reply = line.partition(" -> ")
    return Made(words, reply) if arrow and not line.startswith("=") else Made("", "")


def _by_itself(words: str) -> bool:
    parts = words.split()
    return "turn" in parts[:2] and parts[-1] in _BY_THEMSELVES


def texts_in(file: Path) -> Iterator[Text]:
    """The sessions of a file. Raises ValueError for a text that is none."""
    for block in file.read_text(encoding="utf-8").split("\n\n"):
        lines = block.strip().splitlines()
        if not lines:
            continue
        if not lines[0].startswith("# "):
            raise ValueError(f"{file}: `{lines[0]}` is no heading of a session")
        kills = NO_KILLING not in lines
        yield Text(lines[0][2:], kills, [line for line in lines[1:] if line != NO_KILLING])
