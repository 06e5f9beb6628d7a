"""The lines of a log, whose form the head of tracehost-log.c defines, and whether one of them is missing."""

from __future__ import annotations

import re
from collections.abc import Iterable, Iterator
from typing import NamedTuple

MOST_BYTES = 4096
"""A longer line is none."""
_LINE = re.compile(rb"(\d{1,10})/(\d{1,10}) (\d{1,18}) (begins|asks|told)((?: [!-~]+)*)\n")
_WORD = re.compile(r"([a-z0-9_]+)=([!-~]*)")
_NAME = re.compile(r"[a-z0-9_]+")
_RESULT = re.compile(r"-?\d{1,18}")


class LogFault(Exception):
    """What is read isn't a log, or not a whole one."""

    def __init__(self, line: int, why: str) -> None:
        super().__init__(f"line {line}: {why}")
        self.line, self.why = line, why


class Caller(NamedTuple):
    """An LWP by the numbers of the host."""

    pid: int
    lwp: int

    def __str__(self) -> str:
        return f"{self.pid}/{self.lwp}"


class Line(NamedTuple):
    """A line of the log."""

    place: int
    """Its number in the file, from 1."""
    caller: Caller
    number: int
    """Of the call among those of its LWP; 0 for `begins`."""
    kind: str
    name: str
    """The call of `asks`, the result of `told`, and `thread` or nothing of `begins`."""
    words: dict[str, str]

    def word(self, name: str) -> str:
        """The value of a word. Raises LogFault if there is none."""
        if name not in self.words:
            raise LogFault(self.place, f"{self.kind} without {name}=")
        return self.words[name]

    def whole(self, name: str) -> int:
        """The value of a word that is a number. Raises LogFault."""
        text = self.word(name)
        if not _RESULT.fullmatch(text):
            raise LogFault(self.place, f"{name}={text} is no number")
        return int(text)

    def items(self, name: str) -> list[str]:
        """The value of a word that is a list."""
        text = self.word(name)
        return [] if text == "-" else text.split(",")


def lines(file: Iterable[bytes]) -> Iterator[Line]:
    """The lines of a file. Raises LogFault."""
    place = 0
    for place, text in enumerate(file, 1):
        if not text.endswith(b"\n"):
            raise LogFault(place, "the log is cut in this line")
        yield _line(place, text)
    if place == 0:
        raise LogFault(1, "the log is empty")


def _line(place: int, text: bytes) -> Line:
    found = _LINE.fullmatch(text) if len(text) <= MOST_BYTES else None
    if found is None:
        raise LogFault(place, f"no line of a log: {text[:60]!r}")
    pid, lwp, number, kind = int(found[1]), int(found[2]), int(found[3]), found[4].decode()
    rest = found[5].decode().split()
    name = rest.pop(0) if rest and "=" not in rest[0] else ""
    words: dict[str, str] = {}
    for word in rest:
        pair = _WORD.fullmatch(word)
        if pair is None or pair[1] in words:
            raise LogFault(place, f"{word!r} is no word of a line")
        words[pair[1]] = pair[2]
    is_right = {"begins": name in ("", "thread"), "asks": _NAME.fullmatch(name), "told": _RESULT.fullmatch(name)}
    if not is_right[kind] or (number == 0) != (kind == "begins"):
        raise LogFault(place, f"{kind} {name!r} with number {number} is no line of a log")
    return Line(place, Caller(pid, lwp), number, kind, name, words)


class _Sequence:
    """The calls of one LWP."""

    def __init__(self) -> None:
        self.last = 0
        self.open: list[Line] = []


_UNTOLD = ("vfork",)


class Order:
    """Whether each line has the number that is due: a log that lacks one is cut."""

    def __init__(self) -> None:
        self._callers: dict[Caller, _Sequence] = {}

    def take(self, line: Line) -> Line | None:
        """Takes the next line. For `told`, returns the line that asked. Raises LogFault if one before it is missing."""
        if line.kind == "begins":
            self._callers[line.caller] = _Sequence()
            return None
        sequence = self._callers.get(line.caller)
        if sequence is None:
            raise LogFault(line.place, f"the line in which {line.caller} begins is missing")
        if line.kind == "asks":
            self._ask(sequence, line)
            return None
        if not sequence.open or sequence.open[-1].number != line.number:
            raise LogFault(line.place, f"a line of {line.caller} is missing: no call {line.number} waits for its answer")
        return sequence.open.pop()

    @staticmethod
    def _ask(sequence: _Sequence, line: Line) -> None:
        within = line.whole("within") if "within" in line.words else 0
        if line.number != sequence.last + 1:
            missing = f"call {sequence.last + 1} is due, and not {line.number}"
            raise LogFault(line.place, f"a line of {line.caller} is missing: {missing}")
        if within != (sequence.open[-1].number if sequence.open else 0):
            waiting = f"call {sequence.open[-1].number} has no answer" if sequence.open else f"no call {within} is open"
            raise LogFault(line.place, f"a line of {line.caller} is missing: {waiting}")
        sequence.last = line.number
        if line.name not in _UNTOLD:
            sequence.open.append(line)


def read(file: Iterable[bytes]) -> list[tuple[Line, Line | None]]:
    """All lines, those with `told` beside the line that asked. Raises LogFault."""
    order = Order()
    found = [(line, order.take(line)) for line in lines(file)]
    first = found[0][0]
    if first.words.get("log") != "1":
        raise LogFault(1, "a log of another form, or none: its first line says no log=1")
    return found
