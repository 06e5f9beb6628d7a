"""Changes of a log that has an explanation, each of which says by itself what comes of it: the line that is told, or that the log
still has an explanation."""

from __future__ import annotations

import re
from collections.abc import Callable, Iterator, Sequence
from typing import NamedTuple, Optional

EXPLAINED, UNEXPLAINED, NO_LOG = range(3)
# errnos that the manual page of a call doesn't have
_NEVER = {"kill": "ECHILD", "sigaction": "ESRCH", "wait4": "EBUSY", "ptrace": "ECHILD"}


class Mutated(NamedTuple):
    lines: list[str]
    status: int
    line: Optional[int]
    """From 1."""


class _Line(NamedTuple):
    text: str
    lwp: str
    number: int
    kind: str
    rest: str

    @property
    def name(self) -> str:
        return self.rest.partition(" ")[0]


def _read(text: str) -> _Line:
    lwp, number, kind, *rest = text.split(" ", 3)
    return _Line(text, lwp, int(number), kind, "".join(rest))


def _next_of(lines: Sequence[_Line], at: int) -> Optional[int]:
    """The place of the next line of the same LWP."""
    return next((place for place in range(at + 1, len(lines)) if lines[place].lwp == lines[at].lwp), None)


def _asked(lines: Sequence[_Line], at: int) -> _Line:
    """The line that asked what this one is told."""
    return next(line for line in reversed(lines[:at]) if line.lwp == lines[at].lwp and line.number == lines[at].number)


def _texts(lines: Sequence[_Line], at: int, *instead: str) -> list[str]:
    return [*(line.text for line in lines[:at]), *instead, *(line.text for line in lines[at + 1 :])]


def lost(lines: Sequence[_Line], at: int) -> Iterator[Mutated]:
    """A line is missing: the LWP's next one has a number that isn't due, or answers nothing."""
    after = _next_of(lines, at)
    if at and after is not None and lines[after].kind != "begins":
        yield Mutated(_texts(lines, at), NO_LOG, after)


def twice(lines: Sequence[_Line], at: int) -> Iterator[Mutated]:
    """No LWP writes a call, or an answer, twice."""
    if lines[at].kind != "begins":
        yield Mutated(_texts(lines, at, lines[at].text, lines[at].text), NO_LOG, at + 2)


def errno(lines: Sequence[_Line], at: int) -> Iterator[Mutated]:
    """The call never answers so."""
    if lines[at].kind == "told" and lines[at].rest == "0":
        never = _NEVER.get(_asked(lines, at).name)
        if never:
            yield Mutated(_texts(lines, at, lines[at].text[:-1] + f"-1 errno={never}"), UNEXPLAINED, at + 1)


def signal(lines: Sequence[_Line], at: int) -> Iterator[Mutated]:
    """Nobody has sent this signal, and none comes by itself. That of the log was sent by a call before."""
    status = re.search(r" status=(stopped|signaled):(\w+)$", lines[at].text)
    earlier = "\n".join(line.text for line in lines[:at])
    if status and "SIGUSR2" not in earlier and f"signal={status[2]}" in earlier:
        yield Mutated(_texts(lines, at, lines[at].text.replace(status[2], "SIGUSR2")), UNEXPLAINED, at + 1)


def code(lines: Sequence[_Line], at: int) -> Iterator[Mutated]:
    """The process has asked for another exit code."""
    status = re.search(r"told (\d+) status=exited:(\d+)$", lines[at].text)
    own = rf"{status[1]}/\d+ \d+ asks exit code={status[2]}" if status else "$."
    if status and any(re.fullmatch(own, line.text) for line in lines[:at]):
        other = (int(status[2]) + 1) % 256
        yield Mutated(_texts(lines, at, lines[at].text.replace(f":{status[2]}", f":{other}")), UNEXPLAINED, at + 1)


def cut(lines: Sequence[_Line], at: int) -> Iterator[Mutated]:
    """Explained: the turns that led to this line are in the record."""
    yield Mutated([line.text for line in lines[: at + 1]], EXPLAINED, None)


def delayed(lines: Sequence[_Line], at: int) -> Iterator[Mutated]:
    """Explained: an answer has no effect, so what another LWP does before it asks can be done before that answer is written."""
    following = lines[at + 1] if at + 1 < len(lines) else lines[at]
    if lines[at].kind == "told" and following.kind == "asks" and following.lwp != lines[at].lwp:
        yield Mutated(_texts([*lines[: at + 1], *lines[at + 2 :]], at, following.text, lines[at].text), EXPLAINED, None)


KINDS: Sequence[Callable[[Sequence[_Line], int], Iterator[Mutated]]] = (lost, twice, errno, signal, code, cut, delayed)


def mutants(log: Sequence[str]) -> dict[str, list[Mutated]]:
    """All of a log, by kind."""
    lines = [_read(text) for text in log]
    return {kind.__name__: [made for at in range(len(lines)) for made in kind(lines, at)] for kind in KINDS}
