"""At which awaits coroutines have awaited a step: that all interleavings pass says nothing of the others."""

from __future__ import annotations

import dis
import inspect
import sysconfig
from collections.abc import Iterator
from functools import lru_cache
from pathlib import Path
from types import CodeType
from typing import Any, NamedTuple

_AWAITS = ("GET_AWAITABLE", "GET_ANEXT")
_LIBRARIES = (sysconfig.get_path("stdlib"), str(Path(__file__).parent))


class Line(NamedTuple):
    """A line with an await."""

    code: CodeType
    number: int

    def __str__(self) -> str:
        path = Path(self.code.co_filename)
        return f"{path.relative_to(Path.cwd()) if path.is_relative_to(Path.cwd()) else path}:{self.number}"


@lru_cache(maxsize=1024)
def lines_of(code: CodeType) -> dict[int, int]:
    """The lines of a code's awaits, by their places in it."""
    starts = dict(dis.findlinestarts(code))
    found, line = {}, code.co_firstlineno
    for instruction in dis.get_instructions(code):
        line = starts.get(instruction.offset) or line
        if instruction.opname in _AWAITS:
            found[instruction.offset] = line
    return found


def _codes_in(code: CodeType) -> Iterator[CodeType]:
    """This code, and those of the coroutines that are written in it. Which await an asynchronous generator is at can't be seen."""
    yield code
    for constant in code.co_consts:
        if isinstance(constant, CodeType):
            yield from (one for one in _codes_in(constant) if one.co_flags & inspect.CO_COROUTINE)


def _is_library(code: CodeType) -> bool:
    """Whether it isn't what the world's author has written."""
    path = Path(code.co_filename)
    return any(path.is_relative_to(folder) for folder in _LIBRARIES) or not {"site-packages", "dist-packages"}.isdisjoint(
        path.parts
    )


class Awaits:
    """The lines of some coroutines that have an await, and those at which a step was awaited."""

    def __init__(self) -> None:
        self._codes: dict[int, tuple[CodeType, dict[int, int]]] = {}
        """By their ids, which no others get."""
        self._seen: set[tuple[int, int]] = set()
        self.lines: set[Line] = set()
        self.reached: set[Line] = set()

    @property
    def left(self) -> set[Line]:
        return self.lines - self.reached

    def join(self, other: Awaits) -> None:
        self.lines |= other.lines
        self.reached |= other.reached

    def add(self, code: CodeType) -> None:
        if id(code) not in self._codes:
            self._codes[id(code)] = code, {} if _is_library(code) else lines_of(code)
            own = () if _is_library(code) else _codes_in(code)
            self.lines.update(Line(one, line) for one in own for line in lines_of(one).values())

    def suspend(self, coroutine: Any) -> None:
        """This coroutine, and those that it awaits, await a step."""
        while coroutine is not None:
            frame = getattr(coroutine, "cr_frame", None) or getattr(coroutine, "gi_frame", None)
            if frame is None:
                return
            at = (id(frame.f_code), frame.f_lasti)
            if at not in self._seen:
                self._seen.add(at)
                self.add(frame.f_code)
                code, lines = self._codes[at[0]]
                place = max((place for place in lines if place <= frame.f_lasti), default=None)
                self.reached.update([] if place is None else [Line(code, lines[place])])
            coroutine = getattr(coroutine, "cr_await", None) or getattr(coroutine, "gi_yieldfrom", None)
