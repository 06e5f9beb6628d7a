"""Where a coroutine is, as a value that can be compared: its frames, with their variables and what they have put aside.

Two coroutines of one function go on alike if their values are equal. So a loop that comes back makes no new place. The value of
plain data, of containers, of functions and of objects of plain classes is known; of other things it isn't.
"""

from __future__ import annotations

import enum
import gc
import sys
import types
from collections import deque
from collections.abc import Callable, Generator, Hashable, Iterable, Iterator
from itertools import chain
from typing import Any, Optional, Union

_ATOMS = (type(None), bool, int, str, bytes, type(...), range)
_ITERATORS: tuple[type, ...] = (*(type(iter(made)) for made in ([], (), "", range(0))), enumerate, zip, reversed)
_MOST_PARTS = 10_000
# an object with a __dict__ and weak references, and nothing else in it
_PLAIN_SIZE = type("_Plain", (), {}).__basicsize__
Parts = Callable[[Any], Optional[Iterable[Any]]]


class Opaque(Exception):
    """Nothing is known of a thing of this kind."""


class _Code:
    """A code by its identity: to compare all that is in it takes long."""

    def __init__(self, code: types.CodeType) -> None:
        self.code = code

    def __eq__(self, other: object) -> bool:
        return isinstance(other, _Code) and other.code is self.code

    def __hash__(self) -> int:
        return id(self.code)


class _Reader:
    """The value of some things. One that is met again is told by its number: so it is seen which are the same thing."""

    def __init__(self, parts: Parts) -> None:
        """`parts` gives what some things refer to, and None for others."""
        self._more = parts
        self._numbers: dict[int, int] = {}
        self._met: list[Any] = []
        """They live as long as their ids are used."""

    def value(self, thing: Any) -> Hashable:
        kind = type(thing)
        if kind in _ATOMS or isinstance(thing, (type, types.ModuleType, _Code)):
            return kind, thing
        if kind is float or kind is complex:
            return kind, repr(thing)  # -0.0 isn't 0.0
        if isinstance(thing, enum.Enum):
            return kind, self.value(thing.value)
        if id(thing) in self._numbers:
            return self._numbers[id(thing)]
        self._numbers[id(thing)] = len(self._met)
        self._met.append(thing)
        if len(self._met) > _MOST_PARTS:
            raise Opaque("long list")
        parts = self._more(thing)
        return (kind, *map(self.value, _parts(thing) if parts is None else parts))


def _contents(cell: Any) -> tuple[Any, ...]:
    try:
        return (cell.cell_contents,)
    except ValueError:  # nothing yet
        return ()


_PARTS: dict[type, Parts] = {
    **dict.fromkeys((list, set, frozenset), iter),
    dict: lambda thing: chain.from_iterable(thing.items()),
    deque: lambda thing: (thing.maxlen, *thing),
    types.FunctionType: lambda of: (_Code(of.__code__), of.__defaults__, of.__kwdefaults__, of.__closure__, vars(of)),
    types.CellType: _contents,
    types.MethodType: lambda thing: (thing.__func__, thing.__self__),
    **dict.fromkeys(_ITERATORS, lambda thing: tuple(thing.__reduce__()[1:])),
}


def _parts(thing: Any) -> Iterable[Any]:
    """What a thing has, in an order of its own."""
    kind = type(thing)
    if kind in _PARTS:
        return _PARTS[kind](thing) or ()
    if issubclass(kind, tuple) and not hasattr(thing, "__dict__"):
        return (*thing,)
    if kind is types.BuiltinFunctionType and isinstance(thing.__self__, (types.ModuleType, type(None))):
        return thing.__self__, thing.__name__
    if isinstance(thing, BaseException):
        return thing.args, vars(thing), *([thing.errno, thing.strerror] if isinstance(thing, OSError) else [])
    if _is_plain(kind):
        return (vars(thing),)
    raise Opaque(kind.__name__)


def _is_plain(kind: type) -> bool:
    """Whether its objects have all that they have in a __dict__."""
    slots = any(vars(one).get("__slots__") for one in kind.__mro__)
    return kind.__basicsize__ == _PLAIN_SIZE and not kind.__itemsize__ and not slots


def _parts_of_frame(coroutine: types.CoroutineType[Any, Any, Any]) -> Iterator[Any]:
    """What a suspended frame has in its variables, and has put aside, as the interpreter shows it to its collector."""
    frame = coroutine.cr_frame
    yield from (_Code(frame.f_code), frame.f_lasti, tuple(frame.f_locals))
    around = (frame, frame.f_code, frame.f_globals, frame.f_builtins, frame.f_locals, coroutine.cr_await)
    passed = {id(thing) for thing in around}
    has_function = sys.version_info >= (3, 11)
    shown = gc.get_referents(coroutine if has_function else frame)
    if shown and shown[-1] is None and shown[-2] is coroutine.cr_await:
        shown.pop()  # behind all that is put aside: the exception that is handled, after there was one
    for thing in shown:
        if has_function and isinstance(thing, types.FunctionType) and thing.__code__ is frame.f_code:
            has_function = False  # its own: the first
        elif id(thing) not in passed:
            yield thing


def value_of(coroutine: Any, awaited: object, parts: Parts) -> Union[Hashable, Opaque]:
    """The value of a coroutine that awaits this thing, directly or through others; why there is none if there isn't."""
    reader = _Reader(parts)
    frames = []
    try:
        while isinstance(coroutine, types.CoroutineType):
            frames.append(tuple(map(reader.value, _parts_of_frame(coroutine))))
            coroutine = coroutine.cr_await
        if not _IS_SHOWN or getattr(coroutine, "gi_code", None) is not getattr(type(awaited), "__await__").__code__:
            return Opaque(type(coroutine).__name__)
        return (*frames, reader.value(awaited))
    except Opaque as why:
        return why
    except RecursionError:
        return Opaque("deep thing")


class _Once:
    def __await__(self) -> Generator[Any, Any, Any]:
        yield self


async def _has_all(given: int) -> None:
    for _ in range(9):
        print(given, await _Once())


def _is_shown() -> bool:
    """Whether this interpreter shows variables, and what is put aside: here an iterator, a function and an argument."""
    coroutine: Any = _has_all(4711)
    coroutine.send(None)
    shown = [type(thing) for thing in _parts_of_frame(coroutine)]
    coroutine.close()
    return shown[-5:] == [int, int, type(iter(range(9))), type(print), int]


_IS_SHOWN = _is_shown()
