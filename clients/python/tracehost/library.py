"""The library in C, include/tracehost.h: how it is found, and a session of it in this process."""

from __future__ import annotations

import ctypes
import functools
import os
from collections.abc import Callable
from ctypes import POINTER, Array, byref, c_bool, c_char_p, c_size_t, c_uint32, c_uint64

from . import checkout, packaged
from .errors import SessionClosed, hides_from_pytest
from .names import MOST_LWPS as MOST_LWPS
from .names import MOST_PROCESSES as MOST_PROCESSES

TYPE_CHECKING = False
if TYPE_CHECKING:
    from typing import Any, Optional

__tracebackhide__ = hides_from_pytest

# what a call returns
ANSWERED, NOT_OPEN, NO_MEMORY, INVALID, NO_TEXT, TOO_MANY = range(6)

_NAME = "libtracehost.so"
_ROOM = 1 << 16


class Handle(ctypes.Structure):
    """``struct tracehost``."""

    _fields_ = [("session", ctypes.c_void_p), ("tag", c_uint64)]


class Words(ctypes.Structure):
    """A struct of C with fields of 32 bits."""

    @classmethod
    def fields(cls, names: str) -> list[tuple[str, type[c_uint32]]]:
        return [(name, c_uint32) for name in names.split()]


class CRule(Words):
    """``struct tracehost_rule``."""

    _fields_ = Words.fields("flags signal decision passed")


# tools/format structs
class Reply(Words):
    """``struct tracehost_reply``."""

    kind: int
    pid: int
    lwp: int
    number: int
    status: int
    signal: int
    event: int
    flags: int
    mask: int
    pending: int
    child: int
    code: int
    has_handler: int
    handler: int
    decision: int
    passed: int
    error: int
    count: int
    stop_pid: int
    _fields_ = Words.fields(
        "kind pid lwp number status signal event flags mask pending child code has_handler handler decision passed error"
        " count stop_pid"
    )


class CProcess(Words):
    """``struct tracehost_process``."""

    pid: int
    parent: int
    tracer: int
    state: int
    lwp: int
    signal: int
    told: int
    status: int
    continued: int
    events: int
    pending: int
    _fields_ = Words.fields("pid parent tracer state lwp signal told status continued events pending")


class CLwp(Words):
    """``struct tracehost_lwp``."""

    lwp: int
    pid: int
    mode: int
    call: int
    argument: int
    vfork_child: int
    suspended: int
    stepping: int
    blocked: int
    pending: int
    due: int
    flags: int
    child: int
    code: int
    _fields_ = Words.fields("lwp pid mode call argument vfork_child suspended stepping blocked pending due flags child code")


# end


RawRows = tuple["Array[CProcess]", "Array[CLwp]"]
"""A user's processes by rising number, and LWPs in order of birth."""
_HANDLE, _LENGTH = POINTER(Handle), POINTER(c_size_t)
_TYPES: dict[str, list[Any]] = {
    "open": [c_bool, _HANDLE],
    "close": [_HANDLE],
    "copy": [_HANDLE, _HANDLE],
    "copy_over": [_HANDLE, _HANDLE],
    "copy_user": [_HANDLE, _HANDLE, c_uint32],
    "explain": [c_char_p, c_size_t, c_size_t, c_char_p, c_size_t, _LENGTH],
    "line": [_HANDLE, c_bool, c_char_p, c_size_t, c_char_p, c_size_t, _LENGTH],
    "last_line": [_HANDLE, c_bool, c_char_p, c_size_t, _LENGTH],
    "last_step": [_HANDLE, c_char_p, c_size_t, _LENGTH],
    "numbers": [_HANDLE, POINTER(c_uint32), c_size_t, _LENGTH],
    "rows": [_HANDLE, c_uint32, c_char_p, c_size_t, _LENGTH],
    "state": [_HANDLE, c_uint32, POINTER(c_uint32), c_size_t, _LENGTH],
    "view": [_HANDLE, c_uint32, POINTER(CProcess), c_size_t, POINTER(CLwp), c_size_t, _LENGTH, _LENGTH],
}
# The steps take words, which ctypes passes as they are. To check declared types would take three times as long as such
# a call, so `TypedCalls` checks that its numbers fit, and passes a c_int64 or c_size_t if the header has one.
_STEPS = ("spawn", "list", "sigaction", "kill", "wait4", "install", "handle", "ptrace", "turn")


class Library:
    """The functions of a libtracehost.so, by their names without ``tracehost_``. Each returns a code.

    A call keeps the interpreter's lock: most calls take less time than giving it away.
    """

    def __init__(self, path: str) -> None:
        """Raises OSError if there is no such library, or it can't be loaded here."""
        self.path = path
        loaded = ctypes.PyDLL(path)
        try:
            self._functions = {name: loaded[f"tracehost_{name}"] for name in (*_TYPES, *_STEPS)}
        except AttributeError as error:
            raise OSError(f"{path}: no library of tracehost: {error}") from None
        for name, function in self._functions.items():
            function.restype = c_uint32
            if name in _TYPES:
                function.argtypes = _TYPES[name]

    def __getitem__(self, name: str) -> Callable[..., int]:
        return self._functions[name]


@functools.lru_cache(maxsize=None)
def load(path: str) -> Library:
    return Library(path)


def _own() -> str:
    """The library that nobody names: that of this package, else of the checkout that it is run from.

    Raises OSError if there is none, if the package's isn't the one that it was built with, and if the checkout's isn't of
    its present sources or is damaged.
    """
    place = packaged.file_of(f"lib/{_NAME}")
    if place is not None:
        return place
    folder = checkout.answer_of("library")
    if folder is None:
        raise FileNotFoundError("no libtracehost.so: TRACEHOST_LIBRARY names none, and this package has none")
    return f"{folder}/{_NAME}"


def find() -> Library:
    """What the environment's ``TRACEHOST_LIBRARY`` names, else the package's own library, else the checkout's.

    Raises OSError if there is none, or it can't be loaded here.
    """
    return load(os.environ.get("TRACEHOST_LIBRARY") or _own())


class Session:
    """A session of the library: lines, and a handle for the other calls."""

    def __init__(self, library: Library, kill_on_debugger_exit: bool = True) -> None:
        """Opens a session. Raises MemoryError."""
        self.library = library
        self._handle = Handle()
        self.handle = byref(self._handle)
        self._room = ctypes.create_string_buffer(_ROOM)
        self._length = c_size_t()
        self._words = (c_uint32 * 0)()
        self._rows: Optional[RawRows] = None
        self.check(library["open"](kill_on_debugger_exit, self.handle))

    def __del__(self) -> None:
        if hasattr(self, "handle"):
            self.close()

    def copy(self) -> Session:
        """A session at the present state of this one. Raises MemoryError."""
        made = Session.__new__(Session)
        made.library = self.library
        made._handle = Handle()
        made.handle = byref(made._handle)
        made._room = ctypes.create_string_buffer(_ROOM)
        made._length = c_size_t()
        made._words = (c_uint32 * 0)()
        made._rows = None
        self.check(self.library["copy"](self.handle, made.handle))
        return made

    def exchange(self, line: str) -> str:
        text = line.encode("utf-8", "surrogateescape")
        length = byref(self._length)
        code = self.library["line"](self.handle, False, text, len(text), self._room, len(self._room), length)
        if code == NO_TEXT or self._length.value > len(self._room):
            self._room = ctypes.create_string_buffer(max(_ROOM, self._length.value))
            code = self.library["last_line"](self.handle, False, self._room, len(self._room), length)
        self.check(code)
        return ctypes.string_at(self._room, self._length.value - 1).decode("utf-8", "replace")

    def copy_over(self, other: Session) -> None:
        """Makes the other session one at the present state of this one. Raises MemoryError, and leaves it then."""
        if other is not self:
            self.check(self.library["copy_over"](self.handle, other.handle))

    def copy_user(self, other: Session, user: int) -> None:
        """Gives the other session what one user has in this one, for the time and memory of only this user. Raises
        ValueError for other settings or another user, and MemoryError, and leaves it then.
        """
        if other is not self:
            self.check(self.library["copy_user"](self.handle, other.handle, user))

    def _text(self, name: str, *words: object) -> Optional[str]:
        """The text that the call stores; None if it returns INVALID."""
        while True:
            code = self.library[name](*words, self._room, len(self._room), byref(self._length))
            if code == INVALID:
                return None
            self.check(code)
            if self._length.value <= len(self._room):
                return ctypes.string_at(self._room, self._length.value).decode()
            self._room = ctypes.create_string_buffer(self._length.value)

    def last_step(self) -> Optional[str]:
        """The line of the step that was answered last; None before any answer, after a refused line, and for a step that
        no line is: a mask with bits that no event has."""
        return self._text("last_step", self.handle)

    def last_line(self, json: bool = False) -> str:
        """The line of the last answer, in words or as a JSON object; "" before any."""
        return (self._text("last_line", self.handle, json) or "").rstrip("\n")

    def explain(self, line: str, number: int = 1) -> Optional[str]:
        """Why the line isn't a step, as ``tracehost --lines --explain`` prints it; empty if it is one."""
        text = line.encode("utf-8", "surrogateescape")
        return self._text("explain", text, len(text), number)

    def rows_text(self, uid: int) -> str:
        """The user's rows as a JSON object, as ``--json=trace+rows`` has them. Raises ValueError if this is no user."""
        text = self._text("rows", self.handle, uid)
        if text is None:
            raise ValueError(f"{uid} is no user")
        return text

    def close(self) -> None:
        self.library["close"](self.handle)  # closed already: it returns NOT_OPEN

    def _array(self, name: str, *words: object) -> tuple[int, ...]:
        """The numbers that the call stores."""
        while True:
            room = self._words
            self.check(self.library[name](self.handle, *words, room, len(room), byref(self._length)))
            if self._length.value <= len(room):
                return tuple(room[: self._length.value])
            self._words = (c_uint32 * (2 * self._length.value))()

    def numbers(self) -> tuple[int, ...]:
        """The list of the last answer."""
        return self._array("numbers")

    def state(self, uid: int) -> tuple[int, ...]:
        """All that the user sees, as numbers: two sessions show the user the same if and only if these are the same.

        Raises ValueError if this is no user.
        """
        return self._array("state", uid)

    def rows(self, uid: int) -> RawRows:
        """The user's processes and LWPs, until the next call of this function. Raises ValueError if this is no user."""
        if self._rows is None:
            self._rows = (CProcess * MOST_PROCESSES)(), (CLwp * MOST_LWPS)()
        processes, lwps = self._rows
        counts = (c_size_t(), c_size_t())
        code = self.library["view"](
            self.handle, uid, processes, len(processes), lwps, len(lwps), byref(counts[0]), byref(counts[1])
        )
        if code == INVALID:
            raise ValueError(f"{uid} is no user")
        self.check(code)
        return (CProcess * counts[0].value).from_buffer(processes), (CLwp * counts[1].value).from_buffer(lwps)

    def check(self, code: int) -> None:
        """Raises what a code means."""
        if code == NOT_OPEN:
            raise SessionClosed
        if code in (NO_MEMORY, NO_TEXT):
            raise MemoryError
        if code == TOO_MANY:
            raise OverflowError("the user has had 2^64 - 1 answers")
        if code:
            raise ValueError(f"the library returned {code}")
