"""Calls that sleep until another step of their user may have brought news, and functions that take turns."""

from __future__ import annotations

import sys
import threading
import time
from collections import defaultdict
from collections.abc import Callable, Sequence
from types import CodeType, FrameType

from .errors import SessionBusy, hides_from_pytest

TYPE_CHECKING = False
if TYPE_CHECKING:
    from typing import Any, Optional

__tracebackhide__ = hides_from_pytest


class Progress:
    """Counts each user's steps that may have changed something, and lets threads sleep until the next one."""

    def __init__(self) -> None:
        self._counts: defaultdict[int, int] = defaultdict(int)
        self._news = threading.Condition()
        self._sleepers = 0
        self._closed = False
        self._turns: Turns | None = None
        self.is_watched = False
        """Whether somebody has ever slept, or was about to: before that nobody asks for counts."""

    def note(self, uid: int) -> None:
        """Counts a step of the user that may have changed something. One thread at a time calls it."""
        self._counts[uid] += 1
        if self._sleepers:  # looked at after the count, which a sleeper looks at after it is counted here
            with self._news:
                self._news.notify_all()

    def seen(self, uid: int) -> int:
        """The user's count."""
        return self._counts[uid]

    def in_child(self) -> None:
        """After fork(2), in the child: no other thread sleeps there, or runs functions by turns."""
        self._news = threading.Condition()
        self._sleepers = 0
        self._turns = None

    def close(self) -> None:
        """Wakes all threads: no step follows."""
        with self._news:
            self._closed = True
            self._news.notify_all()

    def sleep(self, uid: int, seen: int, deadline: float | None, what: str) -> None:
        """Returns once the user's count is above `seen`, or the session is closed. Raises TimeoutError."""
        turns = self._turns
        if turns is not None and turns.has_this_thread():
            turns.sleep(lambda: self._closed or self.seen(uid) > seen, what)
            return
        with self._news:
            self._sleepers += 1
            try:
                while not self._closed and self.seen(uid) <= seen:
                    left = None if deadline is None else deadline - time.monotonic()
                    if left is not None and left <= 0:
                        raise TimeoutError(f"{what}: no news in time")
                    self._news.wait(left)
            finally:
                self._sleepers -= 1

    def run(self, functions: Sequence[Callable[[], Any]]) -> list[Any]:
        """Runs the functions by turns (`Turns`)."""
        if self._turns is not None:
            raise RuntimeError("the session runs functions already")
        self._turns = Turns(functions)
        try:
            return self._turns.run()
        finally:
            self._turns = None


class Turns:
    """Functions, each in a thread of its own. One runs at a time: until it returns, or would sleep.

    Then the next in their order runs that can go on, so a session has the same steps in every run. If
    none can go on, the one whose turn it is gets a TimeoutError: nothing could wake it.
    """

    def __init__(self, functions: Sequence[Callable[[], Any]]) -> None:
        self._functions = functions
        self._results: list[Any] = [None] * len(functions)
        self._errors: list[BaseException] = []
        self._ready: dict[int, Callable[[], bool]] = {n: lambda: True for n in range(len(functions))}
        self._current = 0
        self._changed = threading.Condition()
        self._numbers: dict[int, int] = {}

    def run(self) -> list[Any]:
        """The functions' results, once all have returned. Raises the first exception that one of them raised."""
        threads = [threading.Thread(target=self._run, args=(n,), daemon=True) for n in range(len(self._functions))]
        for thread in threads:
            thread.start()
        for thread in threads:
            thread.join()
        if self._errors:
            raise self._errors[0]
        return self._results

    def has_this_thread(self) -> bool:
        return threading.get_ident() in self._numbers

    def sleep(self, ready: Callable[[], bool], what: str) -> None:
        """Gives the turn to another function, and returns once this one has it again and is ready."""
        number = self._numbers[threading.get_ident()]
        with self._changed:
            self._ready[number] = ready
            self._pass_on(number)
            self._changed.wait_for(lambda: self._current == number)
            self._ready[number] = lambda: True
            if not ready():
                raise TimeoutError(f"{what}: it would sleep for ever, as no other function can go on")

    def _run(self, number: int) -> None:
        with self._changed:
            self._numbers[threading.get_ident()] = number
            self._changed.wait_for(lambda: self._current == number)
        try:
            self._results[number] = self._functions[number]()
        except BaseException as error:
            self._errors.append(error)
        finally:
            with self._changed:
                del self._ready[number]
                self._pass_on(number)

    def _pass_on(self, number: int) -> None:
        """The turn of the next function that is ready. If none is, of the one at hand, or of the next one."""
        size = len(self._functions)
        order = [n % size for n in range(number + 1, number + size + 1) if n % size in self._ready]
        stuck = number if number in self._ready else (order[0] if order else number)
        self._current = next((n for n in order if self._ready[n]()), stuck)
        self._changed.notify_all()


def check_is_alone(methods: Sequence[CodeType], own: object) -> None:
    """Raises SessionBusy if this thread is in a method of the object with one of these codes, beside the one that calls.

    Python 3.9 may raise KeyboardInterrupt before a method has noted its end, so the thread's frames are looked at.
    """
    at: Optional[FrameType] = sys._getframe(2)
    while at is not None:
        if at.f_code in methods and at.f_locals["self"] is own:
            raise SessionBusy
        at = at.f_back
