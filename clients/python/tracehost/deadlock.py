"""Whether a sleep has an end: nothing wakes the only thread of a process."""

from __future__ import annotations

import os
import signal
import sys
import threading
from collections.abc import Iterable
from types import FrameType
from typing import Optional

from .rows import ProcessRow, ProcessState

_PLUGINS = ("execnet", "pytest_rerunfailures")  # the first is pytest-xdist's


def is_alone() -> bool:
    """Whether no other thread, and no handler of a signal, can make a step.

    Those of pytest's plugins make none. With greenlets it can't be said.
    """
    if {"gevent", "eventlet"} & {*sys.modules} or any(map(_has_handler, signal.valid_signals())):
        return False
    frames = [frame for thread, frame in sys._current_frames().items() if thread != threading.get_ident()]
    try:
        threads = len(os.listdir("/proc/self/task"))  # also those that Python doesn't know yet
    except OSError:
        return False
    return threads == 1 + len(frames) and all(map(_is_of_a_plugin, frames))


def _has_handler(number: int) -> bool:
    handler = signal.getsignal(number)
    return callable(handler) and handler is not signal.default_int_handler


def _is_of_a_plugin(frame: FrameType) -> bool:
    """Whether the frame's thread runs a function of such a plugin."""
    callers: list[str] = []
    caller: Optional[FrameType] = frame
    while caller is not None:
        callers.append(str(caller.f_globals.get("__name__", "")).partition(".")[0])
        caller = caller.f_back
    return next((name for name in reversed(callers) if name != "threading"), "") in _PLUGINS


def sentence(processes: Iterable[ProcessRow]) -> str:
    """What stops whom: ``; 1001 is stopped by SIGSTOP, which 1000 knows``."""
    said = ""
    for row in processes:
        if row.state is ProcessState.ZOMBIE:
            said += f"; {row.pid} has ended"
        elif row.stop_signal is not None:
            said += f"; {row.pid} is stopped by {row.stop_signal.name}"
            if row.tracer is not None:
                said += f", which {row.tracer} {'knows' if row.reported else 'does not know yet'}"
    return said
