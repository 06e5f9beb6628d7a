"""How the commands end: one that couldn't do its work never ends as one that did."""

from __future__ import annotations

import os
import sys
from collections.abc import Callable

from .playing import NOT_DONE

_INTERRUPTED = 130


def status_of(name: str, command: Callable[[], int]) -> int:
    """The status of a command: NOT_DONE if something can't be read or written, as on a full disk."""
    try:
        status = command()
        sys.stdout.flush()
        return status
    except OSError as error:
        print(f"{name}: {error}", file=sys.stderr)
        _forget_output()
        return NOT_DONE
    except KeyboardInterrupt:
        _forget_output()
        return _INTERRUPTED


def _forget_output() -> None:
    """What couldn't be written isn't tried again at the end."""
    os.dup2(os.open(os.devnull, os.O_WRONLY), sys.stdout.fileno())
