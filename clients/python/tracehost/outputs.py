"""What commands of this package share: no output that can't be written is passed over."""

from __future__ import annotations

import argparse
import errno
import os
import sys
from collections.abc import Callable
from typing import IO, Optional


class Parser(argparse.ArgumentParser):
    """A parser that raises OSError if the text of --help can't be written."""

    def print_help(self, file: Optional[IO[str]] = None) -> None:
        stream = sys.stdout if file is None else file
        stream.write(self.format_help())
        stream.flush()


def closed(name: str) -> OSError:
    """The error of a standard stream that the caller has closed: Python then has none."""
    return OSError(errno.EBADF, os.strerror(errno.EBADF), name)


def status_of(command: str, run: Callable[[], int], failed: int = 1) -> int:
    """What `run` returns, or the status `failed` if a file or an output can't be read or written, which it tells."""
    try:
        if sys.stdout is None:
            raise closed("standard output")
        status = run()
        sys.stdout.flush()
        return status
    except OSError as error:
        if sys.stdout is not None:  # so that Python doesn't write the rest when it ends
            os.dup2(os.open(os.devnull, os.O_WRONLY), sys.stdout.fileno())
        if not isinstance(error, BrokenPipeError):  # as `tracehost | head` ends
            print(f"{command}: {_said(error)}", file=sys.stderr)
        return failed


def _said(error: OSError) -> str:
    """The file and why; of an error without an errno, such as that there is no program, its text."""
    return f"{error.filename or 'standard output'}: {error.strerror}" if error.errno else str(error)
