"""Temporary folders. What a killed run has left the next one removes: nobody has the folder's lock any more."""

from __future__ import annotations

import os
import re
from collections.abc import Iterator
from contextlib import contextmanager, suppress

PREFIX = "tracehost-run-"


@contextmanager
def room() -> Iterator[str]:
    """A folder of this process's, which has its lock."""
    import shutil
    import tempfile

    while True:
        path = tempfile.mkdtemp(prefix=PREFIX)
        with suppress(FileNotFoundError):  # another run has taken it for one that was left
            lock = _open(path)
            _lock(lock)
            if os.path.exists(path):
                break
            os.close(lock)
    try:
        yield path
    finally:
        shutil.rmtree(path, ignore_errors=True)
        os.close(lock)


def sweep() -> None:
    """Removes what killed runs of this user have left."""
    folder = next((name for name in map(os.environ.get, ("TMPDIR", "TEMP", "TMP")) if name), "/tmp")
    with suppress(OSError):
        for name in os.listdir(folder):
            if name.startswith(PREFIX) and re.fullmatch(r"\w{8}", name[len(PREFIX) :]):
                _remove(os.path.join(folder, name))


def _remove(path: str) -> None:
    """Unless it is another's, or has an owner that is alive."""
    import shutil

    with suppress(OSError):
        lock = _open(path)
        try:
            if os.fstat(lock).st_uid == os.geteuid() and _lock(lock, waits=False):
                shutil.rmtree(path, ignore_errors=True)
        finally:
            os.close(lock)


def _open(path: str) -> int:
    return os.open(path, os.O_RDONLY | os.O_DIRECTORY | os.O_NOFOLLOW | os.O_CLOEXEC)


def _lock(folder: int, waits: bool = True) -> bool:
    """Whether it is had now: not if another has it, or the file system has no locks."""
    import fcntl

    try:
        fcntl.flock(folder, fcntl.LOCK_EX if waits else fcntl.LOCK_EX | fcntl.LOCK_NB)
    except OSError:
        return False
    return True
