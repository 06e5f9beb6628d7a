"""The record that a failing run leaves if none was asked for, in a folder that programs share, as failing tests do.

Its name is that of the program and of what the command asks for. It is renamed once it is whole. The same command removes
it when it passes, and no other's.
"""

from __future__ import annotations

import fcntl
import hashlib
import os
import re
import time
from collections.abc import Callable, Iterator, Sequence
from contextlib import contextmanager, suppress

MOST_OF_A_PROGRAM, MOST_OF_WORDS = 30, 50
ENDS = (".lines", ".schedule", ".html", "")  # whoever finds the scenario finds the rest
TRIES, SECONDS_OF_A_TRY = 1000, 0.01
_BEGAN = time.time_ns() - 20_000_000  # a file's time may be so much behind


def name_of(program: str, words: Sequence[str]) -> str:
    """PROGRAM.WORDS-DIGEST.json: the words are those of the command without the program."""
    identity = "\0".join([os.path.realpath(program), *words]).encode(errors="surrogateescape")
    digest = hashlib.sha256(identity).hexdigest()[:12]
    plain = _readable(" ".join(word.lstrip("-") for word in words))[:MOST_OF_WORDS] or "run"
    return f"{_readable(os.path.basename(program))[:MOST_OF_A_PROGRAM].lstrip('.-') or '_'}.{plain}-{digest}.json"


def _readable(name: str) -> str:
    return re.sub(r"[^A-Za-z0-9_.-]+", "_", name)


class Kept:
    """The record of a command."""

    def __init__(self, program: str, words: Sequence[str]) -> None:
        named = os.environ.get("TRACEHOST_ARTIFACTS")
        self._folder = os.path.abspath(named) if named else None
        self._name = name_of(program, words)

    def keep(self, write: Callable[[str], None]) -> str:
        """Writes the record's files, which begin so, and gives them their last names. Raises OSError: then none is left."""
        if self._folder is None:
            import tempfile

            folder = tempfile.mkdtemp(prefix="tracehost-record-")
        else:
            folder = self._folder
            os.makedirs(folder, exist_ok=True)
        path = os.path.join(folder, self._name)
        now = f"{path}.{os.getpid()}.part"  # which other suites don't take for a test's that runs
        try:
            write(now)
            with _locked(folder):
                for end in ENDS:
                    with suppress(FileNotFoundError):
                        os.unlink(path + end)
                for end in ENDS:
                    with suppress(FileNotFoundError):  # there may be no page
                        os.replace(now + end, path + end)
        except BaseException:
            _remove(now)
            if self._folder is None:
                with suppress(OSError):
                    os.rmdir(folder)
            raise
        return path

    def drop(self) -> None:
        """The command has passed: what it left before goes, also if it was killed while it wrote. Raises OSError."""
        if self._folder is None or not os.path.isdir(self._folder):
            return
        own = re.compile(re.escape(self._name) + r"(?:\.(\d+)\.part)?(?:\.lines|\.schedule|\.html)?")
        with _locked(self._folder):
            for name in os.listdir(self._folder):
                path, found = os.path.join(self._folder, name), own.fullmatch(name)
                if (
                    found is not None
                    and os.lstat(path).st_ctime_ns < _BEGAN
                    and not (found[1] and os.path.exists(f"/proc/{found[1]}"))
                ):
                    os.unlink(path)


def _remove(path: str) -> None:
    for end in ENDS:
        with suppress(OSError):
            os.unlink(path + end)


@contextmanager
def _locked(folder: str) -> Iterator[None]:
    """Nobody else renames or removes records of the folder. Raises TimeoutError."""
    number = os.open(folder, os.O_RDONLY | os.O_DIRECTORY | os.O_CLOEXEC)
    try:
        for _ in range(TRIES):
            with suppress(BlockingIOError):
                fcntl.flock(number, fcntl.LOCK_EX | fcntl.LOCK_NB)
                break
            time.sleep(SECONDS_OF_A_TRY)
        else:
            raise TimeoutError(0, "another process has locked it for a long time", folder)
        yield
    finally:
        os.close(number)
