"""The files of tests in a folder that programs, their tests and their processes share.

A test's file is called ``PROGRAM.TEST-DIGEST.json``; the digest is of all that tells it from other tests. While the test
runs, a number of the process is at the end: ``..json.1234``. The file is renamed if the test fails, and removed if it
passes. A process that ends in between leaves it so.

A test may have replaced the functions of `os`: they are kept here.
"""

from __future__ import annotations

import errno
import hashlib
import re
import time
from collections.abc import Iterator
from contextlib import contextmanager, suppress
from fcntl import LOCK_EX, LOCK_NB, LOCK_UN, flock
from os import O_CLOEXEC, O_DIRECTORY, O_RDONLY, close, environ, getpid, lstat, makedirs, replace, scandir, unlink
from os import open as open_file
from os.path import abspath
from pathlib import Path
from time import sleep
from typing import NamedTuple, Optional

from .recording import mend

_MOST_OF_A_PROGRAM, _MOST_OF_A_TEST, _MOST_OF_A_SESSION = 30, 50, 80
_ENDS = (".json", ".out", ".html")
_RUNNING = re.compile(r"(.+)\.(json|out)\.(\d+)")
_TRIES, _SECONDS_OF_A_TRY = 1000, 0.01
_SECONDS_UNTIL_LOCKED = 0.2  # or removed
_TRACES = environ.get("TRACEHOST_TRACES") and abspath(environ["TRACEHOST_TRACES"])
_BEGAN = time.time_ns() - 20_000_000  # a file's time may be so much behind


def readable(name: str) -> str:
    """The name, with plain characters only."""
    return re.sub(r"[^A-Za-z0-9_.-]+", "_", name)


def digest(name: str) -> str:
    return hashlib.sha256(name.encode("utf-8", "surrogatepass")).hexdigest()[:12]


def stem_of(program: str, test: str, identity: str) -> str:
    """How the names of a test's files begin. No other test has the `identity`."""
    return f"{readable(program)[:_MOST_OF_A_PROGRAM].lstrip('.-') or '_'}.{readable(test)[:_MOST_OF_A_TEST]}-{digest(identity)}"


def session_name(name: str) -> str:
    """The name, unless it would be a path, or a long one."""
    plain = readable(name)[:_MOST_OF_A_SESSION]
    return name if name == plain else f"{plain}-{digest(name)}"


class Kept(NamedTuple):
    """A record that has its last name."""

    scenario: Path
    inode: int


class Running:
    """A record that this process is making."""

    def __init__(self, scenario: Path) -> None:
        self.scenario = scenario
        """Its name once the test has failed."""
        self._owner = getpid()
        self.now = scenario.with_name(f"{scenario.name}.{self._owner}")
        self.lines_now = scenario.with_name(f"{scenario.stem}.out.{self._owner}")

    def keep(self) -> Optional[Kept]:
        """Gives the files their last names, and removes the page of an earlier run. None in a forked child.

        Only under the folder's lock. Raises OSError.
        """
        if getpid() != self._owner:
            return None
        replace(self.now, self.scenario)
        with suppress(FileNotFoundError):  # a step that isn't recorded has no line
            replace(self.lines_now, self.scenario.with_suffix(".out"))
        with suppress(OSError):
            unlink(self.scenario.with_suffix(".html"))
        return Kept(self.scenario, lstat(self.scenario).st_ino)

    def drop(self) -> None:
        """Removes the files. Raises OSError."""
        if getpid() == self._owner:
            for file in (self.now, self.lines_now):
                with suppress(FileNotFoundError):
                    unlink(file)


class Folder:
    """A folder of records, as this process has found it."""

    def __init__(self, path: Path, began: Optional[int] = None, parents: bool = True) -> None:
        """Files that have changed since `began`, in nanoseconds, are none of an earlier run; by default since this process
        has. `parents` are made with the folder. Raises no OSError.
        """
        self.path, self._parents = path, parents
        self.began = _BEGAN if began is None else began
        self._earlier: dict[str, list[tuple[str, int]]] = {}
        with suppress(OSError), scandir(path) as entries:
            for entry in entries:
                if entry.name.endswith(_ENDS) or _RUNNING.fullmatch(entry.name):
                    self._earlier.setdefault(_test_of(entry.name), []).append((entry.name, entry.inode()))

    def make(self) -> None:
        self.path.mkdir(parents=self._parents, exist_ok=True)

    @contextmanager
    def locked(self) -> Iterator[None]:
        """Nobody else renames or removes files of the folder. It goes on without the lock if there is none to be had,
        as without descriptors. Raises TimeoutError."""
        number = -1
        try:
            number = open_file(self.path, O_RDONLY | O_DIRECTORY | O_CLOEXEC)
            _lock(number)
        except TimeoutError:
            close(number)
            raise
        except OSError:
            pass
        try:
            yield
        finally:
            if number >= 0:
                with suppress(OSError):
                    flock(number, LOCK_UN)  # a child that was forked meanwhile has it too
                close(number)

    def remove_earlier(self, stem: str, but: set[str]) -> Iterator[OSError]:
        """Removes what an earlier run of the test has left, but for these names. Yields what can't be removed."""
        earlier = [one for one in self._earlier.pop(stem, []) if one[0] not in but]
        if earlier:
            with self.locked():
                for name, inode in earlier:
                    yield from self._remove(name, inode)

    def _remove(self, name: str, inode: int) -> Iterator[OSError]:
        path = self.path / name
        try:
            status = lstat(path)
            is_same = status.st_ino == inode and status.st_ctime_ns < self.began
            if is_same and not (_RUNNING.fullmatch(name) and is_in_use(path)):
                unlink(path)
        except FileNotFoundError:
            pass
        except OSError as error:
            yield error

    def remove_kept(self, kept: Kept) -> None:
        """Removes a record of this process, unless another one has taken its name. Raises OSError."""
        with self.locked(), suppress(FileNotFoundError):
            if lstat(kept.scenario).st_ino == kept.inode:
                for end in _ENDS:
                    with suppress(FileNotFoundError):
                        unlink(kept.scenario.with_suffix(end))

    def left_by_the_dead(self) -> list[Path]:
        """The scenarios of tests that a process hadn't ended when it ended itself.

        A process that is alive may just have made a record, or be about to remove it, so it is looked at again.
        """
        unlocked = self._unlocked()
        if any(_is_alive(scenario.suffix[1:]) for scenario in unlocked):
            sleep(_SECONDS_UNTIL_LOCKED)
            unlocked = sorted({*unlocked} & {*self._unlocked()})
        return unlocked

    def _unlocked(self) -> list[Path]:
        left: list[Path] = []
        with suppress(OSError), scandir(self.path) as entries:
            for entry in entries:
                found = _RUNNING.fullmatch(entry.name)
                if found is not None and found[2] == "json" and not is_in_use(self.path / entry.name):
                    left.append(self.path / entry.name)
        return sorted(left)

    def adopt(self, stem: str) -> list[Path]:
        """Gives the records of this test whose process has ended their last names. Raises OSError."""
        adopted: list[Path] = []
        for scenario in self._unlocked():
            if _test_of(scenario.name) != stem:
                continue
            last = scenario.with_suffix("")
            lines = scenario.with_name(f"{last.stem}.out{scenario.suffix}")
            with self.locked(), suppress(FileNotFoundError):
                with suppress(ValueError):  # it has only just begun
                    mend(scenario, lines)
                replace(scenario, last)
                replace(lines, last.with_suffix(".out"))
                adopted.append(last)
        return adopted


def leave_trace(record: Path) -> None:
    """Copies a record to the folder ``$TRACEHOST_TRACES``, if it is set, as STEM.PROCESS.json. Raises OSError."""
    if not _TRACES:
        return
    makedirs(_TRACES, exist_ok=True)
    front = f"{_TRACES}/{re.sub(r'[.]json([.][0-9]+)?$', '', record.name)}.{getpid()}"
    path, number = front + ".json", 2
    while True:
        try:
            with open(path, "xb") as trace:
                trace.write(record.read_bytes())
            return
        except FileExistsError:
            path, number = f"{front}-{number}.json", number + 1
        except OSError:
            with suppress(OSError):
                unlink(path)
            raise


def hold(number: int) -> None:
    """Locks a record while its process makes it, so that others know it from what a dead process has left."""
    with suppress(OSError):
        _lock(number)


def is_in_use(file: Path) -> bool:
    """Whether the process that makes this record is alive."""
    try:
        number = open_file(file, O_RDONLY | O_CLOEXEC)
    except OSError as error:
        return error.errno != errno.ENOENT
    try:
        flock(number, LOCK_EX | LOCK_NB)
    except OSError:
        return True
    finally:
        close(number)
    return False


def _is_alive(number: str) -> bool:
    """Whether there is a process of this number, and no zombie."""
    try:
        return Path("/proc", number, "stat").read_bytes().rpartition(b")")[2].split()[0] not in (b"Z", b"X")
    except (OSError, IndexError):
        return False


def _lock(number: int) -> None:
    """Waits a while for the lock. Raises OSError, and TimeoutError."""
    for _ in range(_TRIES):
        try:
            flock(number, LOCK_EX | LOCK_NB)
        except BlockingIOError:
            sleep(_SECONDS_OF_A_TRY)
        else:
            return
    raise TimeoutError("another process has locked the folder for a long time")


def _test_of(name: str) -> str:
    """The stem of the test that a file of this name is of."""
    found = re.match(r"(.*?-[0-9a-f]{12})\.", name)
    return name if found is None else found[1]
