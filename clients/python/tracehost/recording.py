"""A recording: the scenario that has the steps of a session, and its lines."""

from __future__ import annotations

import errno
import json
import os
import resource
import warnings
from collections.abc import Callable, Iterator
from contextlib import suppress
from pathlib import Path
from typing import Optional

from .errors import RecordingFailed

# what a scenario may have (docs/FORMAT.md, section 1)
_MOST_STEPS = 100_000
_MOST_BYTES = 4_194_304
_END = b"\n]}\n"


class Recording:
    """A file that is a whole scenario after each step, and beside it the lines of these steps.

    ``tracehost FILE`` prints the lines that the session had. A refused line is no step and isn't recorded. A step that
    was answered ENOMEM has changed nothing and isn't recorded either: the replies after it stay the same, and the
    numbers of that user's later steps are one lower. A session that is longer than a scenario may be is recorded up to
    there. Both give a RuntimeWarning.

    A step that can't be written, as on a full disk, leaves both files as they were, and ends the session. If that is a
    test's, all of this is told by `tell`, and neither warns nor raises. Lines are written before their step: a process
    that is killed between the two leaves one line more (`mend`). A forked child records nothing.
    """

    tell: Optional[Callable[[str], None]] = None

    def __init__(
        self,
        path: str | os.PathLike[str],
        kill_on_debugger_exit: bool | None = None,
        lines: str | os.PathLike[str] | None = None,
    ) -> None:
        """Makes the file, or empties it. `lines` is a second file, which gets the lines of the answers.

        Raises OSError, which names the file.
        """
        self.path = Path(path)
        setting = "" if kill_on_debugger_exit is None else f'"kill_on_debugger_exit":{int(kill_on_debugger_exit)},'
        start = f'{{{setting}"steps":['.encode()
        self._scenario = _File(self.path)
        self._lines: Optional[_File] = None
        try:
            self._lines = None if lines is None else _File(Path(lines))
            self._scenario.replace_end(start + _END, 0)
        except OSError as error:
            self.close()
            raise error if error.filename else OSError(error.errno, error.strerror, os.fspath(path)) from None
        self.steps, self._size, self._size_of_lines = 0, len(start), 0
        self._records = True

    def add(self, step: str, answer: str) -> None:
        """Adds a step and the line of its answer. A line that was refused isn't added. Raises RecordingFailed."""
        words = answer.split(" ", 3)
        if words[0] == "refused" or not self._records:
            return
        if words[2:] == ["error", "ENOMEM 12"]:
            self._warn("a step answered ENOMEM isn't recorded")
            return
        text = (b",\n" if self.steps else b"\n") + step.strip(" \t\r").encode()
        if self.steps == _MOST_STEPS or self._size + len(text) + len(_END) > _MOST_BYTES:
            self._records = False
            self._warn(f"the recording ends after {self.steps} steps, as no scenario may be longer")
            return
        try:
            self._put(text, answer.encode() + b"\n")
        except OSError as error:
            self.lose(error)

    def _warn(self, text: str) -> None:
        if self.tell is not None:
            self.tell(f"{self.path}: {text}")
        else:
            warnings.warn(f"{self.path}: {text}", RuntimeWarning, stacklevel=3)

    def lose(self, error: OSError) -> None:
        """Ends the recording: the files have the steps before."""
        self.close()
        if self.tell is None:
            raise RecordingFailed(f"{self.path}: step {self.steps + 1} can't be recorded: {error.strerror}") from error
        self.tell(f"{self.path}: not recorded from step {self.steps + 1} on: {error.strerror}")

    @property
    def number(self) -> int:
        """The descriptor of the scenario."""
        return self._scenario._number

    def close(self) -> None:
        """Closes the files. Closing again does nothing more."""
        self._records = False
        self._scenario.close()
        if self._lines is not None:
            self._lines.close()

    def in_child(self) -> None:
        """After fork(2): the files are the parent's."""
        self.close()

    def _put(self, step: bytes, line: bytes) -> None:
        """Writes the line, then the step over the end of the scenario. Raises OSError, and both are as before."""
        if self._lines is not None:
            self._lines.replace_end(line, self._size_of_lines)
        try:
            self._scenario.replace_end(step + _END, self._size, _END)
        except OSError:
            if self._lines is not None:
                self._lines.cut(self._size_of_lines)
            raise
        self.steps += 1
        self._size += len(step)
        self._size_of_lines += len(line)


class _File:
    """A file whose end is rewritten.

    A test may replace functions, close descriptors and open others: it is used by functions that are kept here, and only
    while its number still means this file.
    """

    _open, _close, _fstat = staticmethod(os.open), staticmethod(os.close), staticmethod(os.fstat)
    _pwrite, _ftruncate = staticmethod(os.pwrite), staticmethod(os.ftruncate)
    _getrlimit = staticmethod(resource.getrlimit)
    _number = -1

    def __init__(self, path: Path) -> None:
        self._number = self._open(path, os.O_WRONLY | os.O_CREAT | os.O_TRUNC, 0o666)
        status = self._fstat(self._number)
        self._identity = status.st_dev, status.st_ino

    def __del__(self) -> None:
        self.close()

    def replace_end(self, text: bytes, place: int, before: bytes = b"") -> None:
        """Writes the text from this place on. Raises OSError, and `before` is there again, up to the file's end.

        A text that is longer than the limit of a file's size isn't begun, since SIGXFSZ would end the process.
        """
        limit = self._getrlimit(resource.RLIMIT_FSIZE)[0]
        if limit != resource.RLIM_INFINITY and place + len(text) > limit:
            raise OSError(errno.EFBIG, os.strerror(errno.EFBIG))
        written = 0
        try:
            while written < len(text):
                written += self.write_at(place + written, text[written:])
        except OSError:
            if written:
                self.write_at(place, before)  # over bytes that the file has
                self.cut(place + len(before))
            raise

    def write_at(self, place: int, text: bytes) -> int:
        return self._pwrite(self._own_number(), text, place)

    def cut(self, size: int) -> None:
        self._ftruncate(self._own_number(), size)

    def close(self) -> None:
        with suppress(OSError):  # each write was told already
            self._close(self._own_number())
        self._number = -1

    def _own_number(self) -> int:
        """The descriptor. Raises OSError if somebody has closed it."""
        status = self._fstat(self._number)
        if (status.st_dev, status.st_ino) != self._identity:
            raise OSError(errno.EBADF, os.strerror(errno.EBADF))
        return self._number


def mend(scenario: str | os.PathLike[str], lines: Optional[str | os.PathLike[str]] = None) -> int:
    """Cuts a recording back to its whole steps, and its lines to those of these steps. Returns how many there are.

    For the files of a process that was killed while it wrote them. Raises OSError, and ValueError if the file
    doesn't begin as a recording does.
    """
    head, bracket, body = Path(scenario).read_bytes().partition(b'"steps":[')
    if not bracket:
        raise ValueError(f"{os.fspath(scenario)}: no recording")
    steps = list(_whole_steps(body))
    if lines is not None:
        whole = Path(lines).read_bytes().split(b"\n")[:-1]
        steps = steps[: len(whole)]
        Path(lines).write_bytes(b"".join(line + b"\n" for line in whole[: len(steps)]))
    text = head + bracket + b",".join(b"\n" + step for step in steps) + _END
    Path(scenario).write_bytes(text)
    return len(steps)


def _whole_steps(body: bytes) -> Iterator[bytes]:
    """The steps of a scenario that has each in a line of its own, up to the first that isn't whole."""
    for line in body.split(b"\n"):
        step = line[:-1] if line.endswith(b",") else line
        if not step:
            continue
        try:
            is_step = isinstance(json.loads(step), dict)
        except ValueError:
            return
        if not is_step:
            return
        yield step
