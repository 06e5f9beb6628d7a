"""Output that is written whole: standard output, the text of --help, and files. Each failure is an OSError."""

from __future__ import annotations

import argparse
import errno
import os
import shutil
import stat
import sys
from collections.abc import Sequence
from typing import IO, Any, Optional, TextIO, Union

# tools/format version
VERSION = "0.24.0"
# end


class _PrintVersion(argparse.Action):
    def __call__(
        self,
        parser: argparse.ArgumentParser,
        given: argparse.Namespace,
        values: Union[str, Sequence[Any], None],
        option: object = None,
    ) -> None:
        write(None, f"{parser.prog} {VERSION}\n".encode("ascii"))
        parser.exit()


class Parser(argparse.ArgumentParser):
    """A parser of a command line that raises OSError if the text of --help or --version can't be written."""

    def __init__(self, **words: Any) -> None:
        super().__init__(**words)
        self.add_argument("--version", action=_PrintVersion, nargs=0, help="print the version and exit")

    def print_help(self, file: Optional[IO[Any]] = None) -> None:
        if file is None:
            write(None, self.format_help().encode("utf-8"))
        else:
            super().print_help(file)


def opened(stream: Optional[TextIO], name: str) -> TextIO:
    """A standard stream. Raises OSError if the caller has closed it: Python then has none."""
    if stream is None:
        raise OSError(errno.EBADF, os.strerror(errno.EBADF), name)
    return stream


def write(path: Optional[str], data: bytes) -> None:
    """Writes standard output, or the file in one piece: what was there stays if it can't be written. Raises OSError."""
    if path is None:
        descriptor = opened(sys.stdout, "standard output").fileno()
        rest = memoryview(data)
        while rest:  # with no buffer, which Python would write again when it ends
            rest = rest[os.write(descriptor, rest) :]
        return
    target = os.path.realpath(path)
    if os.path.exists(target) and not stat.S_ISREG(os.stat(target).st_mode):  # such as /dev/stdout
        try:
            with open(path, "wb") as file:
                file.write(data)
        except OSError as fault:
            raise OSError(fault.errno, fault.strerror, path) from None
        return
    beside = f"{target}.{os.getpid()}.new"
    try:
        with open(beside, "xb") as file:
            file.write(data)
        if os.path.exists(target):
            shutil.copymode(target, beside)
        os.replace(beside, target)
    except OSError as fault:
        if not isinstance(fault, FileExistsError) and os.path.exists(beside):
            os.unlink(beside)
        raise OSError(fault.errno, fault.strerror, path) from None
