"""A program that can be run: one with the runtime."""

from __future__ import annotations

import os
from collections.abc import Iterable

MARKER = b"tracehost posix runtime, protocol 1"
GO = b"\xff Go buildinf:"
"""What the linker of Go leaves in a program."""
REFUSED = 125
"""The status of a program that has said on standard error why it can't be run."""


class NotRunnable(Exception):
    """The program can't be started; no text if the program has said why."""


def which(name: str, folders: Iterable[str] | None = None) -> str | None:
    """The file of a command, on the path or in these folders. (The module shutil takes a while to load.)"""
    paths = [name] if "/" in name else [f"{folder}/{name}" for folder in folders or os.get_exec_path()]
    return next((path for path in paths if os.access(path, os.X_OK) and not os.path.isdir(path)), None)


def check(path: str) -> str:
    """The program's path, if it is one with the runtime."""
    found = path if "/" in path else which(f"./{path}") or which(path) or path
    try:
        if os.path.exists(found) and not os.path.isfile(found) and not os.path.isdir(found):
            raise NotRunnable(f"{path}: it isn't a file")
        with open(found, "rb") as file:
            text = file.read()
    except OSError as why:
        raise NotRunnable(f"{path}: {why.strerror}") from why
    if not os.access(found, os.X_OK):
        raise NotRunnable(f"{path}: it isn't executable")
    if MARKER not in text:
        raise NotRunnable(f"{path}: it has no runtime: compile it with tracehost-cc")
    if GO in text:
        raise NotRunnable(f"{path}: it has Go's runtime, which makes threads and system calls past ours")
    return found


def output_of(*words: str) -> str:
    """What a command prints; nothing if it isn't there. (The module subprocess takes longer to load than addr2line runs.)"""
    printed, given = os.pipe()
    with os.fdopen(printed, errors="replace") as file:
        try:
            actions = [(os.POSIX_SPAWN_DUP2, given, 1), (os.POSIX_SPAWN_OPEN, 2, os.devnull, os.O_WRONLY, 0)]
            pid = os.posix_spawnp(words[0], words, os.environ, file_actions=actions)
        except OSError:
            return ""
        finally:
            os.close(given)
        text = file.read()
    os.waitpid(pid, 0)
    return text
