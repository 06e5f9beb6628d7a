"""The player of sessions, kernel/tracehost-play, as tests build and run it."""

from __future__ import annotations

import ctypes
import os
import re
import shutil
import subprocess
from collections.abc import Iterator, Sequence
from contextlib import contextmanager
from pathlib import Path

import pytest
from checking import TOP
from posix_kit import once, shared_folder

from kernel.sessions.playing import Result

KERNEL = TOP / "kernel"
EXAMPLE = KERNEL / "example.txt"
STRICT = "-O2 -g -Wall -Wextra -Werror"
HEADING = "name\tstep\tcondition\tmodel\tkernel\tthen\twhy\twhere\n"
COLUMNS = ("session", "verdict", "steps compared", "steps", "line", "step", "model", "kernel")

Done = subprocess.CompletedProcess[str]


def built(folder: Path, *words: str) -> Path:
    """The player, made in an empty folder."""
    folder.mkdir(parents=True, exist_ok=True)
    for path in [*KERNEL.glob("*.[ch]"), KERNEL / "Makefile", EXAMPLE]:
        shutil.copy(path, folder)
    done = subprocess.run(
        [*(words or ("make", f"CFLAGS={STRICT}")), "-C", folder] if "bmake" not in words else [*words],
        cwd=folder,
        capture_output=True,
        text=True,
        check=False,
    )
    assert done.returncode == 0, done.stderr
    return folder / "tracehost-play"


def shared_player(factory: pytest.TempPathFactory) -> Path:
    """The player that the workers of one run of pytest share."""
    folder = shared_folder(factory).parent / "player"
    return once(folder / "tracehost-play", lambda: built(folder))


def shared_refusals(factory: pytest.TempPathFactory) -> Path:
    """Runs a program under a kernel that refuses something."""
    made = shared_folder(factory).parent / "player" / "refusals"
    words = ["cc", *STRICT.split(), "-o", str(made), str(Path(__file__).with_name("kernel_refusals.c"))]
    return once(made, lambda: subprocess.run(words, check=True))


STRANGER = 64999
"""A user of the system without processes."""


def as_stranger() -> None:
    os.setgroups([])
    os.setresgid(STRANGER, STRANGER, STRANGER)
    os.setresuid(STRANGER, STRANGER, STRANGER)


def opened(program: Path) -> Path:
    """The program, after it and the folders above it were opened to all users."""
    for path in [program, *program.parents]:
        if path.owner() == "root" and path.stat().st_mode & 0o005 != 0o005 and path != Path("/"):
            path.chmod(path.stat().st_mode | 0o005)
    return program


def results_of(path: Path) -> list[Result]:
    heading, *lines = path.read_text().splitlines()
    assert tuple(heading.split("\t")) == COLUMNS
    rows = [line.split("\t") for line in lines if not line.startswith("difference\t")]
    return [Result(row[0], row[1], int(row[2]), int(row[3]), int(row[4]), row[5], row[6], row[7]) for row in rows]


def counts_of(path: Path) -> dict[str, tuple[int, int]]:
    """How often each listed difference was found, of how many times that it could have been."""
    rows = [line.split("\t") for line in path.read_text().splitlines() if line.startswith("difference\t")]
    return {name: (int(times), int(met)) for _, name, times, met in rows}


def sessions_in(text: str) -> list[list[str]]:
    return [block.splitlines() for block in re.split(r"\n\n+", text.strip())]


def text_of(sessions: Sequence[Sequence[str]]) -> str:
    return "\n\n".join("\n".join(session) for session in sessions) + "\n"


def steps_in(text: str) -> int:
    return sum(" -> " in line for line in text.splitlines())


@contextmanager
def orphans() -> Iterator[None]:
    """Processes whose parent ends become children of this one."""
    subreaper, prctl = 36, ctypes.CDLL(None).prctl
    assert prctl(subreaper, 1, 0, 0, 0) == 0
    try:
        yield
    finally:
        prctl(subreaper, 0, 0, 0, 0)


def descendants(pid: int, deep: bool = True) -> Iterator[int]:
    """The children of a process, and theirs, without zombies. Own zombies are collected."""
    try:
        tasks = os.listdir(f"/proc/{pid}/task")
    except OSError:  # it has ended meanwhile
        return
    for task in tasks:
        for child in map(int, _text(Path(f"/proc/{pid}/task/{task}/children")).split()):
            if state_of(child) == "Z":
                if pid == os.getpid():
                    os.waitpid(child, 0)
                continue
            yield child
            if deep:
                yield from descendants(child)


def state_of(pid: int) -> str:
    """As ps(1) has it; "" of none."""
    return _text(Path(f"/proc/{pid}/stat")).rpartition(") ")[2][:1]


def _text(file: Path) -> str:
    """What is in it; "" of a process that has ended."""
    try:
        return file.read_text()
    except OSError:
        return ""
