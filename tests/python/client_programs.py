"""Programs of the client in C, compiled for the compiler's searches and valgrind."""

from __future__ import annotations

import shutil
import sys
from pathlib import Path
from typing import NamedTuple

import pytest
from c_programs import HEADERS, RACES, VALGRIND, WARNINGS, compiled, output, sanitized, works
from checking import TOP
from row_files import Located, plain_files

CLIENT = TOP / "clients/c"
SOURCE = CLIENT / "tracehost_client.c"
FLAGS = ["-std=c11", *WARNINGS, "-g", "-pthread", *HEADERS]


class Way(NamedTuple):
    """A way to compile and run the client's tests: flags, a command before each, and how often each is repeated."""

    flags: list[str]
    before: list[str]
    words: dict[str, list[str]]


WAYS = {
    "plain": Way([*FLAGS, *sanitized()], [], {"test": ["1"], "threads": ["100"], "explain": []}),
    "races": Way([*FLAGS, *RACES], [], {"test": ["10"], "threads": ["10"], "explain": []}),
    "valgrind": Way([*FLAGS, "-O1"], VALGRIND, {"test": ["100"], "threads": ["10"], "explain": []}),
}
FILES = plain_files()
# the examples of the client; others use the library
EXAMPLES = sorted(path.stem for path in (CLIENT / "examples").glob("*.c") if "tracehost_client.h" in path.read_text())
# each program of each way
PROGRAMS = [(way, name) for way, how in WAYS.items() for name in how.words]
PROGRAMS += [("plain", name) for name in ("replay", *EXAMPLES)]


class Programs:
    """Programs of the client, each compiled once."""

    def __init__(self, room: Path, archive: Path) -> None:
        self._room, self._archive, self._made = room, archive, dict[tuple[str, str], Path]()

    def __getitem__(self, which: tuple[str, str]) -> Path:
        if which not in self._made:
            way, name = which
            if way == "races" and not works(*RACES):
                pytest.skip("cc has no -fsanitize=thread")
            if way == "valgrind" and shutil.which("valgrind") is None:
                pytest.skip("not installed: valgrind")
            self._made[which] = self._compiled(WAYS[way], name)
        return self._made[which]

    def _compiled(self, way: Way, name: str) -> Path:
        folder = CLIENT / ("examples" if name in EXAMPLES else "tests")
        made = self._room / f"{name}{len(self._made)}"
        return compiled(made, *way.flags, "-I", CLIENT, folder / f"{name}.c", SOURCE, self._archive)


@pytest.fixture(scope="session")
def programs(library: Path, tmp_path_factory: pytest.TempPathFactory) -> Programs:
    return Programs(tmp_path_factory.mktemp("programs"), library / "libtracehost.a")


@pytest.fixture(scope="session")
def words(located: Located, tmp_path_factory: pytest.TempPathFactory) -> Path:
    """A folder with the steps of all scenarios as clients/c/tests/replay.c reads them."""
    folder = tmp_path_factory.mktemp("words")
    output(sys.executable, TOP / "clients/c/tests/words.py", folder, *map(located, FILES))
    return folder
