"""The programs of tests/in_process, which test the library: how they are compiled, and how much each does.

The library is that of $TRACEHOST_LIB_DIR, else the one built here, else the release's. $CALLS random typed calls are
compared with their lines, a million if it isn't set.
"""

from __future__ import annotations

import os
import platform
from pathlib import Path
from typing import NamedTuple

import pytest
from c_programs import HEADERS, SANITIZERS, VALGRIND, WARNINGS, compiled, output, works
from checking import TOP, run

SOURCES = TOP / "tests/in_process"
RELEASE = TOP / "release" / f"{platform.machine()}-linux"
OWN = [*HEADERS, "-I", str(SOURCES)]
TESTS = ["agree", "by_hand", "codes", "copies", "handles", "lines", "refusals", "replies", "rooms", "sessions", "threads", "views"]
WRAPPED = {"refusals": "-Wl,--wrap=malloc,--wrap=realloc,--wrap=free", "unwind": "-Wl,--wrap=malloc,--wrap=realloc"}
NEEDS_PRESENT = ("handles", "unwind")  # of a library that isn't older than its header


class Way(NamedTuple):
    """How the tests are compiled and started, and how much they do."""

    flags: list[str]
    before: list[str]
    calls: int
    runs: int
    refusals: int

    def words(self, name: str) -> list[int]:
        counts = {"agree": self.calls, "copies": self.runs, "sessions": self.runs, "threads": self.refusals}
        counts |= {"refusals": self.refusals, "handles": self.refusals // 2}
        return [counts[name]] if name in counts else []


WAYS = {
    "plain": Way(["-O2"], [], int(os.environ.get("CALLS", "1000000")), 200, 2000),
    "sanitizers": Way(["-O1", *SANITIZERS], [], 20000, 10, 500),
    "valgrind": Way(["-O2"], VALGRIND, 5000, 2, 100),
}


def is_present(library: Path) -> bool:
    """Whether the library isn't older than its header. A release's is if the header's calls have changed since."""
    data = (library / "libtracehost.so").read_bytes()
    return run(TOP / "tools/version").out.strip().encode() in data and b"tracehost_version" in data


def is_without_notes(library: Path) -> bool:
    """Whether it is the release's of 0.20.0, whose library has no build id and isn't ready for CET."""
    manifest = library / "MANIFEST"
    return manifest.exists() and '"version": "0.20.0"' in manifest.read_text(encoding="utf-8")


def have_build_ids(*folders: Path) -> dict[str, bool]:
    """The programs and shared objects in these folders: whether they have one, the library unless it is that of 0.20.0."""
    files = [path for folder in folders for path in folder.rglob("*") if path.is_file() and not path.is_symlink()]
    programs = [path for path in files if path.read_bytes().startswith(b"\x7fELF")]
    old = RELEASE / "libtracehost.so"
    content = old.read_bytes() if is_without_notes(RELEASE) else b""
    has = {path.name: "Build ID: " in output("readelf", "-n", path) for path in programs}
    return has | {path.name: not has[path.name] for path in programs if path.read_bytes() == content}


@pytest.fixture(scope="session")
def present(library: Path) -> Path:
    if not is_present(library):
        pytest.skip("the library is older than its header: tools/build_library.py builds it")
    return library


class Programs:
    """The tests as programs, each compiled once."""

    def __init__(self, room: Path, library: Path) -> None:
        self._room, self._library, self._made = room, library, dict[tuple[str, ...], Path]()

    def __call__(self, name: str, *flags: str) -> Path:
        if name in NEEDS_PRESENT and not is_present(self._library):
            pytest.skip("the library is older than its header")
        if not works(*flags):
            pytest.skip(f"cc has no {' '.join(flags)}")
        if (name, *flags) not in self._made:
            words = ["-std=c11", *WARNINGS, "-g", WRAPPED.get(name, "-pthread"), *OWN, *flags]
            made = self._room / f"{name}{len(self._made)}"
            self._made[name, *flags] = compiled(made, *words, SOURCES / f"{name}.c", self._library / "libtracehost.a")
        return self._made[name, *flags]


@pytest.fixture(scope="session")
def programs(library: Path, tmp_path_factory: pytest.TempPathFactory) -> Programs:
    return Programs(tmp_path_factory.mktemp("programs"), library)
