"""The library in the caller's process, include/tracehost.h, by the programs of tests/in_process: codes, rooms, views, copies,
handles that aren't open, sessions next to each other and in threads, each allocation refused in turn. They run as they
are, with the compiler's sanitizers, and in valgrind. Also the header in C and C++, and the names that the library has.
"""

from __future__ import annotations

import os
import re
import shutil
from pathlib import Path

import pytest
from c_programs import WARNINGS, compiled, output, reads
from checking import TOP, needs
from library_programs import OWN, SOURCES, TESTS, WAYS, Programs, is_without_notes, present, programs

__all__ = ["present", "programs"]  # fixtures
HEADER = '#include "tracehost.h"\ntracehost h = TRACEHOST_CLOSED;\n'
OF_C = {"memcpy", "memmove", "memset", "memcmp", "bcmp", "malloc", "realloc", "free"}

pytestmark = needs("cc")


# ---- the header, and the names: those of the header, and what the library takes of the C library


@pytest.mark.parametrize("standard", ["c99", "c11", "c17"])
def test_the_header_in_c(tmp_path: Path, standard: str) -> None:
    (tmp_path / "header.c").write_text(HEADER)
    reads(f"-std={standard}", *WARNINGS, *OWN, tmp_path / "header.c")


@needs("c++")
@pytest.mark.parametrize("standard", ["c++11", "c++17"])
def test_the_header_in_cpp(tmp_path: Path, standard: str) -> None:
    (tmp_path / "header.c").write_text(HEADER)
    reads(f"-std={standard}", *WARNINGS, *OWN, "-x", "c++", tmp_path / "header.c", compiler="c++")


def functions() -> set[str]:
    text = (TOP / "include/tracehost.h").read_text(encoding="utf-8")
    return set(re.findall(r"^(?:uint32_t |const char \*)(tracehost_[a-z0-9_]+)\(", text, re.MULTILINE))


def names(*words: str | Path) -> set[str]:
    """The names that nm prints, without the letter and the version of each."""
    lines = [line.split() for line in output("nm", *words).splitlines()]
    return {line[-1].split("@")[0] for line in lines if len(line) > 1}


@needs("nm")
@pytest.mark.parametrize(("name", "words"), [("libtracehost.a", ["--extern-only"]), ("libtracehost.so", ["-D"])])
def test_the_names_that_it_defines(present: Path, name: str, words: list[str]) -> None:
    assert functions()
    assert names("--defined-only", *words, present / name) == functions()


@needs("nm")
@pytest.mark.parametrize(("name", "words"), [("libtracehost.a", []), ("libtracehost.so", ["-D"])])
def test_the_names_that_it_needs(present: Path, name: str, words: list[str]) -> None:
    assert names("--undefined-only", *words, present / name) <= OF_C


@needs("objdump")
def test_its_soname(library: Path) -> None:
    assert re.search("SONAME *libtracehost.so.1$", output("objdump", "-p", library / "libtracehost.so"), re.MULTILINE)


@needs("readelf")
def test_its_notes(library: Path) -> None:
    """A debugger finds files for it by its build id, and a program linked with it may be ready for CET."""
    shared, archive = (output("readelf", "-n", library / f"libtracehost.{ending}") for ending in ("so", "a"))
    has = [bool(re.search("Build ID: [0-9a-f]{40}$", shared, re.MULTILINE)), "IBT, SHSTK" in shared, "IBT, SHSTK" in archive]
    assert has == [not is_without_notes(library)] * len(has)


@pytest.mark.parametrize("name", ["libtracehost.so", "libtracehost.a"])
def test_no_path_of_this_machine_is_in_it(library: Path, name: str) -> None:
    assert os.fsencode(TOP) not in (library / name).read_bytes()


# ---- the programs


@pytest.mark.parametrize("name", [*TESTS, "unwind"])
@pytest.mark.parametrize("way", ["plain", "sanitizers"])
def test_it_compiles_without_a_warning(programs: Programs, way: str, name: str) -> None:
    assert programs(name, *WAYS[way].flags).exists()


@pytest.mark.parametrize("name", [name for name in TESTS if name != "lines"])
@pytest.mark.parametrize("way", WAYS)
def test_program(programs: Programs, way: str, name: str) -> None:
    how = WAYS[way]
    if how.before and shutil.which(how.before[0]) is None:
        pytest.skip(f"not installed: {how.before[0]}")
    output(*how.before, programs(name, *how.flags), *how.words(name))


def test_an_unwinder_finds_main(programs: Programs) -> None:
    output(programs("unwind", *WAYS["plain"].flags))


@needs("valgrind")
def test_threads_have_no_race(programs: Programs) -> None:
    output("valgrind", "-q", "--tool=helgrind", "--error-exitcode=1", programs("threads", *WAYS["plain"].flags), 100)


def test_the_shared_object(library: Path, tmp_path: Path) -> None:
    made = compiled(tmp_path / "shared", "-std=c11", *OWN, SOURCES / "agree.c", library / "libtracehost.so")
    (tmp_path / "libtracehost.so.1").symlink_to(library / "libtracehost.so")
    output(made, 20000, environment={"LD_LIBRARY_PATH": str(tmp_path)})
