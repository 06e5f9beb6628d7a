"""The clients in C and C++.

Their tests are compiled with the compiler's sanitizers, for its search for races, and for valgrind. clients/python/tests and clients/c/tests have the modules of pytest.
"""

from __future__ import annotations

from pathlib import Path

import pytest
from c_programs import HEADERS, STRICT, WARNINGS, compiled, output, reads, sanitized
from checking import TOP, needs
from client_programs import CLIENT, FLAGS, PROGRAMS, SOURCE, WAYS, Programs, programs

__all__ = ["programs"]  # a fixture
CPP = ["11", "14", "17", "20"]
CPP_HEADERS = ["include/tracehost.h", "include/tracehost.hpp", "clients/c/tracehost_client.h"]
CPP_HEADERS += ["include/tracehost_explain.hpp", "include/tracehost_record.hpp"]

pytestmark = needs("cc")
needs_cpp = needs("c++")


@pytest.mark.parametrize(("way", "name"), PROGRAMS)
def test_it_compiles_without_a_warning(programs: Programs, way: str, name: str) -> None:
    assert programs[way, name].exists()


@pytest.mark.parametrize("source", sorted(path.stem for path in CLIENT.glob("*.c")))
def test_each_source_in_c99(source: str, tmp_path: Path) -> None:
    """Without a warning of conversions, too."""
    compiled(tmp_path / "c99.o", "-std=c99", *STRICT, *HEADERS, "-c", CLIENT / f"{source}.c")


def test_the_sanitizers_are_there() -> None:
    if not sanitized():
        pytest.skip("cc has no sanitizers, so the client in C runs without them")


@pytest.mark.parametrize("name", ["test", "threads", "explain"])
@pytest.mark.parametrize("way", WAYS)
def test_the_client_in_c(programs: Programs, program: Path, tmp_path: Path, way: str, name: str) -> None:
    how = WAYS[way]
    words: dict[str, list[Path]] = {"test": [program, tmp_path], "threads": [tmp_path], "explain": []}
    output(*how.before, programs[way, name], *words[name], *how.words[name])


def test_the_program_has_the_lines_of_random_calls(library: Path, program: Path, tmp_path: Path) -> None:
    """45,000 calls with odd numbers among them."""
    source, archive = CLIENT / "tests/random_calls.c", library / "libtracehost.a"
    made = compiled(tmp_path / "random_calls", *FLAGS, *sanitized(), source, SOURCE, archive)
    assert int(output(made, tmp_path, "0", "300")) > 10000
    records = sorted(tmp_path.glob("*.json"))
    assert len(records) == 300
    for record in records:
        assert output(program, record) == record.with_suffix(".out").read_text()


def test_a_library_that_runs_out_of_memory(tmp_path: Path) -> None:
    made = compiled(tmp_path / "codes", *FLAGS, *sanitized(), CLIENT / "tests/in_process/codes.c", SOURCE)
    output(made)


# ---- C++: the library's header, and tracehost.hpp


def test_the_librarys_header_in_c99() -> None:
    reads("-std=c99", *WARNINGS, TOP / "include/tracehost.h")


@needs_cpp
@pytest.mark.parametrize("header", CPP_HEADERS)
@pytest.mark.parametrize("standard", CPP)
def test_a_header_in_cpp(standard: str, header: str) -> None:
    reads(f"-std=c++{standard}", *STRICT, "-x", "c++", TOP / header, compiler="c++")


@needs_cpp
@pytest.mark.parametrize("standard", CPP[2:])
def test_the_header_of_tests_in_cpp(standard: str) -> None:
    reads(f"-std=c++{standard}", *STRICT, "-x", "c++", TOP / "include/tracehost_test.hpp", compiler="c++")


@needs_cpp
@pytest.mark.parametrize("standard", CPP)
def test_cpp(library: Path, tmp_path: Path, standard: str) -> None:
    """The tests of tracehost.hpp."""
    flags = [f"-std=c++{standard}", *FLAGS[1:], *sanitized(), *HEADERS]
    source = TOP / "clients/cpp/tests/session.cpp"
    output(compiled(tmp_path / "session", *flags, source, library / "libtracehost.a", compiler="c++"))


@needs("clang++")
@pytest.mark.parametrize("standard", CPP)
def test_cpp_by_clang(standard: str) -> None:
    """It warns of signs too."""
    reads(f"-std=c++{standard}", *STRICT, *HEADERS, TOP / "clients/cpp/tests/session.cpp", compiler="clang++")
