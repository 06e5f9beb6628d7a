"""The clients' examples and the code of docs/CLIENTS.md print what is written next to them; a test suite in C."""

from __future__ import annotations

import re
import sys
from pathlib import Path

import pytest
from c_programs import HEADERS, WARNINGS, compiled, output, reads, sanitized
from checking import TOP, needs, run
from stranger import block
from client_programs import CLIENT, FLAGS, SOURCE, Programs, programs

__all__ = ["programs"]  # a fixture
PAGE = (TOP / "docs/CLIENTS.md").read_text(encoding="utf-8")
STOPPED = "1001 stopped: word 4479\n"


def environment(library: Path) -> dict[str, str]:
    return {"TRACEHOST_LIBRARY": str(library / "libtracehost.so"), "PYTHONPATH": str(TOP / "clients/python")}


@pytest.mark.parametrize("example", ["debugger", "crash_collector"])
def test_an_example_in_python(library: Path, example: str) -> None:
    script = TOP / f"clients/python/examples/{example}.py"
    printed = output(sys.executable, script, environment=environment(library))
    assert printed == (TOP / f"clients/{example}.out").read_text()


@needs("cc")
@pytest.mark.parametrize("example", ["debugger", "crash_collector"])
def test_an_example_in_c(programs: Programs, example: str) -> None:
    assert output(programs["plain", example]) == (TOP / f"clients/{example}.out").read_text()


# ---- a test suite in C


@needs("cc")
def test_a_suite_that_passes(programs: Programs, program: Path, tmp_path: Path) -> None:
    """It has ten tests, and leaves nothing."""
    environment = {"TRACEHOST": str(program), "TRACEHOST_VIEW": "viewer/make"}
    printed = output(programs["plain", "test_suite"], tmp_path, environment=environment)
    assert len(re.findall("^ok ", printed, re.MULTILINE)) == 10
    assert [*tmp_path.iterdir()] == []


@needs("cc")
def test_a_suite_with_a_fault(programs: Programs, program: Path, tmp_path: Path) -> None:
    """A fault of the debugger fails one test, which leaves its session to replay and to see."""
    planted = {"TRACEHOST": str(program), "TRACEHOST_VIEW": "viewer/make", "PLANT": "coalesce"}
    printed = output(programs["plain", "test_suite"], tmp_path, environment=planted, status=1)
    assert re.findall("^FAILED.*$", printed, re.MULTILINE) == ["FAILED signal_twice"]
    (left,) = tmp_path.glob("*.signal_twice-*.json")
    assert run(program, left, "--expect", left.with_suffix(".out")).status == 0
    assert "</html>" in left.with_suffix(".html").read_text()


# ---- the code of docs/CLIENTS.md


def test_the_page_in_python(library: Path, tmp_path: Path) -> None:
    (tmp_path / "page.py").write_text(block("CLIENTS.md", "python"))
    printed = output(sys.executable, tmp_path / "page.py", environment=environment(library))
    wanted = re.findall(r"^    (Waited\(.*|None .*|SIGSEGV)\n", PAGE, re.MULTILINE)
    assert wanted and printed.splitlines() == wanted


@needs("cc")
def test_the_page_in_c(library: Path, tmp_path: Path) -> None:
    (tmp_path / "page.c").write_text(block("CLIENTS.md", "c"))
    sources = [tmp_path / "page.c", SOURCE, library / "libtracehost.a"]
    ran = run(compiled(tmp_path / "page", *FLAGS, *sanitized(), "-I", CLIENT, *sources))
    assert (ran.status, {*(ran.out + ran.err).splitlines()}) == (0, {"1001 stopped: SIGSTOP", "99: No such process"})
    assert len((ran.out + ran.err).splitlines()) == 2


@needs("c++")
def test_the_page_in_c_is_cpp_too(tmp_path: Path) -> None:
    (tmp_path / "page.c").write_text(block("CLIENTS.md", "c"))
    reads("-std=c++11", *WARNINGS, "-I", CLIENT, "-x", "c++", tmp_path / "page.c", compiler="c++")


@needs("cc")
def test_the_librarys_page_in_c(library: Path, tmp_path: Path) -> None:
    (tmp_path / "page.c").write_text(block("CLIENTS.md", "c", 1))
    made = compiled(tmp_path / "page", "-std=c99", *WARNINGS, *HEADERS, tmp_path / "page.c", library / "libtracehost.a")
    assert output(made) == STOPPED


@needs("c++")
def test_the_librarys_page_in_cpp(library: Path, tmp_path: Path) -> None:
    (tmp_path / "page.cpp").write_text(block("CLIENTS.md", "cpp"))
    flags, archive = ["-std=c++11", *WARNINGS, *HEADERS], library / "libtracehost.a"
    made = compiled(tmp_path / "page", *flags, tmp_path / "page.cpp", archive, compiler="c++")
    assert output(made) == "4479\n"
