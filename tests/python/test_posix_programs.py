"""Small programs that make awkward calls: each has to do under `tracehost-run` what it does natively.

A program's first comment has what it prints (`|` is a line's end), how many schedules it passes besides the plain one
(`schedules`; 0 if its outcome depends on the order of sleeps), the compiler's `flags` (`|` is between those of two
variants), and `natively: no` if it can't run on this host: it is FreeBSD's, or takes minutes there. All others are
compiled by the plain compiler too, and have to print the same.
"""

from __future__ import annotations

import pathlib
import re
import shutil
import subprocess
import sys
from collections.abc import Iterator

import pytest
from posix_kit import POSIX, RUN, Posix

PROGRAMS = sorted((POSIX / "tests" / "programs").glob("*.c*"))
FLAGS = ["-g", "-w", "-pthread"]


def header(program: pathlib.Path) -> dict[str, str]:
    """The lines `NAME: TEXT` of the program's first comment."""
    comment = program.read_text().partition("*/")[0]
    return dict(re.findall(r"^ \* ([a-z]+): (.*?) *$", comment, re.MULTILINE))


def variants(program: pathlib.Path) -> list[list[str]]:
    """The compiler's flags of each of its variants."""
    return [flags.split() for flags in header(program).get("flags", "").split("|")]


ALL = [pytest.param(program, flags, id=" ".join([program.stem, *flags])) for program in PROGRAMS for flags in variants(program)]


def compilers(program: pathlib.Path) -> list[str]:
    names = ["cc", "clang"] if program.suffix == ".c" else ["g++", "clang++"]
    return [name for name in names if shutil.which(name)]


@pytest.fixture(autouse=True)
def temporary(tmp_path: pathlib.Path, monkeypatch: pytest.MonkeyPatch) -> Iterator[None]:
    """A program leaves no file."""
    folder = tmp_path / "temporary"
    folder.mkdir()
    monkeypatch.setenv("TMPDIR", str(folder))
    yield
    assert not list(folder.iterdir())


def run(words: list[object]) -> subprocess.CompletedProcess[str]:
    return subprocess.run([str(word) for word in words], capture_output=True, text=True, timeout=200)


@pytest.mark.parametrize("source, flags", ALL)
def test_natively(source: pathlib.Path, flags: list[str], tmp_path: pathlib.Path) -> None:
    wanted = header(source)
    if wanted.get("natively") == "no":
        pytest.skip("it can't run natively here")
    assert run([compilers(source)[0], *FLAGS, *flags, "-o", tmp_path / "native", source]).returncode == 0
    done = run([tmp_path / "native"])
    assert (done.stdout, done.returncode) == (_lines(wanted), 0), done.stderr


@pytest.mark.parametrize("source, flags", ALL)
def test_on_the_model(posix: Posix, source: pathlib.Path, flags: list[str]) -> None:
    wanted = header(source)
    for compiler in compilers(source):
        built = posix.compiled(str(source.relative_to(POSIX)), *flags, compiler=compiler)
        done = run([sys.executable, RUN, "--no-record", built])
        if "the host makes no hardware breakpoint" in done.stderr:
            pytest.skip("the host makes no hardware breakpoint")
        assert (done.stdout, done.returncode) == (_lines(wanted), 0), done.stderr
    schedules = wanted.get("schedules", "0")
    if schedules != "0":
        done = run([sys.executable, RUN, "--no-record", "--verify", "--schedules", schedules, built])
        assert done.returncode == 0, done.stderr


def _lines(wanted: dict[str, str]) -> str:
    return "".join(f"{line}\n" for line in wanted["prints"].split("|")) if "prints" in wanted else ""


def test_a_seed_decides_what_a_shells_process_does(posix: Posix) -> None:
    built = posix.compiled("tests/programs/traced_shell_forks.c", *FLAGS, compiler="cc")
    runs = [run([sys.executable, RUN, "--no-record", "--schedules", "10", "--digest", built]) for _ in range(2)]
    assert [done.returncode for done in runs] == [0, 0], runs[0].stderr
    assert len(runs[0].stdout.splitlines()) == 11 and runs[0].stdout == runs[1].stdout
