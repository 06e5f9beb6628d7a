"""A clone whose release is of other sources: every command says so in one line, and how to mend it. No proof begins: a
stand-in for rt notes each call.

    python3 -m pytest tests/python/test_stale_release.py
"""

from __future__ import annotations

import pathlib
import shutil
import sys

import pytest
from stranger import PATH, TOP, block, clone, needs, run

sys.path.insert(0, str(TOP / "tools"))
from crates import below  # noqa: E402

__all__ = ["clone"]  # a fixture
PROGRAM = (
    "tracehost: the program is not built here from the present sources, and the release was built from other sources;"
    " ./tracehost --prove proves and builds it, with the command rt of the Rattle kit\n"
)
LIBRARY = (
    "tracehost: the library is not built here from the present sources, and is not in the release;"
    " tools/build_library.py proves and builds it, with the command rt of the Rattle kit\n"
)
SOURCE = f"crates/{next(iter(below('tracehost')))}/src/lib.rt"
OURS = 3  # the status of the program and of tracehost-run for what isn't the user's mistake


class Stale:
    """The clone, a folder to work in, and what a reader has there."""

    def __init__(self, clone: pathlib.Path, room: pathlib.Path) -> None:
        self.clone, self.room = clone, room
        with (clone / SOURCE).open("a") as source:
            source.write("// changed\n")
        (room / "bin").mkdir()
        rt = room / "bin/rt"
        rt.write_text(f'#!/bin/sh\necho "$@" >>"{room}/proofs"\nsleep 600\n')
        rt.chmod(0o755)
        self.environment = {"PATH": f"{room}/bin:{PATH}", "PYTHONPATH": str(clone / "clients/python")}

    def run(self, code: str, status: int) -> str:
        """What a command of the shell prints, in the clone."""
        printed = run(["bash", "-c", code], self.clone, self.environment, status)
        assert not (self.room / "proofs").exists(), code
        return printed


@pytest.fixture(scope="module")
def stale(clone: pathlib.Path, tmp_path_factory: pytest.TempPathFactory) -> Stale:
    return Stale(clone, tmp_path_factory.mktemp("room"))


@pytest.mark.parametrize("words", ["examples/first.json", "--lines", "--version"])
def test_the_program(stale: Stale, words: str) -> None:
    assert stale.run(f"./tracehost {words}", OURS) == PROGRAM


@pytest.mark.parametrize("tool, said", [("program", PROGRAM), ("library", LIBRARY)], ids=["program", "library"])
def test_the_tools(stale: Stale, tool: str, said: str) -> None:
    assert stale.run(f"tools/{tool}", 1) == said


@pytest.mark.parametrize("command", ["make", "make install PREFIX=out/prefix", "tools/deb out"])
def test_installing(stale: Stale, command: str) -> None:
    said = stale.run(command, 2)
    assert said.startswith(PROGRAM) and said.count("\n") == 2 and "make: *** " in said
    assert not (stale.clone / "out/prefix").exists()


@needs("cc", "make", "python3")
def test_c_for_freebsd(stale: Stale) -> None:
    """The broker isn't linked with the release's library."""
    said = stale.run(f"clients/posix/tracehost-cc -o '{stale.room}/traced' clients/posix/examples/traced.c", 1)
    begun, _, said = said.partition("\n")
    assert begun.startswith("tracehost-cc: building the runtime and the broker in ")
    assert said.startswith(LIBRARY)
    assert not (stale.clone / "clients/posix/build/tracehost-broker").exists()


@needs("python3")
def test_python(stale: Stale) -> None:
    said = stale.run("python3 -c 'import tracehost; tracehost.Host()'", 1)
    assert said.endswith(f"FileNotFoundError: {LIBRARY}")
    said = stale.run("python3 -c 'import tracehost; tracehost.view(\"examples/first.json\")'", 1)
    assert said.endswith(f"FileNotFoundError: {PROGRAM}")
    assert stale.run("echo spawn | python3 -m tracehost.debug", 1) == f"tracehost-debug: {LIBRARY}"


@needs("cc")
@pytest.mark.skipif(shutil.which("cargo") is None, reason="not installed: cargo")
def test_rust(stale: Stale) -> None:
    build = f"CARGO_TARGET_DIR='{stale.room}/target' '{shutil.which('cargo')}' build --offline --quiet"
    said = stale.run(f"export HOME='{pathlib.Path.home()}' && cd clients/rust && {build}", 101)
    assert LIBRARY.strip() in said


@needs("meson", "ninja", "cc")
def test_meson(stale: Stale, tmp_path: pathlib.Path) -> None:
    (tmp_path / "subprojects").mkdir()
    (tmp_path / "subprojects/tracehost").symlink_to(stale.clone)
    (tmp_path / "subprojects/tracehost.wrap").write_text(block("INSTALL.md", "ini"))
    (tmp_path / "meson.build").write_text("project('prog', 'c')\ndependency('tracehost', allow_fallback: true)\n")
    assert LIBRARY in stale.run(f"meson setup '{tmp_path}/out' '{tmp_path}'", 1)


def test_a_library_that_is_damaged(stale: Stale) -> None:
    """As one of other sources."""
    assert stale.run("git -C . status >/dev/null 2>&1; tools/library", 1) == LIBRARY
    changed = stale.clone / SOURCE
    changed.write_bytes((TOP / SOURCE).read_bytes())
    folder = stale.run("tools/library", 0).strip()
    with (pathlib.Path(folder) / "libtracehost.a").open("ab") as archive:
        archive.write(b"x")
    assert stale.run("tools/library", 1) == LIBRARY
