"""Which program ./tracehost runs: one that was built here from the present sources, else that of a release of the same
sources, else none. Which library tools/library finds, in the same order. The programs and libraries of this test are shell
scripts and texts in a copy of the repository.
"""

from __future__ import annotations

import hashlib
import os
import platform
import shutil
import subprocess
import sys
from fnmatch import fnmatchcase
from pathlib import Path

import pytest

from checking import TOP, needs

sys.path.insert(0, str(TOP / "tools"))
import manifest  # noqa: E402
from crates import below  # noqa: E402

RELEASE = f"release/{platform.machine()}-linux"
BUILT, LIBRARY = "crates/tracehost/out", "crates/tracehost_c/out"
# what the scripts call: rt isn't among it
COMMANDS = "bash cat cut dirname find grep head ls mkdir mv paste readlink rm sed sha256sum sort stat touch tr uname xargs"
WORDS = "some.json --user 1001"
NOT_BUILT = "tracehost: the program is not built here "
NO_LIBRARY = "tracehost: the library is not built here *"
RELEASED, HERE = f"released {WORDS}\n", f"built {WORDS}\n"
# a crate that the program uses
CRATE = "crates/" + next(iter(below("tracehost")))
LIB = f"{CRATE}/src/lib.rt"
pytestmark = needs("git")


def digest_of(path: Path) -> str:
    return hashlib.sha256(path.read_bytes()).hexdigest()


class Copy:
    """A copy of what the program is built from, in which nothing is built."""

    def __init__(self, room: Path) -> None:
        self.top, self.commands = room / "copy", room / "bin"
        self.commands.mkdir()
        for name in COMMANDS.split():
            (self.commands / name).symlink_to(shutil.which(name) or "/missing")
        copied = ["tracehost", "tools", "crates", "crates.txt", "library", "include", ".gitignore", ":!crates/*/must-fail*"]
        for name in filter(None, self.git(TOP, "ls-files", "-z", "--", *copied).split("\0")):
            (self.top / name).parent.mkdir(parents=True, exist_ok=True)
            shutil.copy2(TOP / name, self.top / name)
        self.git(self.top, "init", "-q")
        self.git(self.top, "add", "-A")
        self.git(self.top, "-c", "user.name=test", "-c", "user.email=test@test", "commit", "-qm", "copy")

    @staticmethod
    def git(folder: Path, *words: str) -> str:
        return subprocess.run(["git", *words], cwd=folder, stdout=subprocess.PIPE, text=True, check=True).stdout

    def run(self, *words: str | Path, cwd: Path | None = None) -> str:
        """What a command prints without rt."""
        environment = {**os.environ, "PATH": str(self.commands)}
        ran = subprocess.run(
            words, cwd=cwd or self.top, env=environment, stdin=subprocess.DEVNULL, stdout=subprocess.PIPE, stderr=subprocess.STDOUT, text=True,
            check=False,
        )  # fmt: skip
        return ran.stdout

    def prints(self, wanted: str, *words: str | Path) -> None:
        """./tracehost, or another command, prints what the pattern says."""
        got = self.run(*(words or ("./tracehost", *WORDS.split())))
        assert fnmatchcase(got, wanted), got

    def digest(self, *crate: str) -> str:
        return self.run("tools/sources", *crate).strip()

    def note(self, tool: str, digest: str) -> None:
        assert self.run(f"tools/{tool}", "--built", digest) == ""

    def make(self, folder: str, word: str) -> Path:
        """A program that prints a word and its arguments."""
        program = self.top / folder / "tracehost"
        program.parent.mkdir(parents=True, exist_ok=True)
        program.write_text(f'#!/bin/sh\necho "{word} $*"\n')
        program.chmod(0o755)
        return program

    def manifest(self, **sources: str) -> None:
        """Of the files that are there, and of these sources."""
        facts = {"version": "1.0", "kit": "a kit", "needs": "nothing", "library-needs": "nothing", "library-sources": "0" * 64}
        facts |= {"sources": "0" * 64, **{name.replace("_", "-"): digest for name, digest in sources.items()}}
        paths = {name: self.top / RELEASE / name for name in manifest.NEEDS}
        digests = {name: digest_of(path) if path.exists() else "0" * 64 for name, path in paths.items()}
        (self.top / RELEASE / "MANIFEST").write_text(f"{manifest.text_of(manifest.statement(facts, digests))}\n")

    def release(self, word: str = "released") -> None:
        self.make(RELEASE, word)
        self.manifest(sources=self.digest())

    def make_library(self, folder: str, word: str) -> None:
        (self.top / folder).mkdir(parents=True, exist_ok=True)
        (self.top / folder / "libtracehost.a").write_text(f"the archive {word}\n")
        (self.top / folder / "libtracehost.so").write_text(f"the shared object {word}\n")

    def release_library(self) -> None:
        self.make_library(RELEASE, "released")
        self.manifest(library_sources=self.digest("tracehost_c"))

    def append(self, path: str, text: str = "// changed\n") -> None:
        (self.top / path).parent.mkdir(parents=True, exist_ok=True)
        with open(self.top / path, "a") as file:
            file.write(text)


@pytest.fixture(scope="module")
def whole(tmp_path_factory: pytest.TempPathFactory) -> Copy:
    return Copy(tmp_path_factory.mktemp("whole"))


@pytest.fixture
def copy(whole: Copy) -> Copy:
    """The copy without what an earlier test built, released or changed."""
    whole.git(whole.top, "reset", "-q", "--hard")
    whole.git(whole.top, "clean", "-qfdx")
    return whole


@pytest.fixture
def released(copy: Copy) -> Copy:
    """The copy with a release of its sources, which was run before."""
    copy.release()
    copy.prints(RELEASED)
    return copy


def test_neither_built_nor_released(copy: Copy) -> None:
    copy.prints(f"{NOT_BUILT}*no release*./tracehost --prove proves and builds it*")


def test_a_release_of_these_sources(released: Copy, tmp_path: Path) -> None:
    released.prints(RELEASED)
    assert released.git(released.top, "status", "--porcelain", "--", ".", ":!release") == "", "a run leaves files"
    assert released.run(released.top / "tracehost", "x", cwd=tmp_path) == "released x\n"
    (tmp_path / "link").symlink_to(released.top / "tracehost")
    assert released.run(tmp_path / "link", "x", cwd=tmp_path) == "released x\n"
    released.prints("released x\n", "bash", "tracehost", "x")


def test_files_of_editors_are_no_sources(released: Copy) -> None:
    for name in (".lib.rt.swp", "lib.rt~", "#lib.rt#"):
        (released.top / f"{CRATE}/src" / name).touch()
    released.prints(RELEASED)


def test_a_source_with_a_new_time_and_the_old_text(released: Copy) -> None:
    (released.top / LIB).touch()
    released.prints(RELEASED)


def test_a_changed_source_with_an_old_time(released: Copy) -> None:
    text = (released.top / LIB).read_text()
    released.append(LIB)
    os.utime(released.top / LIB, (1577836800, 1577836800))
    released.prints(f"{NOT_BUILT}*other sources*")
    (released.top / LIB).write_text(text)
    released.prints(RELEASED)


@pytest.mark.parametrize("path", [f"{CRATE}/specs/More.antt", f"{CRATE}/proofs/more/More.antt"])
def test_more_sources(released: Copy, path: str) -> None:
    released.append(path, "# more\n")
    released.prints(f"{NOT_BUILT}*other sources*")
    (released.top / path).unlink()
    released.prints(RELEASED)


def test_the_line_of_a_crate(released: Copy) -> None:
    """Lines of crates that the program doesn't use, and comments, are no sources of it."""
    lines = released.top / "crates.txt"
    text = lines.read_text()
    released.append("crates.txt", "# more\nunused: tracehost\n")
    released.prints(RELEASED)
    lines.write_text(text.replace("\ntracehost: ", "\ntracehost: more "))
    released.prints(f"{NOT_BUILT}*other sources*")
    lines.write_text(text)
    released.prints(RELEASED)


def test_a_changed_proof(released: Copy) -> None:
    """None changes the program, so a start doesn't look for it. tools/program does, and then a start says so."""
    proof = f"{CRATE}/proofs/Lib.antt"
    released.append(proof, "-- more\n")
    released.prints(RELEASED)
    released.prints(f"{NOT_BUILT}*other sources*", "tools/program")
    released.prints(f"{NOT_BUILT}*other sources*")


def test_a_start_takes_some_hundred_system_calls(released: Copy) -> None:
    """A look at each file that the program is built from, and little more."""
    if (strace := shutil.which("strace")) is None:
        pytest.skip("not installed: strace")
    counts = released.top / "counts"
    assert released.run(strace, "-f", "-c", "-o", counts, "./tracehost", "x") == "released x\n"
    calls = int(counts.read_text().splitlines()[-1].split()[3])
    looked_at = len((released.top / "out/chosen").read_text().splitlines())
    assert looked_at < calls < looked_at + 500


def test_a_source_less(released: Copy, tmp_path: Path) -> None:
    source = released.top / f"{CRATE}/specs/Lib.antt"
    shutil.move(source, tmp_path / "Lib.antt")
    released.prints(f"{NOT_BUILT}*other sources*")
    shutil.move(tmp_path / "Lib.antt", source)
    released.prints(RELEASED)


def test_a_program_built_here(released: Copy) -> None:
    sources, program = released.digest(), released.make(BUILT, "built")
    released.prints(RELEASED)  # of unknown sources
    released.note("program", sources)
    released.prints(HERE)
    released.prints(HERE)
    released.make(BUILT, "replaced")
    released.prints(RELEASED)
    program.unlink()
    released.prints(RELEASED)


def test_sources_that_changed_while_a_program_was_built(released: Copy) -> None:
    released.make(BUILT, "built")
    released.note("program", "the digest of other sources")
    released.prints(RELEASED)


def test_a_note_of_a_program_that_is_not_there(released: Copy) -> None:
    (released.top / BUILT).mkdir(parents=True)
    released.note("program", released.digest())
    released.prints(RELEASED)


def test_a_damaged_release(released: Copy) -> None:
    released.make(RELEASE, "damaged")
    released.prints(f"{NOT_BUILT}*damaged*")


def test_a_release_for_another_machine(copy: Copy) -> None:
    program = copy.make(RELEASE, "released")
    program.write_text("#!/bin/sh\nexit 1\n")
    copy.manifest(sources=copy.digest())
    copy.prints(f"{NOT_BUILT}*does not run here (it needs nothing)*")


def test_nothing_can_be_noted(copy: Copy) -> None:
    """A file is in the place of the folder for notes."""
    copy.release()
    shutil.rmtree(copy.top / "out", ignore_errors=True)
    (copy.top / "out").touch()
    copy.prints(RELEASED)
    copy.prints(RELEASED)


def test_no_library(copy: Copy) -> None:
    copy.prints(NO_LIBRARY, "tools/library")


def test_a_released_library(copy: Copy) -> None:
    copy.release_library()
    copy.prints(f"{copy.top}/{RELEASE}\n", "tools/library")
    lines = copy.top / "crates.txt"
    lines.write_text(lines.read_text().replace("\ntracehost_c staticlib: ", "\ntracehost_c staticlib: more "))
    copy.prints(NO_LIBRARY, "tools/library")


def test_a_damaged_library(copy: Copy) -> None:
    copy.release_library()
    copy.append(f"{RELEASE}/libtracehost.a", "more\n")
    copy.prints(NO_LIBRARY, "tools/library")


def test_a_library_built_here(copy: Copy) -> None:
    copy.release_library()
    copy.make_library(LIBRARY, "built")
    copy.prints(f"{copy.top}/{RELEASE}\n", "tools/library")  # of unknown sources
    copy.note("library", copy.digest("tracehost_c"))
    copy.prints(f"{copy.top}/{LIBRARY}\n", "tools/library")
    copy.append(f"{LIBRARY}/libtracehost.so", "more\n")
    copy.prints(f"{copy.top}/{RELEASE}\n", "tools/library")
    copy.note("library", "the digest of other sources")
    copy.prints(f"{copy.top}/{RELEASE}\n", "tools/library")
