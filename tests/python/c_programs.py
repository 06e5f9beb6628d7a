"""Programs in C and C++ that tests compile, and the compiler's and valgrind's searches for their faults."""

from __future__ import annotations

import functools
import os
import subprocess
import tempfile
from collections.abc import Mapping
from pathlib import Path

from checking import TOP, Word

WARNINGS = ["-Wall", "-Wextra", "-Wpedantic", "-Werror"]
STRICT = [*WARNINGS, "-Wconversion", "-Wsign-conversion"]
SANITIZERS = ["-fsanitize=address,undefined", "-fno-sanitize-recover=all"]
RACES = ["-fsanitize=thread"]
VALGRIND = ["valgrind", "-q", "--error-exitcode=1", "--leak-check=full", "--show-leak-kinds=all"]
HEADERS = ["-I", str(TOP / "include")]
SECONDS = 1800  # of a loaded machine
NONE: Mapping[str, str] = {}


def output(
    *command: Word | int, given: bytes = b"", environment: Mapping[str, str] = NONE, cwd: Path = TOP, status: int = 0
) -> str:
    """What a command prints on standard output. It has to end with this status."""
    ended = subprocess.run(
        [str(word) for word in command], cwd=cwd, env={**os.environ, **environment}, input=given, capture_output=True,
        timeout=SECONDS, check=False,
    )  # fmt: skip
    out, err = (stream.decode(errors="surrogateescape") for stream in (ended.stdout, ended.stderr))
    assert ended.returncode == status, f"{command}: status {ended.returncode}\n{out[-2000:]}\n{err[-2000:]}"
    return out


def compiled(made: Path, *words: Word, compiler: str = "cc") -> Path:
    """Compiles a program, or what the words ask for."""
    output(compiler, *words, "-o", made)
    return made


def reads(*words: Word, compiler: str = "cc") -> None:
    """The compiler accepts this; it makes no file."""
    output(compiler, *words, "-fsyntax-only")


@functools.cache
def works(*flags: str) -> bool:
    """Whether a program that is compiled with these flags runs here."""
    with tempfile.TemporaryDirectory() as room:
        source, made = Path(room, "empty.c"), Path(room, "empty")
        source.write_text("int main(void) { return 0; }\n")
        compiles = subprocess.run(["cc", *flags, "-o", made, source], stderr=subprocess.DEVNULL, check=False).returncode == 0
        return compiles and subprocess.run([made], check=False).returncode == 0


def sanitized() -> list[str]:
    """The flags of the compiler's sanitizers, if they are there."""
    return SANITIZERS if works(*SANITIZERS) else []
