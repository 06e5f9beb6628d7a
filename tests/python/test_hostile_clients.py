"""The library under attack: rooms that end at a page which can't be touched. TRACEHOST_TEST_SCALE multiplies the number of sessions: 1 takes a minute, and a nightly run has 20.
"""

from __future__ import annotations

import os
import pathlib
import shutil
import subprocess

import pytest

TOP = pathlib.Path(__file__).resolve().parents[2]
SCALE = int(os.environ.get("TRACEHOST_TEST_SCALE", "1"))
STRICT = ["-std=c11", "-Wall", "-Wextra", "-Wpedantic", "-Wconversion", "-Werror", "-g", "-O1", "-pthread"]
SANITIZERS = ["-fsanitize=address,undefined", "-fno-sanitize-recover=all"]


def compiled(name: str, place: pathlib.Path, *words: object, compiler: str = "cc") -> str:
    made = place / name
    subprocess.run([compiler, *STRICT, *SANITIZERS, "-o", str(made), *map(str, words)], check=True)
    return str(made)


def output(*command: object) -> str:
    done = subprocess.run(
        [str(word) for word in command], stdout=subprocess.PIPE, stderr=subprocess.PIPE, timeout=600 * SCALE, text=True
    )
    assert (done.returncode, done.stderr) == (0, ""), done.stderr[-3000:]
    return done.stdout


@pytest.mark.parametrize("compiler", [name for name in ("gcc", "clang") if shutil.which(name)])
def test_the_library_with_guarded_rooms(library: pathlib.Path, tmp_path: pathlib.Path, compiler: str) -> None:
    """10,000 runs of up to 400 calls on four handles."""
    source, archive = TOP / "tests/in_process/guarded.c", library / "libtracehost.a"
    guarded = compiled("guarded", tmp_path, f"-I{TOP / 'include'}", source, archive, compiler=compiler)
    output(guarded, 0, 10000 * SCALE)
