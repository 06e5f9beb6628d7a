"""The types of the repository's Python, by mypy --strict; scripts without a suffix too. Those of the viewer's JavaScript, by tsc."""

from __future__ import annotations

import os
import subprocess
from pathlib import Path

import pytest
from checking import TOP, needs

# of each part: its files, as patterns, and the folders of what they import; no two of its files have one module name
PARTS: dict[str, tuple[list[str], list[str]]] = {
    "the second model": (["reference/*.py"], ["."]),
    "the tables": (["tools/format", "tools/scenario_format/*.py"], ["tools"]),
    "the tools": (["tools/*.py", "tools/*"], ["tools"]),
    "the viewer": (["viewer/*.py", "viewer/*"], ["viewer"]),
    "the benchmarks": (["bench/*.py", "bench/*"], ["bench", "clients/python"]),
    "steps of a benchmark": (["bench/in_process/*.py"], ["clients/python"]),
    "the client in Python": (
        ["clients/conftest.py", "clients/python/*/*.py"],
        ["clients/python", "clients/python/examples", "tests/python"],
    ),
    "its package": (["clients/python/setup.py"], []),
    "tests of the client in C": (["clients/c/tests/*.py"], ["clients/python"]),
    "C programs on the model": (["clients/posix/*", "clients/posix/**/*.py"], ["clients/posix", "clients/python"]),
    "sessions for kernels": (["kernel/*.py", "kernel/*", "kernel/sessions/*.py"], [".", "clients/python"]),
    "the checker of logs": (
        ["kernel/check/tracehost-check", "kernel/check/tracehost_check/*.py"],
        ["kernel/check", "clients/python"],
    ),
    "the tests": (
        ["test", "conftest.py", "tests/python/*.py"],
        [
            ".",
            "tests/python",
            "clients/python",
            "clients/python/tests",
            "clients/c/tests",
            "clients/posix",
            "bench",
            "viewer",
            "tools",
            "kernel/check",
        ],
    ),
}


def is_python(path: Path) -> bool:
    if path.suffix == ".py":
        return True
    if path.suffix or path.is_symlink() or not path.is_file():
        return False
    with path.open("rb") as file:
        return file.readline().startswith((b"#!/usr/bin/env python3", b"#!/usr/bin/env -S python3"))


def files_of(part: str) -> list[Path]:
    found = {path for pattern in PARTS[part][0] for path in TOP.glob(pattern) if is_python(path)}
    return sorted(found)


def test_each_source_is_in_a_part() -> None:
    listed = subprocess.run(
        ["git", "ls-files", "-co", "--exclude-standard"], cwd=TOP, stdout=subprocess.PIPE, text=True, check=True
    )
    sources = {path for path in map(TOP.joinpath, listed.stdout.splitlines()) if path.exists() and is_python(path)}
    assert sources <= {path for part in PARTS for path in files_of(part)}


@needs("mypy")
@pytest.mark.parametrize("part", PARTS)
def test_types(part: str) -> None:
    files = files_of(part)
    assert files
    command: list[str | Path] = ["mypy", "--strict", "--scripts-are-modules", "--cache-dir", TOP / "out/mypy", *files]
    if part == "the checker of logs":  # its folder is in that of another package, and no part of it
        command.append("--explicit-package-bases")
    ran = subprocess.run(
        command, cwd=TOP, env={**os.environ, "MYPYPATH": ":".join(PARTS[part][1])}, stdout=subprocess.PIPE, stderr=subprocess.STDOUT,
        text=True, check=False,
    )  # fmt: skip
    assert ran.returncode == 0, ran.stdout


@needs("tsc")
def test_types_of_the_page() -> None:
    """The viewer's JavaScript, by the types in its comments."""
    ran = subprocess.run(
        ["tsc", "-p", TOP / "viewer/tsconfig.json"], stdout=subprocess.PIPE, stderr=subprocess.STDOUT, text=True, check=False
    )
    assert ran.returncode == 0, ran.stdout
