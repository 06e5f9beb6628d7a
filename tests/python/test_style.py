"""The layout of Python by black, and of the C of clients by clang-format; and that no file is a link."""

from __future__ import annotations

import subprocess

import pytest

from checking import TOP, needs
from test_types import is_python

C_PARTS = [
    "clients/c/*.[ch]",
    "clients/c/tests/*.c",
    "clients/c/examples/*.c",
    "clients/posix/broker/*.[ch]",
    "clients/posix/runtime/*.[ch]",
    "kernel/*.[ch]",
    "kernel/kit/*.c",
    "kernel/check/*.[ch]",
    "kernel/check/tests/*.c",
]


def listed() -> list[str]:
    words = ["git", "ls-files", "-co", "--exclude-standard"]
    ran = subprocess.run(words, cwd=TOP, stdout=subprocess.PIPE, text=True, check=True)
    return [name for name in ran.stdout.splitlines() if (TOP / name).exists()]


@needs("black")
def test_python() -> None:
    files = [name for name in listed() if is_python(TOP / name)]
    ran = subprocess.run(
        ["black", "--config", "pyproject.toml", "--check", "--quiet", "--diff", *files],
        cwd=TOP,
        stdout=subprocess.PIPE,
        text=True,
        check=False,
    )
    assert (ran.returncode, ran.stdout) == (0, "")


@needs("clang-format")
@pytest.mark.parametrize("part", C_PARTS)
def test_c(part: str) -> None:
    files = sorted(TOP.glob(part))
    assert files
    words = ["clang-format", "--dry-run", "-Werror", *map(str, files)]
    ran = subprocess.run(words, stdout=subprocess.PIPE, stderr=subprocess.STDOUT, text=True, check=False)
    assert (ran.returncode, ran.stdout) == (0, "")


def test_no_symbolic_link() -> None:
    """The gate refuses a repository that has one."""
    assert [name for name in listed() if (TOP / name).is_symlink()] == []
