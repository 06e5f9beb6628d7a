"""The crates of crates.txt, lowest first; and what commands share."""

from __future__ import annotations

import os
from pathlib import Path
from typing import NamedTuple

TOP = Path(__file__).resolve().parent.parent


class Unavailable(Exception):
    """What can't be made here: the reason."""


class Crate(NamedTuple):
    """A line of the file, and the crates that it names."""

    line: str
    uses: list[str]


def listed() -> dict[str, Crate]:
    """All crates of this repository, in the order of the file."""
    found = {}
    for line in (TOP / "crates.txt").read_text(encoding="utf-8").splitlines(keepends=True):
        name, colon, uses = line.partition("#")[0].partition(":")
        if colon:
            found[name.split()[0]] = Crate(line, uses.split())
    return found


def below(*names: str) -> dict[str, Crate]:
    """These crates, and all of this repository that they use, directly or through others."""
    crates = listed()
    found: set[str] = set()
    new = [*names]
    while new:
        name = new.pop()
        if name in crates and name not in found:
            found.add(name)
            new += crates[name].uses
    return {name: crate for name, crate in crates.items() if name in found}


def write_whole(file: Path, content: bytes) -> None:
    """Under another name first, so that a full disk leaves no half of it."""
    file.parent.mkdir(parents=True, exist_ok=True)
    part = file.with_name(f"{file.name}.{os.getpid()}.part")
    try:
        part.write_bytes(content)
        part.replace(file)
    finally:
        part.unlink(missing_ok=True)
