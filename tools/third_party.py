"""What the program and the library contain besides their own code: libraries of the Rattle kit. Many follow crates for Rust.

format/third_party.json has each library. If it has license files in the kit: the crates by their versions on crates.io, their
license as an SPDX expression, and the copyright lines of these files, as `2019 Carl Lerche`. If it has none: what its files
say of licenses and of others' code (`says`), and the library here that the code in these files follows.
"""

from __future__ import annotations

import json
import re
import shutil
import subprocess
from collections.abc import Iterator
from pathlib import Path
from typing import NamedTuple

from crates import TOP, Unavailable, below

OWN = "BSD-2-Clause"
KIT = "LicenseRef-Rattle-kit"
"""Names the terms of the kit's own libraries in an expression."""
NO_TERMS = "No file of the Rattle kit states a license or a copyright for the whole."
COPYRIGHT = re.compile(r"^ *Copyright (?:\(c\) )?(?![\[{])(.+?) *$", re.MULTILINE)
# what says something of a license, or that code is another's, for grep(1) with -w
OF_OTHERS = "licen[cs]e[ds]?|licensing|copyright|SPDX|ported|no port|port of|adapted from|Rust crates?"


class Statement(NamedTuple):
    """What files of a library say, by their names in the kit's folder of libraries."""

    files: list[str]
    says: str
    follows: str | None = None
    """The library that the code in these files follows: its terms hold for them."""
    is_left_out: bool = False
    """Whether it is only of what isn't compiled in."""


class Part(NamedTuple):
    """A library of the kit."""

    name: str
    crates: dict[str, str]
    license: str | None
    copyright: list[str]
    says: list[Statement]


def parts() -> list[Part]:
    rows = json.loads((TOP / "format/third_party.json").read_text(encoding="utf-8"))
    return [
        Part(
            name, row.get("crates", {}), row.get("license"), row.get("copyright", []),
            [Statement(**statement) for statement in row.get("says", [])],
        )
        for name, row in rows.items()
    ]  # fmt: skip


def followed(part: Part) -> list[Part]:
    """The libraries here that files of this one follow."""
    return [one for one in parts() if one.name in {statement.follows for statement in part.says}]


def license_of(*licenses: str) -> str:
    """Their sum, each term once."""
    terms = [term for license in licenses for term in re.split(r" AND (?![^(]*\))", license)]
    return " AND ".join(dict.fromkeys(f"({term})" if re.match(r"[^(].* OR ", term) else term for term in terms))


def concluded(part: Part) -> str:
    """The license that holds for it."""
    return part.license or license_of(KIT, *(one.license or KIT for one in followed(part)))


def license_of_all() -> str:
    """What holds for the whole of the program or the library."""
    return license_of(OWN, *map(concluded, parts()))


def cited() -> set[str]:
    """The libraries of the kit in the lines of crates.txt of the program, of the library, and of what is below them."""
    own = below("tracehost", "tracehost_c")
    return {use for crate in own.values() for use in crate.uses} - set(own)


# ---- the kit


def kit() -> Path:
    command = shutil.which("rt")
    if command is None:
        raise Unavailable("the command rt of the Rattle kit is missing")
    return Path(command).resolve().parents[1]


def compiled_in() -> set[str]:
    """Those that are cited, and those below them: what `dep` says in the kit's compiled libraries."""
    found: set[str] = set()
    new = sorted(cited())
    while new:
        if (name := new.pop()) not in found:
            found.add(name)
            lines = (kit() / f"rlibs/{name}.rlib/format").read_text(encoding="utf-8").splitlines()
            new += [line.split()[1] for line in lines if line.startswith("dep ")]
    return found


def license_files(part: Part) -> Iterator[tuple[str, str]]:
    """Their names and texts."""
    for file in sorted((kit() / "rattle" / part.name).glob("LICENSE*")):
        yield file.name, file.read_text(encoding="utf-8")


def sayings(name: str) -> Iterator[tuple[str, str]]:
    """Its files that say something of licenses or of others' code, each with its text on a line and without marks of comments."""
    libraries = kit() / "rattle"
    found = subprocess.run(["grep", "-rliwE", OF_OTHERS, name], cwd=libraries, stdout=subprocess.PIPE, text=True, check=False)
    if found.returncode > 1:
        raise Unavailable(f"grep couldn't read {libraries / name}")
    for file in found.stdout.splitlines():
        yield file, re.sub(r"\s+(//\s*)?", " ", (libraries / file).read_text(encoding="utf-8", errors="replace"))


def faults_of_own(part: Part) -> Iterator[str]:
    """What the table says otherwise of a library that has no license file."""
    texts = dict(sayings(part.name))
    for file in sorted({file for statement in part.says for file in statement.files} ^ set(texts)):
        yield f"{part.name}: {file} is only in one of: the table, the files that say something of licenses or of others' code"
    for statement in part.says:
        for file in statement.files:
            if statement.says not in texts.get(file, statement.says):
                yield f"{part.name}: {file} doesn't say: {statement.says}"
    if unknown := {statement.follows for statement in part.says} - {None, *(one.name for one in parts() if one.license)}:
        yield f"{part.name}: there are no license files of {', '.join(map(str, unknown))}"


def faults() -> Iterator[str]:
    """What the table says otherwise than the kit."""
    listed = parts()
    for part in listed:
        if not part.license:
            yield from faults_of_own(part)
    for name in sorted({part.name for part in listed} ^ compiled_in()):
        yield f"{name} is only in one of: the table, what is compiled in"
    for part in listed:
        texts = [text for _, text in license_files(part)]
        if bool(texts) != (part.license is not None):
            yield f"{part.name}: license files in the kit: {len(texts)}; license in the table: {part.license}"
        lines = {line for text in texts for line in COPYRIGHT.findall(text)}
        if lines != set(part.copyright):
            yield f"{part.name}: copyright in the kit: {sorted(lines)}; in the table: {part.copyright}"
        page = kit() / "rattle" / part.name / "README.md"
        versions = page.read_text(encoding="utf-8") if part.crates else ""
        for crate, version in part.crates.items():
            if not re.search(rf"\b{re.escape(crate)}`? {re.escape(version)}(?![\w.]*\w)", versions):
                yield f"{part.name}: {page} doesn't say {crate} {version}"
