"""What the program and the library contain of others: format/third_party.json, THIRD-PARTY.txt and the kit's files say the same.

Then with small kits of this test: whatever a kit says otherwise is found.
"""

from __future__ import annotations

import json
import re
import shutil
import sys
from collections.abc import Callable
from pathlib import Path
from typing import Any

import pytest

from checking import TOP, Ended, run

sys.path.insert(0, str(TOP / "tools"))
from third_party import NO_TERMS, cited, parts  # noqa: E402

PAGE = (TOP / "THIRD-PARTY.txt").read_text(encoding="utf-8")
HEADINGS, *TEXTS = re.split(r"^---- Text \d+: .*\n\n", PAGE, flags=re.MULTILINE)
ENTRIES = {entry.split(",")[0]: entry for entry in HEADINGS.split("\n\n")}
TOOL = "tools/licenses"


def test_they_are_those_of_the_kit() -> None:
    checked = run(sys.executable, TOP / TOOL, "check")
    if checked.status == 3:
        pytest.skip(checked.err.strip())
    assert checked == Ended(0, "", "")


def test_the_table_has_what_the_crates_cite() -> None:
    assert cited() <= {part.name for part in parts()}


@pytest.mark.parametrize("part", [part for part in parts() if part.license], ids=lambda part: str(part.name))
def test_an_entry_has_versions_holders_and_texts(part: Any) -> None:
    entry = ENTRIES[part.name]
    for crate, version in part.crates.items():
        assert f"{crate} {version}" in entry.splitlines()[0]
    texts = [TEXTS[int(number) - 1] for number in re.findall(r"\d+", entry.splitlines()[-1].rpartition("text")[2])]
    for line in part.copyright:
        assert f"\n  Copyright (c) {line}\n" in entry
        assert any(line in text for text in texts)
    assert ("MIT" in part.license) == any(text.count("Permission is hereby granted, free of charge") == 1 for text in texts)


def test_parts_of_the_kit_itself_are_named() -> None:
    """Each with what its files say, and the terms of what these follow; and that no file says more."""
    own = [part for part in parts() if not part.license]
    entries = {name: entry for entry in HEADINGS.split("\n\n") for name in entry.split("\n")[0].split(", ")}
    assert len(own) == 11
    for part in own:
        lines = " ".join(entries[part.name].split())
        assert lines.endswith(NO_TERMS)
        for statement in part.says:
            said = lines.partition(f'{", ".join(statement.files)}: "{statement.says}"')[2]
            assert said.startswith(" This is not compiled in.") == statement.is_left_out
            terms = ENTRIES[statement.follows].splitlines()[-1].strip() if statement.follows else ""
            assert said and said.startswith(f" Under {terms} ") == bool(terms)


def test_each_text_is_of_some_part() -> None:
    numbers = {int(number) for line in HEADINGS.splitlines() for number in re.findall(r"\d+", line.partition(": text")[2])}
    assert numbers == set(range(1, len(TEXTS) + 1))


def test_no_table_of_unicode_is_compiled_in() -> None:
    """The kit's core has Unicode's data, under a license of its own. None of it gets into what is released."""
    rt = shutil.which("rt")
    released = [path for path in TOP.glob("release/*-linux/*") if path.name != "MANIFEST"]
    if rt is None or not released:
        pytest.skip("there is no kit to compare with, or no release")
    sources = [*Path(rt).resolve().parents[1].glob("rattle/core/src/char/*.rt")]
    literals = {text for path in sources for text in re.findall(r'b"((?:\\x[0-9a-f]{2}){16})', path.read_text(encoding="utf-8"))}
    starts = [bytes.fromhex(text.replace("\\x", "")) for text in literals]
    assert starts
    contents = [path.read_bytes() for path in released]
    assert not [start for start in starts if any(start in content for content in contents)]


# ---- kits of this test


class Kit:
    """A copy of the tools, with a table of two libraries, and a kit that has both."""

    def __init__(self, room: Path) -> None:
        self.top, self.folder = room / "top", room / "kit"
        (self.top / "format").mkdir(parents=True)
        shutil.copytree(TOP / "tools", self.top / "tools", ignore=shutil.ignore_patterns("__pycache__"))
        self.crates = self.top / "crates.txt"
        self.crates.write_text("low: first\ntracehost: low\ntracehost_c staticlib: low\n")
        self.table = self.top / "format/third_party.json"
        row = {"crates": {"first-crate": "1.2"}, "license": "MIT", "copyright": ["1999 A. Nonymous"]}
        says = [
            {
                "files": ["second/src/lib.rt", "second/README.md"],
                "says": "Adapted from the Rust crate `first-crate`.",
                "follows": "first",
            }
        ]
        self.table.write_text(json.dumps({"first": row, "second": {"says": says}, "third": {}}))
        self.write("bin/rt", "#!/bin/sh\n").chmod(0o755)
        self.write("rlibs/first.rlib/format", "rattle rlib\ncrate first\ndep second\n")
        self.write("rlibs/second.rlib/format", "rattle rlib\ncrate second\ndep third\n")
        self.write("rlibs/third.rlib/format", "rattle rlib\ncrate third\n")
        self.license = self.write("rattle/first/LICENSE-MIT", "Copyright (c) 1999 A. Nonymous\n\nPermission is hereby granted\n")
        self.write("rattle/first/README.md", "# first\n\nAfter the crate `first-crate` 1.2 (MIT).\n")
        self.write("rattle/second/README.md", "# second\n\nAdapted from the Rust\ncrate `first-crate`.\n")
        self.write("rattle/second/src/lib.rt", "// Quick. Adapted from the\n// Rust crate `first-crate`.\nfn f() {}\n")
        self.write("rattle/third/src/lib.rt", "// A sum, after all.\n")

    def write(self, name: str, text: str) -> Path:
        path = self.folder / name
        path.parent.mkdir(parents=True, exist_ok=True)
        path.write_text(text)
        return path

    def run(self, word: str) -> Ended:
        """The kit's rt is the first on the path."""
        return run("env", f"PATH={self.folder}/bin:/usr/bin:/bin", sys.executable, self.top / TOOL, word)


@pytest.fixture
def kit(tmp_path: Path) -> Kit:
    made = Kit(tmp_path)
    assert made.run("write") == Ended(0, "", "")
    return made


def test_the_page_of_a_kit(kit: Kit) -> None:
    assert kit.run("check") == Ended(0, "", "")
    page = (kit.top / "THIRD-PARTY.txt").read_text()
    said = 'second/src/lib.rt, second/README.md: "Adapted from the Rust crate `first-crate`."\n  Under MIT: text 1'
    second, third = (f"{head}\n  {NO_TERMS}\n" for head in (f"second\n  {said}", "third"))
    assert f"first, after first-crate 1.2\n  Copyright (c) 1999 A. Nonymous\n  MIT: text 1\n\n{second}\n{third}\n" in page
    assert page.endswith("---- Text 1: LICENSE-MIT of first\n\nCopyright (c) 1999 A. Nonymous\n\nPermission is hereby granted\n")


FAULTS: dict[str, tuple[Callable[[Kit], object], str]] = {
    "another version": (lambda kit: kit.write("rattle/first/README.md", "`first-crate` 1.21\n"), "doesn't say first-crate 1.2"),
    "another holder": (lambda kit: kit.license.write_text("Copyright (c) 2000 B\n"), "copyright in the kit: ['2000 B']"),
    "another text": (lambda kit: kit.license.write_text(kit.license.read_text() + "or not\n"), "+or not"),
    "no file": (lambda kit: kit.license.unlink(), "first: license files in the kit: 0; license in the table: MIT"),
    "a file more": (lambda kit: kit.write("rattle/second/LICENSE", "free\n"), "second: license files in the kit: 1"),
    "a library more": (
        lambda kit: [kit.write(f"rlibs/{name}.rlib/format", "dep fourth\n" * (name == "third")) for name in ("third", "fourth")],
        "fourth is only in one of",
    ),
    "a library less": (lambda kit: kit.write("rlibs/first.rlib/format", "crate first\n"), "second is only in one of"),
    "a file that says more": (
        lambda kit: kit.write("rattle/third/src/sum.rt", "// Under the MIT licence.\n"),
        "third: third/src/sum.rt is only in one of: the table, the files that say something",
    ),
    "a holder in a file": (
        lambda kit: kit.write("rattle/third/proofs/sum.txt", "copyright 1999 B\n"),
        "third: third/proofs/sum.txt is only in one of",
    ),
    "a file that says nothing": (
        lambda kit: kit.write("rattle/second/src/lib.rt", "// Quick.\n"),
        "second: second/src/lib.rt is only in one of",
    ),
    "a file that says another thing": (
        lambda kit: kit.write("rattle/second/README.md", "Adapted from the Rust crate `other`.\n"),
        "second: second/README.md doesn't say: Adapted from the Rust crate `first-crate`.",
    ),
    "a library that follows one without a license": (
        lambda kit: kit.table.write_text(kit.table.read_text().replace('"follows": "first"', '"follows": "third"')),
        "second: there are no license files of third",
    ),
    "another page": (lambda kit: (kit.top / "THIRD-PARTY.txt").write_text("none\n"), "-none"),
    "another copy": (lambda kit: (kit.top / "clients/rust/THIRD-PARTY.txt").write_text("none\n"), "-none"),
}


@pytest.mark.parametrize("fault", FAULTS)
def test_a_difference_is_found(kit: Kit, fault: str) -> None:
    change, said = FAULTS[fault]
    change(kit)
    checked = kit.run("check")
    assert (checked.status, checked.err) == (1, "") and said in checked.out


def test_a_table_with_faults_makes_no_page(kit: Kit) -> None:
    before = (kit.top / "THIRD-PARTY.txt").read_bytes()
    kit.license.unlink()
    assert kit.run("write").status == 1
    assert (kit.top / "THIRD-PARTY.txt").read_bytes() == before


def test_without_a_kit(kit: Kit) -> None:
    (kit.folder / "bin/rt").unlink()
    assert kit.run("check") == Ended(3, "", "tools/licenses: the command rt of the Rattle kit is missing\n")


def test_the_sum(kit: Kit) -> None:
    assert kit.run("sum") == Ended(0, "BSD-2-Clause AND MIT AND LicenseRef-Rattle-kit\n", "")


def test_its_usage(kit: Kit) -> None:
    assert kit.run("--help").status == 0
    asked = kit.run("--nothing")
    assert (asked.status, asked.out) == (2, "") and "tools/licenses check" in asked.err
