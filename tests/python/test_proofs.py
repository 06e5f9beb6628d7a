"""What docs/internals/PROOFS.md counts, and what holds of all definitions, as the sources have it."""

from __future__ import annotations

import re
from pathlib import Path

from checking import TOP

FUNCTION = re.compile(r"^[ \t]*(?:pub(?:\([^)]*\))? )?(?:const |unsafe )*fn (\w+)", re.MULTILINE)
# what ends a function's head
BODY = re.compile(r"\n\s*(?:requires|ensures)\b|\{")
TACTIC = re.compile(r"\b(?:search|grind|simp|omega)\b")


def waiting(crate: Path) -> set[str]:
    """The functions of a crate with the bound `Wait`."""
    found = set()
    for path in crate.glob("src/**/*.rt"):
        text = path.read_text(encoding="utf-8")
        for function in FUNCTION.finditer(text):
            head = text[function.start() :]
            body = BODY.search(head)
            if re.search(r"\bWait\b", head[: body.start() if body else None]):
                found.add(function[1])
    return found


def is_product(crate: Path) -> bool:
    return not crate.name.startswith(("test_", "examples_"))


def test_the_page_has_each_function_that_may_wait() -> None:
    page = (TOP / "docs/internals/PROOFS.md").read_text(encoding="utf-8")
    table = page[page.index("functions that may wait") :].partition("\n\n")[0]
    rows = re.findall(r"^\| `(\w+)` \| (.*) \|$", table, re.MULTILINE)
    listed = {crate: set(re.findall(r"`(?:\w+::)?(\w+)`", names)) for crate, names in rows}
    crates = [path for path in (TOP / "crates").iterdir() if path.is_dir() and is_product(path)]
    assert listed == {crate.name: names for crate in crates if (names := waiting(crate))}


def test_no_definition_calls_a_tactic() -> None:
    calls = []
    for path in sorted((TOP / "crates").glob("*/specs/**/*.antt")):
        for number, line in enumerate(path.read_text(encoding="utf-8").splitlines(), 1):
            body = line.partition("--")[0].partition(" = ")[2]
            calls += [f"{path.relative_to(TOP)}:{number}: {line}" for _ in TACTIC.finditer(body)]
            if re.match(r"\s*use Prim\.", line):
                calls.append(f"{path.relative_to(TOP)}:{number}: {line}")
    assert not calls
