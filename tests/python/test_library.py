"""docs/internals/LIBRARY.md shows the sources of its example, crates/examples_library, and its stored output."""

from __future__ import annotations

import re
from pathlib import Path

import pytest

TOP = Path(__file__).resolve().parents[2]
EXAMPLE = TOP / "crates/examples_library"
SOURCES = {str(path.relative_to(TOP)): path.read_text(encoding="utf-8") for path in sorted((EXAMPLE / "src").glob("*.rt"))}
PAGE = (TOP / "docs/internals/LIBRARY.md").read_text(encoding="utf-8")
BLOCKS = re.findall(r"^```rust\n(.*?)^```$", PAGE, re.MULTILINE | re.DOTALL)


def named(blocks: list[str]) -> list[object]:
    return [pytest.param(block, id=f"{number}: {block.splitlines()[0]}") for number, block in enumerate(blocks, 1)]


@pytest.mark.parametrize("block", named(BLOCKS))
def test_a_block_is_in_the_example(block: str) -> None:
    assert any(block in source for source in SOURCES.values())


@pytest.mark.parametrize("name", SOURCES)
def test_the_page_links_a_source(name: str) -> None:
    """A reader finds the rest of each file."""
    assert f"](../../{name})" in PAGE


def test_the_outputs_are_the_stored_ones() -> None:
    """In the order of the page."""
    stored = (EXAMPLE / "stdout").read_text(encoding="utf-8")
    assert "".join(re.findall(r"^```text\n(.*?)^```$", PAGE, re.MULTILINE | re.DOTALL)) == stored
