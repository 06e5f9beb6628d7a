"""Compares the kinds of steps on the table of a shared host, in docs/internals/ARCHITECTURE.md, with those of the sources."""

from __future__ import annotations

import re
from typing import NamedTuple

from checking import TOP

SOURCES = TOP / "crates/host_lock/src"
CALLS = {"addition": "fetch_add", "load": "load", "splitting": "split_seat", "joining": "join_seat"}

ROW = re.compile(r"^\| `(\w+)`: (\w+) [^|]*\| word (\d)", re.MULTILINE)
ON_SLOT = re.compile(r"^\| slot (?:taken out|put back) \| slot 0 \|", re.MULTILINE)
KIND = re.compile(r"\b(?:Play<HostSlot<F, J>, View>|Split<View>|Join<View>) for (\w+)")
STEP = re.compile(r"\.(\w+)::<(\w+)>\(\s*&?(?:mut )?\w+,?\s*(\d?)")


class Kind(NamedTuple):
    """A kind of step: its name, the call of `atomic_table` that makes it, and the word that it changes or loads."""

    name: str
    call: str
    word: int


def told() -> list[Kind]:
    """The kinds that the page names."""
    page = (TOP / "docs/internals/ARCHITECTURE.md").read_text(encoding="utf-8")
    return [Kind(name, CALLS[words], int(word)) for name, words, word in ROW.findall(page)]


def made() -> set[Kind]:
    """The kinds of the steps that the sources make. Splitting and joining load word 0."""
    text = "\n".join(path.read_text(encoding="utf-8") for path in sorted(SOURCES.glob("*.rt")))
    return {Kind(name, call, int(word or 0)) for call, name, word in STEP.findall(text) if call in CALLS.values()}


def test_each_kind_is_told_once() -> None:
    assert len(told()) == len({kind.name for kind in told()})


def test_the_page_tells_the_steps_that_are_made() -> None:
    assert {*told()} == made()


def test_the_rule_has_no_other_kind() -> None:
    rule = (SOURCES / "rule.rt").read_text(encoding="utf-8")
    assert {kind.name for kind in told()} == {*KIND.findall(rule)}


def test_the_steps_on_the_slot_are_told() -> None:
    page = (TOP / "docs/internals/ARCHITECTURE.md").read_text(encoding="utf-8")
    assert 2 == len(ON_SLOT.findall(page))
