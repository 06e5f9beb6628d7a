"""A reader does what docs/TUTORIAL.md says, in a copy of this repository.

    python3 -m pytest tests/python/test_tutorial.py
"""

from __future__ import annotations

import pathlib
import re

from stranger import block, clone, needs
from test_pages import Reader, Shown, shown

__all__ = ["clone"]  # a fixture
PAGE = "TUTORIAL.md"


def file(count: int) -> str:
    """A block of the page. Its first line names the file that it belongs to."""
    text = block(PAGE, "python", count)
    assert text.startswith("# "), text
    return text


def with_the_cure(debugger: str) -> str:
    """The file with the last line of `confine` after the line that the page adds."""
    added = file(3).split("\n", 1)[1]
    last = re.search(r"^def confine.*?\n(?=\n)", debugger, re.MULTILINE | re.DOTALL)
    assert last is not None
    lines = last[0].splitlines(keepends=True)
    return debugger.replace(last[0], "".join([*lines[:-1], added, lines[-1]]))


@needs("python3")
def test_the_tutorial(clone: pathlib.Path, tmp_path: pathlib.Path) -> None:
    reader = Reader(clone, tmp_path)
    activated, first, passing, failing, back, cured = shown(f"docs/{PAGE}")
    assert activated == Shown(". ./activate", "")
    reader.types(activated.command)
    assert reader.has(*first).status == 0

    debugger, test = clone / "sandbox.py", clone / "test_sandbox.py"
    debugger.write_text(file(0))
    test.write_text(file(1))
    assert reader.has(*passing).status == 0

    test.write_text(file(1) + "\n" + file(2))
    printed = reader.has(*failing)
    assert printed.status == 1
    page = re.search(r"^page: +(\S+)$", printed.text, re.MULTILINE)
    assert page is not None
    made = pathlib.Path(page[1])
    assert made.read_text(encoding="utf-8").rstrip().endswith("</html>")
    replayed = reader.types(f"tracehost {made.with_suffix('.json')} --expect {made.with_suffix('.out')}")
    assert f"to go on from here: tracehost-debug {made.with_suffix('.json')}\n" in printed.text
    assert reader.has(back.command.replace("..json", str(made.with_suffix(".json"))), back.text).status == 0
    assert (replayed.status, replayed.text) == (0, "")

    debugger.write_text(with_the_cure(file(0)))
    assert reader.has(*cured).status == 0


@needs("python3")
def test_what_the_tutorial_leaves_to_its_reader(clone: pathlib.Path, tmp_path: pathlib.Path) -> None:
    """A grandchild escapes, as the page says."""
    reader = Reader(clone, tmp_path)
    (clone / "sandbox.py").write_text(with_the_cure(file(0)))
    (clone / "test_sandbox.py").write_text(
        file(1)
        + """
def test_a_grandchild(tracehost: Host) -> None:
    acts = (100001, FORK), (100002, FORK), (100001, EXIT), (100002, EXIT), (100003, EXEC), (100003, EXIT)
    assert ends(tracehost, *acts) == {1001: "exited", 1002: "exited"}
"""
    )
    reader.types(". ./activate")
    printed = reader.types("python3 -m pytest -q -p tracehost.pytest_plugin test_sandbox.py")
    assert (printed.status, "3 passed" in printed.text) == (0, True), printed.text
