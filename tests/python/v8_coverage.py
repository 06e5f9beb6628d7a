"""The lines of the viewer's parts that node's and Chromium's tests run, by V8's counts of blocks.

In a page the parts are one script (viewer/make), so that its lines are led back to theirs.
"""

from __future__ import annotations

import importlib.machinery
import json
import pathlib
from collections.abc import Iterable, Iterator
from typing import Any

TOP = pathlib.Path(__file__).resolve().parents[2]
SOURCES = TOP / "viewer/src"
MAKER: Any = importlib.machinery.SourceFileLoader("viewer_make", str(TOP / "viewer/make")).load_module()
Line = tuple[str, int]


def lines_with_code(name: str) -> list[int]:
    """The lines of a part that aren't blank or of a comment, from 0."""
    found, in_comment = [], False
    for number, line in enumerate((SOURCES / f"{name}.mjs").read_text(encoding="utf-8").split("\n")):
        text = line.strip()
        in_comment = in_comment or text.startswith("/*")
        if text and not in_comment and not text.startswith("//"):
            found.append(number)
        if "*/" in text:
            in_comment = False
    return found


def page_lines() -> list[Line | None]:
    """For each line of the page's script the line of the part that it comes from."""
    lines: list[Line | None] = [None, None]  # the line feed behind the tag, and "use strict"
    for name in MAKER.PARTS:
        text = (SOURCES / f"{name}.mjs").read_text(encoding="utf-8")
        removed = {text.count("\n", 0, at) for match in MAKER.IMPORT.finditer(text) for at in range(*match.span())}
        lines.append(None)  # its name
        lines += [(name, number) for number in range(text.count("\n") + 1) if number not in removed]
    return lines


def run_lines(source: str, functions: Iterable[dict[str, Any]]) -> Iterator[int]:
    """The lines of a script that have run in part: V8 nests its ranges, and the innermost one counts."""
    counts = [0] * len(source)
    ranges = [one for function in functions for one in function["ranges"]]
    for one in sorted(ranges, key=lambda one: (one["startOffset"], -one["endOffset"])):
        start, end = one["startOffset"], min(one["endOffset"], len(source))
        counts[start:end] = [one["count"]] * (end - start)
    at = 0
    for number, line in enumerate(source.split("\n")):
        if any(counts[at + place] and not char.isspace() for place, char in enumerate(line)):
            yield number
        at += len(line) + 1


def of_node(folder: pathlib.Path) -> set[Line]:
    """By the files that NODE_V8_COVERAGE leaves."""
    seen: set[Line] = set()
    for file in folder.glob("coverage-*.json"):
        for script in json.loads(file.read_text())["result"]:
            path = pathlib.Path(script["url"].removeprefix("file://"))
            if path.parent == SOURCES:
                source = path.read_text(encoding="utf-8")
                seen |= {(path.stem, number) for number in run_lines(source, script["functions"])}
    return seen


def of_pages(folder: pathlib.Path) -> set[Line]:
    """By the files that viewer_browser.py leaves for each tab if VIEWER_COVERAGE names this folder."""
    source = f"\n{MAKER.script(SOURCES)}"
    lines = page_lines()
    assert len(lines) == len(source.split("\n")), "the page's script has other lines"
    seen: set[Line] = set()
    for file in folder.glob("page-*.json"):
        for number in run_lines(source, json.loads(file.read_text())):
            line = lines[number]
            if line is not None:
                seen.add(line)
    return seen


def report(seen: set[Line]) -> tuple[float, int]:
    """Prints the share of each part, and returns that of all and the number of lines."""
    reached, total = 0, 0
    for name in sorted(MAKER.PARTS):
        lines = lines_with_code(name)
        here = sum((name, number) in seen for number in lines)
        reached, total = reached + here, total + len(lines)
        print(f"  {100 * here / len(lines):5.1f}% {name}.mjs")
    return 100 * reached / total, total
