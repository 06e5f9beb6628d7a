"""The row files and the examples: their names, those that are made, and tests for each of them."""

from __future__ import annotations

from collections.abc import Callable, Sequence
from functools import cache
from pathlib import Path

import pytest

from checking import TOP
from long_rows import LONG_ROWS, write_row

Located = Callable[[Path], Path]
"""What finds a scenario's file by its name. The fixture `located` is one."""


def scenario_files() -> list[Path]:
    """All row files and examples, from the top of the repository. Those that long_rows makes aren't there: see `Located`."""
    rows, examples = ([file.relative_to(TOP) for file in TOP.glob(f"{name}/*.json")] for name in ("tests/rows/*", "examples"))
    return [*sorted([*rows, *LONG_ROWS]), *sorted(examples)]


def accepted_files() -> list[Path]:
    """Those that the program doesn't refuse."""
    return [file for file in scenario_files() if not (TOP / file).with_suffix(".status").exists()]


def plain_files() -> list[Path]:
    """Those without options and without a fault."""
    return [file for file in accepted_files() if not any((TOP / file).with_suffix(end).exists() for end in (".err", ".args"))]


def locator(folder: Path) -> Located:
    """Files that are in the repository keep their names. Others are made in this folder when they are asked for."""

    @cache
    def located(file: Path) -> Path:
        return write_row(file, folder) if file in LONG_ROWS else file

    return located


def name_of(file: Path) -> str:
    """What a row file or an example is called: `rows/explain/key_twice`, `examples/first`."""
    return str(file.with_suffix("")).removeprefix("tests/")


def for_each_scenario(files: Sequence[Path]) -> pytest.MarkDecorator:
    """A mark that runs a test for each of these files, as its argument `file`."""
    return pytest.mark.parametrize("file", files, ids=name_of, indirect=True)
