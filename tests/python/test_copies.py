"""A model checker copies a session at each step that it tries: a copy of a small one is small and takes few instructions,
and each frees what it has taken.

callgrind counts, so each run has the same result.
"""

from __future__ import annotations

import pathlib
import shutil
import sys

import pytest

TOP = pathlib.Path(__file__).resolve().parents[2]
sys.path.insert(0, str(TOP / "bench"))

from in_process import Library, bytes_of_copy, compile_copies, instructions_of_copies  # noqa: E402

MOST_BYTES_OF_TWO_ROWS = 8_192
MOST_OF_COPY_AND_CLOSE = 8_400  # of three processes
MOST_OF_OPEN_AND_CLOSE = 10_000
MOST_OF_COPY_OVER = 3_000  # of three processes
MOST_WITH_GAPS = 3_500  # of three that are left of more
MOST_OF_COPY_USER = 2_200  # of three

pytestmark = pytest.mark.skipif(not shutil.which("cc"), reason="needs cc")
needs_valgrind = pytest.mark.skipif(not shutil.which("valgrind"), reason="needs valgrind")


@pytest.fixture(scope="module")
def copies(library: pathlib.Path, tmp_path_factory: pytest.TempPathFactory) -> pathlib.Path:
    return compile_copies(tmp_path_factory.mktemp("copies"), Library(library / "libtracehost.a"))


def test_a_session_of_two_rows_is_small(copies: pathlib.Path) -> None:
    none, two = bytes_of_copy(copies, 0), bytes_of_copy(copies, 1)
    assert 0 < none < two <= MOST_BYTES_OF_TWO_ROWS


@needs_valgrind
def test_a_copy_takes_few_instructions(copies: pathlib.Path) -> None:
    three, many = (instructions_of_copies(copies, processes, "copy_and_close") for processes in (3, 100))
    assert 0 < three < many
    assert three <= MOST_OF_COPY_AND_CLOSE


@needs_valgrind
def test_an_unused_session_takes_few_instructions(copies: pathlib.Path) -> None:
    assert 0 < instructions_of_copies(copies, 0, "open_and_close") <= MOST_OF_OPEN_AND_CLOSE


@needs_valgrind
@pytest.mark.parametrize(("rows", "most"), [([], MOST_OF_COPY_OVER), (["gaps"], MOST_WITH_GAPS)], ids=["dense", "gaps"])
def test_a_copy_over_a_session_takes_its_memory(copies: pathlib.Path, rows: list[str], most: int) -> None:
    three, many = (instructions_of_copies(copies, processes, "copy_over", *rows) for processes in (3, 100))
    assert 0 < three < many
    assert three <= most


@needs_valgrind
def test_a_copy_of_a_user_takes_nothing_for_others(copies: pathlib.Path) -> None:
    few, beside = instructions_of_copies(copies, 3, "copy_user"), instructions_of_copies(copies, 3, "copy_user", "users")
    assert 0 < few <= MOST_OF_COPY_USER
    assert beside == few
