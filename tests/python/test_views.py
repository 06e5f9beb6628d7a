"""The instructions of a view by the library, include/tracehost.h: a user's view takes no time by other users' rows.

callgrind counts, so each run has the same result. A look-up may meet another number in its group of the index, and then
takes some instructions more.
"""

from __future__ import annotations

import pathlib
import shutil
import sys

import pytest

TOP = pathlib.Path(__file__).resolve().parents[2]
sys.path.insert(0, str(TOP / "bench"))

from in_process import FULL_USERS, compile_views, instructions_of_view  # noqa: E402

IN_A_GROUP = 16
MOST_OF_250 = 65_000

pytestmark = pytest.mark.skipif(not (shutil.which("valgrind") and shutil.which("cc")), reason="needs valgrind and cc")


@pytest.fixture(scope="module")
def views(library: pathlib.Path, tmp_path_factory: pytest.TempPathFactory) -> pathlib.Path:
    return compile_views(tmp_path_factory.mktemp("views"), library / "libtracehost.a")


def test_a_view_takes_no_time_by_the_rows_of_others(views: pathlib.Path) -> None:
    counts = {full: instructions_of_view(views, 1, full) for full in FULL_USERS}
    assert max(counts.values()) - min(counts.values()) <= IN_A_GROUP, counts


def test_a_view_takes_time_by_the_users_own_rows(views: pathlib.Path) -> None:
    one, most = instructions_of_view(views, 1, 1), instructions_of_view(views, 250, 1)
    assert one < most <= MOST_OF_250
