"""What the clients' tests find in their environment, and that each warning of theirs is an error."""

from __future__ import annotations

import os
from collections.abc import Iterator
from pathlib import Path

import pytest


@pytest.fixture(autouse=True, scope="module")
def environment(program: Path, request: pytest.FixtureRequest) -> Iterator[None]:
    """The program and the library to test. A `TRACEHOST_LIBRARY` that is set stays."""
    with pytest.MonkeyPatch.context() as patch:
        patch.setenv("TRACEHOST", str(program))
        if not os.environ.get("TRACEHOST_LIBRARY"):
            patch.setenv("TRACEHOST_LIBRARY", str(request.getfixturevalue("library") / "libtracehost.so"))
        yield


def pytest_itemcollected(item: pytest.Item) -> None:
    item.add_marker(pytest.mark.filterwarnings("error"))
