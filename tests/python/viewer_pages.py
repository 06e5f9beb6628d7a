"""Pages of the viewer, for its tests."""

from __future__ import annotations

import importlib.machinery
import os
import pathlib
import shutil
import subprocess
import sys
import tempfile
from collections.abc import Iterator
from typing import Any, Optional

import pytest
from viewer_browser import Browser, Document, Tab

TOP = pathlib.Path(__file__).resolve().parents[2]
MAKE = TOP / "viewer" / "make"
MAKER = importlib.machinery.SourceFileLoader("viewer_make", str(MAKE)).load_module()
EXAMPLES = [path for path in sorted((TOP / "examples").glob("*.json")) if not path.with_suffix(".err").exists()]
CHROMIUM = shutil.which("chromium") or shutil.which("chromium-browser") or shutil.which("google-chrome")
needs_browser = pytest.mark.skipif(CHROMIUM is None, reason="Chromium isn't installed, so no page is opened")
_browsers: list[Browser] = []


@pytest.fixture(scope="module", autouse=True)
def viewed(program: pathlib.Path) -> Iterator[None]:
    """The program that the pages' lines come from is in the environment. The browser is closed at the end."""
    with pytest.MonkeyPatch.context() as patch:
        patch.setenv("TRACEHOST", str(program))
        yield
    while _browsers:
        _browsers.pop().close()


def browser() -> Browser:
    """The browser; only tests that are skipped without one ask for it."""
    if not _browsers:
        assert CHROMIUM
        _browsers.append(Browser(CHROMIUM))
    return _browsers[0]


def run_make(*words: object, make: pathlib.Path = MAKE, **how: Any) -> subprocess.CompletedProcess[bytes]:
    """viewer/make with these words; it asks the program that is tested, unless `env` names another one."""
    return subprocess.run([sys.executable, str(make), *map(str, words)], capture_output=True, **how)


def lines_of(*words: object) -> bytes:
    """What the program prints with --json, or as a trace if the words say so."""
    options = [] if {"--json=trace", "--json=trace+rows"} & set(words) else ["--json"]
    return subprocess.run([os.environ["TRACEHOST"], *options, *map(str, words)], capture_output=True, check=True).stdout


class Pages:
    """Pages in a folder of their own."""

    def __init__(self) -> None:
        self.folder = tempfile.TemporaryDirectory()
        self.room = pathlib.Path(self.folder.name)

    def file(self, name: str, data: bytes) -> pathlib.Path:
        path = self.room / name
        path.write_bytes(data)
        return path

    def empty(self) -> pathlib.Path:
        """The page without data."""
        return self.file("empty.html", run_make(check=True).stdout)

    def page(self, name: str, lines: bytes, scenario: Optional[pathlib.Path] = None, status: int = 0) -> pathlib.Path:
        """The page of these lines."""
        words = [self.file(name + ".lines", lines)] + ([scenario] if scenario else [])
        done = run_make(*words)
        assert done.returncode == status, done.stderr
        return self.file(name + ".html", done.stdout)

    def unread(self, name: str, text: str) -> pathlib.Path:
        """The page of a text as it is, as if it were opened there: viewer/make makes none of a text that it can't read."""
        files = [(name + ".lines", text)]
        return self.file(name + ".html", MAKER.filled(MAKER.empty_page(), name, files).encode())

    def open(self, page: pathlib.Path, address: str = "draw=all&lwps=all") -> Document:
        """What the browser makes of a page, with a lane for each LWP."""
        tab = Tab(browser(), page, address)
        document = tab.document()
        tab.close()
        return document
