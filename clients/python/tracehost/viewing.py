"""The page that shows a session as a picture."""

from __future__ import annotations

import errno
import os
import shutil
import signal
import subprocess
import sys
import tempfile
from collections.abc import Sequence
from pathlib import Path

from .program import default


_SECONDS = 300.0


class NoPage(subprocess.CalledProcessError):
    """The program has refused the scenario, or the viewer its lines. The message has what was said of it."""

    def __str__(self) -> str:
        return self.stderr.strip() or super().__str__()


def view(
    scenario: str | os.PathLike[str],
    page: str | os.PathLike[str] | None = None,
    *,
    title: str | None = None,
    program: str | os.PathLike[str] | None = None,
    failed: str | None = None,
    message: str = "",
    step: int | None = None,
) -> Path:
    """Makes a page of this scenario, such as `Host` records one, and returns its path.

    Without `page` the HTML file is called as the scenario, with ``.html``. `program` runs the scenario; without it the one
    that ``TRACEHOST`` names, or the package's own. The page shows the test `failed`, what it said, `message`, and the `step`, from 1, after which it
    failed; else the last one. Raises FileNotFoundError if there is no such scenario, or the viewer isn't installed, and
    NoPage if the scenario is refused or the page can't be written.
    """
    source = Path(scenario)
    if not source.exists():
        raise FileNotFoundError(errno.ENOENT, os.strerror(errno.ENOENT), os.fspath(scenario))
    target = source.with_suffix(".html") if page is None else Path(page)
    run = os.fspath(program or default())
    lines = _output_of([run, "--json=trace+rows", "--explain=always", "--", os.fspath(source)])
    with tempfile.TemporaryDirectory() as room:
        lines_file = Path(room, source.stem + ".lines")
        lines_file.write_bytes(lines)
        words = [f"--output={os.fspath(target)}", f"--title={shown(source.stem if title is None else title)}"]
        words += [] if failed is None else [f"--failed={shown(failed)}", f"--message={shown(message)}"]
        words += [] if failed is None or not step else [f"--at={step}"]
        files = [os.fspath(lines_file)] if lines else [os.fspath(lines_file), os.fspath(source)]  # for a run without steps
        _output_of([*_viewer(run), *words, "--", *files])
    return target


def shown(text: str) -> str:
    """The text as a word of a command, which has neither a NUL nor half of a character."""
    return text.replace("\0", "\\x00").encode("utf-8", "backslashreplace").decode("utf-8")


def _output_of(command: Sequence[str]) -> bytes:
    """What the command prints. Raises NoPage if its status isn't 0, or it doesn't end."""
    try:
        done = subprocess.run(
            command, stdin=subprocess.DEVNULL, stdout=subprocess.PIPE, stderr=subprocess.PIPE, timeout=_SECONDS, check=False
        )
    except subprocess.TimeoutExpired:
        raise NoPage(-signal.SIGKILL, command, b"", f"{command[0]}: it didn't end in {_SECONDS:.0f} seconds") from None
    said = done.stderr.decode("utf-8", "replace")
    if done.returncode:
        raise NoPage(done.returncode, command, done.stdout, said)
    return done.stdout


def viewer_folders() -> list[Path]:
    """Where the viewer may be: in this package, or in its checkout."""
    here = Path(__file__).resolve()
    return [here.parent / "viewer", *(checkout / "viewer" for checkout in list(here.parents)[3:4])]


def _viewer(program: str) -> list[str]:
    """The command that makes a page: of this package or its checkout, else installed."""
    for folder in viewer_folders():
        if (folder / "make").exists():
            return [sys.executable, str(folder / "make")]
    installed = shutil.which("tracehost-view")
    if installed is not None:
        return [installed]
    beside = Path(shutil.which(program) or program).resolve().parent.parent
    for prefix in (beside, Path("/usr/local"), Path("/usr")):
        maker = prefix / "share" / "tracehost" / "viewer" / "make"
        if maker.exists():
            return [sys.executable, str(maker)]
    raise FileNotFoundError("the viewer isn't installed: there is no tracehost-view (docs/INSTALL.md)")
