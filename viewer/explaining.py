"""What the program says of a scenario that can't be drawn: tracehost --explain."""

from __future__ import annotations

import os
import pathlib
import shutil
import subprocess
from collections.abc import Iterable, Iterator

import reading

_SECONDS = 10


def of_scenarios(files: Iterable[tuple[str, bytes]]) -> str:
    """The explanation of the first of these files, by name, that is no scenario, in lines after a line feed.

    "" if there is none, or no program to ask.
    """
    for name, data in files:
        read = reading.Read(name, data.decode("utf-8", "replace"))
        if read.faults and not read.replies:
            return next((said for said in (_said(program, data) for program in _programs()) if said), "")
    return ""


def _programs() -> Iterator[str]:
    """The environment's, that of the viewer's prefix or package, and on the path; in a checkout that of its sources."""
    here = pathlib.Path(__file__).resolve().parent
    named = (os.environ.get("TRACEHOST"), here.parents[2] / "bin" / "tracehost", here.parent / "bin" / "tracehost")
    yield from (str(path) for path in named if path and os.access(path, os.X_OK))
    found = shutil.which("tracehost")
    if found:
        yield found
    tool = here.parent / "tools" / "program"
    if tool.exists():
        done = subprocess.run([tool], stdin=subprocess.DEVNULL, stdout=subprocess.PIPE, stderr=subprocess.DEVNULL, text=True)
        if done.returncode == 0:
            yield done.stdout.strip()


def _said(program: str, data: bytes) -> str:
    try:
        done = subprocess.run(
            [program, "--explain=always"], input=data,
            stdout=subprocess.DEVNULL, stderr=subprocess.PIPE, timeout=_SECONDS,
        )  # fmt: skip
    except (OSError, subprocess.TimeoutExpired):
        return ""
    lines = done.stderr.decode("utf-8", "replace").splitlines()
    return "".join(f"\n{line}" for line in lines[1:]) if done.returncode == 1 else ""
