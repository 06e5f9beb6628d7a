"""tracehost-check, and logs of recorded runs, as tests have them."""

from __future__ import annotations

import contextlib
import io
import os
import re
import subprocess
import sys
from collections.abc import Sequence
from pathlib import Path
from typing import NamedTuple, Optional

import pytest

from checking import TOP
from posix_kit import Posix
from recorded_logs import log_of, read_record
from tracehost_check.command import main

CHECK = TOP / "kernel/check"
ROOT = "1/1 0 begins log=1 system=model parent=0 blocked=- ignored=- program=a\n"


class Verdict(NamedTuple):
    status: int
    line: Optional[int]
    text: str


class Checker:
    """tracehost-check with the library that is tested."""

    def __init__(self, library: Path, folder: Path) -> None:
        self.environment = {**os.environ, "TRACEHOST_LIBRARY": str(library / "libtracehost.so")}
        self._file = folder / "log"

    def run(self, *words: object) -> subprocess.CompletedProcess[str]:
        command = [sys.executable, str(CHECK / "tracehost-check"), *map(str, words)]
        return subprocess.run(command, env=self.environment, capture_output=True, text=True, timeout=600, check=False)

    def of(self, log: Path, *words: object) -> Verdict:
        """As `run`, in this process."""
        with pytest.MonkeyPatch.context() as patch, io.StringIO() as printed:
            patch.setenv("TRACEHOST_LIBRARY", self.environment["TRACEHOST_LIBRARY"])
            with contextlib.redirect_stdout(printed), contextlib.redirect_stderr(printed):
                status = main([*map(str, words), str(log)])
            text = printed.getvalue()
        assert "Traceback" not in text, text
        place = re.search(rf"{re.escape(str(log))}:(\d+): ", text)
        return Verdict(status, int(place[1]) if place else None, text)

    def of_text(self, text: str | bytes, *words: object) -> Verdict:
        self._file.write_bytes(text if isinstance(text, bytes) else text.encode())
        return self.of(self._file, *words)


def recorded(posix: Posix, folder: Path, source: str, *words: str, flags: Sequence[str] = (), seed: int = 0) -> list[str]:
    program, record = posix.compiled(source, *flags), folder / "run.json"
    seeds = ["--seed", str(seed)] if seed else []
    done = posix.run("--record", record, *seeds, program, *words)
    assert done.returncode in (0, 1), done.stderr
    return log_of(read_record(record), seed)
