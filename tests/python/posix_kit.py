"""C programs on the model, as tests compile and run them. Each is compiled once in a run of pytest: its workers share them."""

from __future__ import annotations

import fcntl
import hashlib
import os
import re
import shutil
import subprocess
import sys
from collections.abc import Callable
from pathlib import Path

import pytest
from checking import TOP

POSIX = TOP / "clients" / "posix"
RUN = POSIX / "tracehost-run"
CC = POSIX / "tracehost-cc"
SCALE = int(os.environ.get("TRACEHOST_TEST_SCALE", "1"))
"""How much longer the tests are than by default; a nightly run has 20."""
JOBS = max(1, len(os.sched_getaffinity(0)) // int(os.environ.get("PYTEST_XDIST_WORKER_COUNT", "1")))
"""So many runs at a time give this worker of pytest its part of the processors."""
RACES = sorted(path.stem for path in POSIX.glob("races/*.c"))
BY_TWO_SWITCHES = ("newborn_lwp", "tracer_dies")
"""One is enough for the others."""

_STRICT = ("-g", "-Wall", "-Wextra", "-Werror")
_LOOSE = ("-g", "-w", "-pthread")  # for the small programs, which do odd things on purpose

Done = subprocess.CompletedProcess[str]


def once(made: Path, make: Callable[[], object]) -> Path:
    """A file that the first worker of pytest that needs it makes, while the others wait."""
    made.parent.mkdir(parents=True, exist_ok=True)
    with open(f"{made}.lock", "w") as lock:
        fcntl.flock(lock, fcntl.LOCK_EX)
        if not made.exists():
            make()
    return made


def shared_folder(factory: pytest.TempPathFactory) -> Path:
    """The folder that the workers of one run of pytest share."""
    own = factory.getbasetemp()
    return (own.parent if "PYTEST_XDIST_WORKER" in os.environ else own) / "posix"


def cases() -> list[str]:
    """Each case of clients/posix/tests, as PROGRAM.CASE."""
    sources = sorted((POSIX / "tests").glob("*_test.c"))
    return [
        f"{source.stem}.{case}" for source in sources for case in re.findall(r"ATF_TP_ADD_TC\(tp, (\w+)\);", source.read_text())
    ]


class OtherUser:
    """A user with no other processes, and a folder that it may read."""

    def __init__(self, room: Path) -> None:
        self.room = room
        self._words = ["setpriv", "--reuid=54321", "--regid=54321", "--clear-groups"]

    def is_there(self) -> bool:
        """Whether this user may be it, and it may run tracehost-run."""
        if shutil.which("setpriv") is None:
            return False
        test = 'test -r "$0" && test -r "${TRACEHOST-$0}" && exec "$1" -c pass'
        return self.run("sh", "-c", test, RUN, sys.executable).returncode == 0

    def run(self, *words: object) -> Done:
        """A command with these words."""
        return Posix.execute(*self._words, *words)


class Posix:
    """Compiles programs into a folder, and runs them."""

    def __init__(self, folder: Path) -> None:
        self._folder = folder

    def compiled(self, source: str, *flags: str, compiler: str = "") -> Path:
        """A source of clients/posix as a program of tracehost-cc. Warnings are errors, except in the small programs."""
        path = POSIX / source
        compiler = compiler or ("g++" if path.suffix == ".cpp" else "cc")
        words = [*(_LOOSE if "programs" in path.parts else _STRICT), *flags]
        kind = hashlib.sha256(" ".join([compiler, *words]).encode()).hexdigest()[:8]
        made = self._folder / kind / path.stem

        def make() -> None:
            # the first one builds the runtime, too
            done = self.execute("env", f"CC={compiler}", CC, *words, "-o", made, path, seconds=1200)
            assert done.returncode == 0, done.stderr

        return once(made, make)

    def race(self, name: str) -> Path:
        """A race of clients/posix/races."""
        return self.compiled(f"races/{name}.c")

    def remedy(self, name: str) -> Path:
        """The same program without its race."""
        return self.compiled(f"races/{name}.c", "-DRIGHT")

    def run(self, *words: object, seconds: float = 1200) -> Done:
        """tracehost-run with these words. It leaves no record unless it is asked for one."""
        return self.execute(sys.executable, RUN, "--no-record", *words, seconds=seconds)

    @staticmethod
    def execute(*words: object, seconds: float = 300) -> Done:
        """A command with these words."""
        return subprocess.run(
            [str(word) for word in words], stdin=subprocess.DEVNULL, capture_output=True, text=True, timeout=seconds, check=False
        )
