"""The kit for machines with FreeBSD, made and unpacked for tests, with stand-ins for what isn't here."""

from __future__ import annotations

import os
import re
import shutil
import subprocess
import sys
import tarfile
import time
from collections import Counter
from collections.abc import Callable
from pathlib import Path

import pytest
from checking import TOP
from posix_kit import once, shared_folder

sys.path.insert(0, str(TOP / "tools"))
from kit_parts import version  # noqa: E402

KIT = TOP / "kernel/kit"
PERCENT = 2
COLUMNS = ["what", "part", "name", "verdict", "listed", "compared", "steps", "line", "step", "model", "kernel", "shortest"]
# in place of the player: it is called with --differences FILE --time N --results FILE SESSIONS
FAKE_MAKEFILE = "tracehost-play: play.sh\n\tcp play.sh tracehost-play && chmod 755 tracehost-play\n"
FAKE_HEAD = """#!/bin/sh
printf 'session\\tverdict\\tsteps compared\\tsteps\\tline\\tstep\\tmodel\\tkernel\\n' >"$6"
same() { printf '%s\\tsame\\t1\\t1\\t0\\t\\t\\t\\n' "$1" >>"$6"; }
"""
ALL_SAME = FAKE_HEAD + """grep '^# ' "$7" | while read -r _ name; do same "$name" 2 3 4 5 "$6"; done\n"""

Done = subprocess.CompletedProcess[str]


def make_kit(file: Path, library: Path, percent: int = PERCENT, **more: str) -> Path:
    words: list[str | Path] = [sys.executable, TOP / "tools/kit", "--sessions", str(percent), file]
    done = subprocess.run(words, env={**os.environ, "TRACEHOST_LIB_DIR": str(library), **more}, stdout=subprocess.PIPE, check=True)
    assert done.stdout == f"{file}\n".encode()
    return file


class Room:
    """An unpacked kit."""

    def __init__(self, archive: Path, folder: Path) -> None:
        with tarfile.open(archive) as members:
            members.extractall(folder)
        self.path = folder / f"tracehost-kit-{version()}"
        self.system, self.release = os.uname().sysname, os.uname().release
        self.environment = {"PATH": "/usr/local/bin:/usr/bin:/bin:/usr/sbin:/sbin", "HOME": str(folder)}

    def keep(self, pattern: str, of: str) -> None:
        """Of the sessions' files, or the cases' sources, only these are left."""
        kept = set(self.path.glob(pattern))
        assert kept
        for file in set(self.path.glob(of)) - kept:
            file.unlink()

    def few(self) -> None:
        """A file of sessions and one of cases."""
        self.keep("sessions/shared-01.txt", "sessions/*.txt")
        self.keep("cases/exec_test.c", "cases/*_test.c")

    def fake_player(self, script: str) -> None:
        shutil.rmtree(self.path / "player")
        self.put("player/Makefile", FAKE_MAKEFILE)
        self.put("player/play.sh", script)

    def put(self, name: str, text: str) -> Path:
        file = self.path / name
        file.parent.mkdir(exist_ok=True)
        file.write_text(text)
        file.chmod(0o755)
        return file

    def start(self, *words: str | Path, **variables: str) -> subprocess.Popen[str]:
        return subprocess.Popen(
            words or ["sh", "run.sh"],
            cwd=self.path,
            env={**self.environment, **variables},
            stdin=subprocess.DEVNULL,
            stdout=subprocess.PIPE,
            stderr=subprocess.STDOUT,
            text=True,
            start_new_session=True,
        )

    def run(self, *words: str | Path, **variables: str) -> Done:
        with self.start(*words, **variables) as process:
            out, _ = process.communicate(timeout=600)
        return subprocess.CompletedProcess(process.args, process.returncode, out)

    @property
    def results(self) -> Path:
        return self.path / f"results-{self.system}-{self.release}.tsv"

    def rows(self) -> list[dict[str, str]]:
        """The rows, once the file's form is checked."""
        text = self.results.read_text()
        assert text.startswith(f"# tracehost-kit\t{version()}\t")
        lines = [line.split("\t") for line in text.splitlines()]
        heading = lines.index(COLUMNS)
        assert all(line[0].startswith("# ") for line in lines[:heading])
        rows = [dict(zip(COLUMNS, line)) for line in lines[heading:] if line[0] in ("session", "case") and len(line) == 12]
        others = [line for line in lines[heading + 1 : -1] if line[0] not in ("session", "case")]
        assert all(line[0] == "difference" and len(line) == 4 or line[0].startswith("# build:") for line in others)
        assert lines[-1] == ["# end", str(len(rows))]
        return rows

    def names(self, part: str) -> list[str]:
        texts = [file.read_text() for file in sorted(self.path.glob(f"sessions/{part}-[0-9]*.txt"))]
        return [name for text in texts for name in re.findall("^# (.*)$", text, re.MULTILINE)]

    def verdicts(self) -> Counter[tuple[str, str]]:
        return Counter((row["part"], row["verdict"]) for row in self.rows())


def kit_archive(factory: pytest.TempPathFactory, library: Path) -> Path:
    """A kit with few sessions, which the workers of one run of pytest share."""
    file = shared_folder(factory) / "kit.tar.gz"
    return once(file, lambda: make_kit(file, library))


# ---- FreeBSD, as far as it can be had here


def as_freebsd(room: Room, settings: Path) -> None:
    """uname(1) and sysctl(8) of a machine that there isn't."""
    room.system, room.release = "FreeBSD", "14.9-NONE"
    room.put(
        "bin/uname", "#!/bin/sh\ncase $1 in -s) echo FreeBSD ;; -r) echo 14.9-NONE ;; -m) echo amd64 ;; *) echo none ;; esac\n"
    )
    settings.write_text("1\n")
    script = f"""#!/bin/sh
case $1 in
-n) [ "$2" = kern.kill_on_debugger_exit ] && cat '{settings}' ;;
kern.kill_on_debugger_exit=*) echo "${{1#*=}}" >>'{settings}.all' && echo "${{1#*=}}" >'{settings}' ;;
esac
"""
    room.put("bin/sysctl", script)
    room.environment["PATH"] = f"{room.path}/bin:{room.environment['PATH']}"


def case_compiler(room: Room, body: str) -> dict[str, str]:
    """A compiler of cases that makes this of each: $1 is the case."""
    room.put("bin/case.sh", f"#!/bin/sh\n{body}\n")
    compiler = room.put("bin/compile", '#!/bin/sh\nwhile [ "$1" != -o ]; do shift; done\ncp "${0%/*}/case.sh" "$2"\n')
    return {"CC": compiler.name, "PLAYER_CC": "cc"}


# ---- processes


def are_gone(marker: str) -> bool:
    for file in Path("/proc").glob("[0-9]*/cmdline"):
        try:
            if marker in file.read_bytes().decode(errors="replace"):
                return False
        except OSError:
            continue
    return True


def soon(holds: Callable[[], bool]) -> bool:
    end = time.monotonic() + 60
    while time.monotonic() < end:
        if holds():
            return True
        time.sleep(0.01)
    return False
