"""Programs that nobody here wrote: Debian's source packages, downloaded into a folder that is removed afterwards, and
commands of a user who may do nothing else."""

from __future__ import annotations

import os
import pathlib
import shutil
import subprocess
import tempfile
from collections.abc import Iterator
from typing import Any

import pytest

from posix_kit import POSIX

SUITE = os.environ.get("TRACEHOST_OUTSIDE_SUITE") == "1"
SECONDS = 120
APT = """\
Dir::Etc::SourceList "{room}/sources.list"; Dir::Etc::SourceParts "/dev/null"; Dir::State "{room}/state"; Dir::Cache "{room}/cache";
"""
SOURCES = "deb-src [signed-by=/usr/share/keyrings/debian-archive-keyring.gpg] http://deb.debian.org/debian bookworm main\n"


class Outside:
    """Runs commands as an unprivileged user, in a folder of that user's."""

    def __init__(self, room: pathlib.Path, program: pathlib.Path) -> None:
        self.room = room
        names = {"HOME": room, "TMPDIR": room, "TRACEHOST": program, "APT_CONFIG": room / "apt.conf"}
        self._environment = {**os.environ, **{name: str(path) for name, path in names.items()}}
        self._environment.pop("XDG_CACHE_HOME", None)
        self._user: dict[str, Any] = {"user": "nobody", "group": "nogroup", "extra_groups": []} if os.geteuid() == 0 else {}
        self._lists_are_there = False
        if self._user:
            room.chmod(0o755)
            shutil.chown(room, "nobody", "nogroup")

    def run(self, words: list[object], seconds: float = SECONDS) -> subprocess.CompletedProcess[str]:
        return subprocess.run(
            [str(word) for word in words], capture_output=True, text=True, errors="replace", timeout=seconds,
            cwd=self.room, env=self._environment, stdin=subprocess.DEVNULL, **self._user,
        )  # fmt: skip

    def _download(self, package: str, *options: str) -> None:
        """The files of the package's source; skips the test if they can't be had."""
        for command in ("apt-get", "dpkg-source"):
            if shutil.which(command) is None:
                pytest.skip(f"{command} isn't installed: no source packages")
        for folder in ("state/lists/partial", "cache/archives/partial"):
            self.run(["mkdir", "-p", folder])
        (self.room / "sources.list").write_text(SOURCES)
        (self.room / "apt.conf").write_text(APT.format(room=self.room))
        update = [] if self._lists_are_there else [["apt-get", "-q", "update"]]
        for words in (*update, ["apt-get", "-q", "source", "--download-only", *options, package]):
            done = self.run([*words], 300)
            if done.returncode != 0:
                pytest.skip(f"{' '.join(words)}: {done.stderr.strip()[-200:]}")
        self._lists_are_there = True

    def source(self, package: str) -> pathlib.Path:
        """The package's folder, unpacked here, with Debian's changes. The environment may name one: PACKAGE in capitals."""
        given = os.environ.get(package.upper())
        if given:
            return pathlib.Path(given)
        self._download(package)
        done = self.run(["sh", "-c", f"dpkg-source -x {package}_*.dsc {package}"])
        assert done.returncode == 0, done.stderr
        return self.room / package

    def upstream(self, package: str, *parts: str) -> pathlib.Path:
        """The folder of these parts of the package, as its authors have published them."""
        given = os.environ.get(package.upper().replace("-", "_"))
        if given:
            return pathlib.Path(given)
        self._download(package, "--tar-only")
        folder = self.room / package
        [archive] = self.room.glob(f"{package}_*.orig.tar.*[xg]z")
        wildcards = [f"*/{part}" for part in parts]
        words = ["tar", "-C", folder, "--strip-components=1", "--wildcards", "-xf", archive, *wildcards]
        for command in (["mkdir", folder], words):
            done = self.run([*command])
            assert done.returncode == 0, done.stderr
        archive.unlink()
        return folder


def outside_room(program: pathlib.Path) -> Iterator[Outside]:
    """For a fixture."""
    root = os.geteuid() == 0  # whose folders for temporary files another user may not enter
    room = pathlib.Path(tempfile.mkdtemp(prefix="tracehost-outside-", dir="/tmp" if root else None))
    try:
        made = Outside(room, program)
        if made.run(["test", "-r", POSIX / "tracehost-run"]).returncode != 0:
            pytest.skip("this folder can't be read by an unprivileged user, and no foreign program is run as root")
        yield made
    finally:
        shutil.rmtree(room, ignore_errors=True)
