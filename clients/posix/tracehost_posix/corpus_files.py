"""The files of corpora: of folders that people and fuzzers fill, and of lists."""

from __future__ import annotations

import os
from collections.abc import Callable, Iterator, Sequence
from typing import NamedTuple, Optional

from .setting import Refused

_BESIDE = (".out", ".status", ".err")
"""What is beside NAME.json: its lines, the program's status if that isn't 0, and what it then says."""


class File(NamedTuple):
    """A file of a corpus, and what is to come of it."""

    scenario: str
    expected: Optional[str]
    """The file of its lines, if it has any."""
    fault: Optional[str] = None
    """It is to be refused with this line; any will do if it is empty."""

    @property
    def is_scenario(self) -> bool:
        """Whether its name says so: others are whatever a fuzzer keeps."""
        return self.scenario.endswith(".json")


class Corpus:
    """The files that were named, and those in the folders that were named."""

    def __init__(self, names: Sequence[str], tell: Callable[[str], None]) -> None:
        self._names, self._tell = names, tell
        self.missed: list[tuple[str, str]] = []
        """Files that can't be run, and why."""

    def files(self) -> Iterator[File]:
        for name in self._names:
            if os.path.isdir(name):
                yield from self._folder(name)
            else:
                yield from self._list(name)

    def _list(self, name: str) -> Iterator[File]:
        """A list as that of --expect-list; a row without a tab is a scenario that is only run."""
        try:
            with open(name, encoding="utf-8", errors="surrogateescape", newline="\n") as file:
                for line in file:
                    scenario, tab, expected = line.rstrip("\n").partition("\t")
                    if scenario:
                        yield File(scenario, expected if tab else None)
        except OSError as why:
            raise Refused(f"{name}: {why.strerror}") from why

    def _folder(self, name: str) -> Iterator[File]:
        """Files in order of their names. What is beside `x.json` is about it, and hidden ones are a fuzzer's own."""
        try:
            with os.scandir(name) as found:
                entries = sorted((entry for entry in found if not entry.name.startswith(".")), key=lambda entry: entry.name)
        except OSError as why:
            self.miss(name, why.strerror)
            return
        names = {entry.name for entry in entries}
        for entry in entries:
            stem, end = os.path.splitext(entry.name)
            if entry.is_dir(follow_symlinks=False):
                yield from self._folder(entry.path)
            elif not _is_file(entry):
                self.miss(entry.path, "it is no file")
            elif end == ".json":
                yield from self._scenario(entry.path, {beside for beside in _BESIDE if stem + beside in names})
            elif not (end in _BESIDE and f"{stem}.json" in names):
                yield File(entry.path, None)

    def _scenario(self, path: str, beside: set[str]) -> Iterator[File]:
        stem, fault = path[: -len(".json")], None
        try:
            if ".status" in beside and _text(f"{stem}.status").strip() != "0":
                fault = (_text(f"{stem}.err").splitlines() or [""])[0] if ".err" in beside else ""
        except OSError as why:
            self.miss(path, why.strerror)
            return
        yield File(path, f"{stem}.out" if fault is None and ".out" in beside else None, fault)

    def miss(self, name: str, why: str) -> None:
        self.missed.append((name, why))
        self._tell(f"{shown(name)}: {why}")


def _text(path: str) -> str:
    with open(path, encoding="utf-8", errors="surrogateescape") as file:
        return file.read()


def _is_file(entry: os.DirEntry[str]) -> bool:
    try:
        return entry.is_file()
    except OSError:  # a link in a circle
        return False


def shown(name: str) -> str:
    """A name as a line may have it."""
    return name if name.isprintable() else ascii(name)[1:-1]
