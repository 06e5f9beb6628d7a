"""What a kit has, and what tells one from another: for the commands `kit` and `kernel_results`."""

from __future__ import annotations

import hashlib
import re
import subprocess
from collections.abc import Iterator
from pathlib import Path
from typing import NamedTuple

TOP = Path(__file__).resolve().parent.parent
CASES = "clients/posix/tests"
# patterns of the repository's files, and the folder of the kit that they are in
_FILES = {
    "kernel/kit/*": "",
    "kernel/*.[ch]": "player/",
    "kernel/Makefile": "player/",
    "kernel/example.txt": "player/",
    "kernel/differences/freebsd.tsv": "differences/",
    "kernel/differences/linux.tsv": "differences/",
    f"{CASES}/*_test.c": "cases/",
    f"{CASES}/*.h": "cases/",
    f"{CASES}/DIFFERENCES.txt": "cases/",
    "LICENSE": "",
}
# what sessions are made of besides
_MAKER = ("kernel/sessions/*.*", "kernel/*.py", "format/*.toml")
# names that the repository has without the dot, or with an ending
_RENAMED = {"cirrus.yml": ".cirrus.yml", "README.md": "README"}


class Sessions(NamedTuple):
    """Sessions of a part: which, and how many."""

    kind: str
    users: int
    seed: int
    number: int

    def names(self, count: int) -> list[str]:
        return [f"{self.kind} {self.seed} {number}" for number in range(count)]


PARTS = {
    "shared": Sessions("shared", 1, 1, 2000),
    "shared-users": Sessions("shared", 3, 2, 500),
    "freebsd": Sessions("all", 1, 3, 2000),
    "freebsd-users": Sessions("all", 3, 4, 500),
}


def of_program(*words: str) -> str:
    ran = subprocess.run(words, cwd=TOP, stdout=subprocess.PIPE, text=True, check=True)
    return ran.stdout.strip()


def version() -> str:
    return of_program("tools/version")


def case_names() -> Iterator[str]:
    """PROGRAM CASE."""
    for source in sorted((TOP / CASES).glob("*_test.c")):
        for case in re.findall(r"ATF_TP_ADD_TC\(tp, (.*)\);", source.read_text(encoding="utf-8")):
            yield f"{source.stem} {case}"


class Kit(dict[str, bytes]):
    """The files of a kit, by their names in it."""

    identity = ""

    @classmethod
    def of_tree(cls) -> Kit:
        """All but the sessions, and the identity of the kit whose sessions this tree makes."""
        kit = cls()
        for pattern, folder in _FILES.items():
            for file in sorted(TOP.glob(pattern)):
                kit[folder + _RENAMED.get(file.name, file.name)] = file.read_bytes()
        digest = hashlib.sha256(of_program("tools/sources", "tracehost_c").encode())
        made_of = {str(file.relative_to(TOP)): file.read_bytes() for pattern in _MAKER for file in TOP.glob(pattern)}
        for name, content in sorted({**kit, **made_of}.items()):
            digest.update(b"%s %d\n%s" % (name.encode(), len(content), content))
        digest.update(repr(sorted(PARTS.items())).encode())
        kit.identity = digest.hexdigest()
        return kit

    def set_version(self, percent: int) -> None:
        self["VERSION"] = f"{version()} {self.identity} {percent}\n".encode()
