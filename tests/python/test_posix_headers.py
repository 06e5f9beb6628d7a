"""The numbers and structures that a program of tracehost-cc sees, compared with copies of FreeBSD's headers that others keep.
What isn't FreeBSD's is in clients/posix/tests/HEADERS.txt, with its reason, and nothing else is."""

from __future__ import annotations

import os
import re
import subprocess
from collections.abc import Iterable, Mapping
from pathlib import Path

import pytest

import freebsd_headers
from c_programs import output
from freebsd_headers import Layout
from posix_kit import CC, POSIX, RUN

INCLUDE = POSIX / "include"
TABLE = POSIX / "tests" / "HEADERS.txt"
OWN = [str(path.relative_to(INCLUDE)) for path in sorted(INCLUDE.rglob("*.h")) if path.parent.name != "tracehost"]
NOT_INCLUDED = {"atf-c.h", "kvm.h", "libprocstat.h", "machine/ptrace.h", "sys/exec.h"}
HOST = """aio.h arpa/inet.h dirent.h dlfcn.h err.h errno.h fcntl.h fnmatch.h ftw.h glob.h ifaddrs.h inttypes.h langinfo.h limits.h
    locale.h net/if.h netdb.h netinet/in.h netinet/tcp.h nl_types.h poll.h pthread.h regex.h sched.h semaphore.h stddef.h stdio.h
    stdlib.h string.h sys/file.h sys/ioctl.h sys/ipc.h sys/mman.h sys/msg.h sys/param.h sys/select.h sys/sem.h sys/shm.h
    sys/socket.h sys/stat.h sys/statvfs.h sys/time.h sys/types.h sys/uio.h sys/un.h sysexits.h syslog.h termios.h unistd.h
    utmpx.h wordexp.h""".split()
LEAST = {"x/sys": 700, "runtime": 50, "syscall": 3, "libc": 1000}
"""So many names of a copy there are here at least."""
LEAST_STRUCTURES = 40

pytestmark = pytest.mark.skipif(
    not freebsd_headers.are_there(), reason="needs golang-golang-x-sys-dev, golang-1.19-src and librust-libc-dev"
)


class Listed:
    """The table: paragraphs, each with a reason and the names it holds for."""

    def __init__(self) -> None:
        self.reasons: dict[str, set[str]] = {}
        for part in re.split(r"\n\n+", re.sub(r"^#.*\n", "", TABLE.read_text(), flags=re.M).strip()):
            reason, *names = part.splitlines()
            assert all(line.startswith("    ") for line in names), part
            self.reasons.setdefault(reason, set()).update(re.findall(r"struct \w+|\w+", " ".join(names)))
        self.in_no_copy = self.reasons.pop("No copy has these names.")
        self.names = set().union(*self.reasons.values())
        self.structures = {name.removeprefix("struct ") for name in self.names if name.startswith("struct ")}
        self.numbers = self.names - {f"struct {name}" for name in self.structures}


LISTED = Listed()


def values(room: Path, expressions: Iterable[str]) -> dict[str, int]:
    """The values of those expressions that compile, as a program prints them."""
    headers = "".join(f"#include <{header}>\n" for header in (*HOST, *(name for name in OWN if name not in NOT_INCLUDED)))
    asked = list(dict.fromkeys(expressions))
    lines = [f"long long tracehost_{i}(void) {{ return (long long)({each}); }}\n" for i, each in enumerate(asked)]
    source = room / "compiles.c"
    source.write_text(headers + "".join(lines))
    words: list[str | Path] = [CC, "--freebsd", "-w", "-fsyntax-only", source]
    errors = subprocess.run(words, env={**os.environ, "LC_ALL": "C"}, capture_output=True, text=True, check=False).stderr
    failed = set(map(int, re.findall(r"In function .tracehost_(\d+).:", errors)))
    there = [each for i, each in enumerate(asked) if i not in failed]
    body = "".join(f'\tprintf("%lld\\n", (long long)({each}));\n' for each in there)
    (room / "main.c").write_text(f"{headers}int main(void)\n{{\n{body}\treturn 0;\n}}\n")
    output(CC, "--freebsd", "-w", "-o", room / "main", room / "main.c")
    return dict(zip(there, map(int, output(RUN, room / "main").splitlines()), strict=True))


def defined_names() -> set[str]:
    """The names of numbers that our headers define."""
    texts = (file.read_text() for file in INCLUDE.rglob("*.h"))
    return {name for text in texts for name in re.findall(r"^#\s*define\s+([A-Z]\w+)[ \t]+\S", text, re.M)}


def same(one: int, other: int) -> bool:
    """A number of 32 bits may be signed in one of them."""
    return one == other or (all(-(1 << 31) <= each < 1 << 32 for each in (one, other)) and (one - other) % (1 << 32) == 0)


# ---- numbers


@pytest.fixture(scope="module")
def numbers(tmp_path_factory: pytest.TempPathFactory) -> dict[str, int]:
    """The numbers that a program sees: those of the copies' names, and of our own."""
    asked = defined_names().union(*freebsd_headers.numbers().values())
    return values(tmp_path_factory.mktemp("numbers"), sorted(asked))


@pytest.mark.parametrize("copy", LEAST)
def test_numbers(numbers: Mapping[str, int], copy: str) -> None:
    there = freebsd_headers.numbers()[copy]
    common = numbers.keys() & there.keys()
    assert len(common) >= LEAST[copy]
    differ = {name for name in common if not same(numbers[name], there[name])}
    assert differ == common & LISTED.numbers


def test_each_name_that_we_define_is_in_a_copy_or_listed(numbers: Mapping[str, int]) -> None:
    copied = set().union(*freebsd_headers.numbers().values())
    assert (defined_names() & numbers.keys()) - copied == LISTED.in_no_copy


def test_each_listed_number_is_there(numbers: Mapping[str, int]) -> None:
    copied = set().union(*freebsd_headers.numbers().values())
    assert LISTED.numbers - (copied & numbers.keys()) == set()


# ---- structures


def members_of(kind: str, layout: Layout) -> dict[str, tuple[str, str]]:
    """What a program prints for each member's place and size."""
    return {name: (f"offsetof({kind}, {name})", f"sizeof((({kind} *)0)->{name})") for name in layout.members}


def layout_here(seen: Mapping[str, int], kind: str, copy: Layout) -> Layout:
    """A structure as a program sees it, with those of the copy's members that it has."""
    members = {
        name: (seen[place], seen[size]) for name, (place, size) in members_of(kind, copy).items() if place in seen and size in seen
    }
    return Layout(seen[f"sizeof({kind})"], members)


def test_the_copy_is_read_rightly() -> None:
    """FreeBSD's <sys/user.h> asserts these sizes."""
    copies = freebsd_headers.Structures().layouts()
    sizes = {"kinfo_proc": 1088, "kinfo_file": 1392, "kinfo_vmentry": 1160}
    assert {name: copies[name].size for name in sizes} == sizes


def test_structures(tmp_path: Path) -> None:
    copies = freebsd_headers.Structures().layouts()
    kinds = {name: (f"struct {name}", name) for name in copies}
    asked = [
        each
        for name, copy in copies.items()
        for kind in kinds[name]
        for each in (f"sizeof({kind})", *(each for pair in members_of(kind, copy).values() for each in pair))
    ]
    seen = values(tmp_path, asked)
    there = {name: next((kind for kind in kinds[name] if f"sizeof({kind})" in seen), None) for name in copies}
    here = {name: layout_here(seen, kind, copies[name]) for name, kind in there.items() if kind is not None}
    assert len(here) >= LEAST_STRUCTURES
    assert {name for name in here if here[name] != copies[name]} == LISTED.structures
