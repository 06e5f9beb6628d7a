"""Programs that were linked with the last release's library run with the present one: no call and no struct has changed.

    python3 tests/python/test_library_abi.py      writes the present interface to library/tracehost.abi, for a release

library/tracehost.abi is the interface of the last release, as abidw writes it. The present one is read from the debug
information of stand-ins, one for each call of include/tracehost.h.
"""

from __future__ import annotations

import ctypes
import pathlib
import platform
import re
import shutil
import subprocess
import sys
import tempfile

import pytest

TOP = pathlib.Path(__file__).resolve().parents[2]
RELEASE = TOP / f"release/{platform.machine()}-linux"
sys.path.insert(0, str(TOP / "clients/python"))

from tracehost import library as client  # noqa: E402

# a pointer and a tag; and so many words of 32 bits
SIZES = {
    "tracehost": 16, "tracehost_reply": 19 * 4, "tracehost_rule": 4 * 4, "tracehost_process": 11 * 4, "tracehost_lwp": 14 * 4,
}  # fmt: skip

EXPORTED = re.compile(r"\btracehost_\w+;")

needs_abidiff = pytest.mark.skipif(
    not (shutil.which("abidiff") and shutil.which("cc")), reason="needs abidiff, of abigail-tools, and cc"
)


def interface(header: pathlib.Path, room: pathlib.Path) -> pathlib.Path:
    """A shared object with the calls of the header in this folder, and their types. The names are without versions, since
    abidiff doesn't compare the types of a call that has got a version.
    """
    text = (header / "tracehost.h").read_text(encoding="utf-8")
    calls = re.findall(r"^(?:uint32_t|const char \*) ?tracehost_\w+\([^;]*\);", text, re.MULTILINE)
    assert len(calls) == len(EXPORTED.findall((TOP / "library/tracehost.map").read_text(encoding="utf-8")))
    source, made = room / "interface.c", room / "interface.so"
    source.write_text("#include <tracehost.h>\n" + "".join(f"{call[:-1]} {{ return 0; }}\n" for call in calls))
    words = ["-std=c11", "-w", "-g", "-O1", "-shared", "-fPIC", "-I", str(header)]
    subprocess.run(["cc", *words, "-o", str(made), str(source)], check=True)
    return made


def changes(old: pathlib.Path, new: pathlib.Path) -> tuple[int, str]:
    """How many calls and symbols have gone or changed, and what abidiff says. It fails if abidiff does."""
    done = subprocess.run(["abidiff", str(old), str(new)], stdout=subprocess.PIPE, stderr=subprocess.STDOUT, text=True)
    assert done.returncode & 3 == 0, done.stdout
    found = re.findall(r"summary: (\d+) Removed(?:, (\d+) Changed)?", done.stdout)
    assert found or done.returncode == 0, done.stdout
    return sum(int(number or 0) for pair in found for number in pair), done.stdout


@needs_abidiff
def test_the_header_has_what_the_last_release_had(tmp_path: pathlib.Path) -> None:
    count, said = changes(TOP / "library/tracehost.abi", interface(TOP / "include", tmp_path))
    assert count == 0, said


@needs_abidiff
@pytest.mark.parametrize(
    ("was", "now"),
    [
        ("    uint32_t number; ", "    uint64_t number; "),
        ("    uint32_t stop_pid;", "    uint32_t stop_pid, more;"),
        ("uint64_t tag;", "uint32_t tag;"),
        ("    uint32_t lwp;\n    uint32_t pid;\n", "    uint32_t pid;\n    uint32_t lwp;\n"),
    ],
)
def test_a_changed_struct_is_found(was: str, now: str, tmp_path: pathlib.Path) -> None:
    text = (TOP / "include/tracehost.h").read_text(encoding="utf-8")
    assert text.count(was) == 1
    (tmp_path / "tracehost.h").write_text(text.replace(was, now), encoding="utf-8")
    count, said = changes(TOP / "library/tracehost.abi", interface(tmp_path, tmp_path))
    assert count > 0, said


@needs_abidiff
@pytest.mark.skipif(not (RELEASE / "libtracehost.so").exists(), reason="there is no release for this machine")
def test_the_library_exports_what_the_last_release_did(library: pathlib.Path) -> None:
    count, said = changes(RELEASE / "libtracehost.so", library / "libtracehost.so")
    assert count == 0, said


@pytest.mark.skipif(not shutil.which("cc"), reason="needs cc")
def test_the_sizes_of_the_header(tmp_path: pathlib.Path) -> None:
    text = "".join(f'_Static_assert(sizeof({name}) == {size}, "{name}");\n' for name, size in SIZES.items())
    (tmp_path / "sizes.c").write_text(f"#include <tracehost.h>\n{text}")
    subprocess.run(["cc", "-std=c11", "-fsyntax-only", "-I", str(TOP / "include"), str(tmp_path / "sizes.c")], check=True)


def test_the_structs_of_the_python_client() -> None:
    structs = (client.Handle, client.Reply, client.CRule, client.CProcess, client.CLwp)
    assert [ctypes.sizeof(struct) for struct in structs] == list(SIZES.values())


def write() -> None:
    """Writes the present interface as that of the last release."""
    words = ["--no-show-locs", "--no-corpus-path", "--no-comp-dir-path", "--drop-private-types", "--type-id-style", "hash"]
    with tempfile.TemporaryDirectory() as room:
        made = interface(TOP / "include", pathlib.Path(room))
        command = ["abidw", *words, "--headers-dir", str(TOP / "include"), str(made)]
        text = subprocess.run(command, stdout=subprocess.PIPE, text=True, check=True).stdout
    (TOP / "library/tracehost.abi").write_text(re.sub(r" path='[^']*/interface.c'", " path='interface.c'", text), encoding="utf-8")


if __name__ == "__main__":
    write()
