#!/usr/bin/env python3
"""Makes the library for C of the proved crate tracehost_c: libtracehost.a and libtracehost.so.

    tools/build_library.py                 proves tracehost_c over the libraries that `rt ci` has left, and makes both in
                                           its folder out/, where tools/library finds them
    tools/build_library.py ARCHIVE FOLDER  makes both in FOLDER of an archive that `rt lib` built in crates/tracehost_c

`rt ci` proves a static library and builds none. What it left of the crates below has only their statements, and `rt lib`
would prove these crates anew. So this gives `rattle build` the words that rt itself makes for the crate: that checks the
whole crate from nothing, as the gate did, and then compiles what it has just proved. tools/library_clang takes the place
of the kit's clang there, and asks it for unwind tables and for Intel's CET.

The words of its codes, and its version, are of library/words.c. Both files contain the kit's functions for memory, which call
malloc, realloc and free. They define the names tracehost_* and no others. All is done by the kit's own tools, and no time
or path gets into a file, so that the same sources give the same bits. The build id is a digest of these.
"""

from __future__ import annotations

import contextlib
import importlib.machinery
import importlib.util
import os
import shutil
import subprocess
import sys
import tempfile
from collections.abc import Iterator
from pathlib import Path
from typing import Any

from crates import TOP, Unavailable

KIT = Path(shutil.which("rt") or "/missing/bin/rt").resolve().parents[1]
CRATE = "tracehost_c"
OUT = TOP / "crates" / CRATE / "out"
NAMES = ("libtracehost.a", "libtracehost.so")
SONAME = "libtracehost.so.1"  # its number changes with a call or struct of include/tracehost.h that older programs don't fit
C_FLAGS = (
    "--target=x86_64-unknown-linux-gnu --no-default-config -std=c11 -march=x86-64-v2 -O2 -fPIC -fasynchronous-unwind-tables"
    " -fcf-protection=full -ffreestanding -nostdinc -Wall -Wextra -Wconversion -Werror"
).split()
HEADERS = ("-isystem", f"{TOP}/library/freestanding", "-I", f"{TOP}/include")


@contextlib.contextmanager
def over_the_gate(name: str) -> Iterator[Any]:
    """A crate as rt has it, over the libraries that `rt ci` has left of those below it. Nothing else works in them meanwhile."""
    sys.dont_write_bytecode = True
    loader = importlib.machinery.SourceFileLoader("rt", f"{KIT}/bin/rt")
    spec = importlib.util.spec_from_loader("rt", loader)
    assert spec is not None
    rt: Any = importlib.util.module_from_spec(spec)
    loader.exec_module(rt)
    rt.Crate.allowed = rt.handles_of(str(TOP))
    rt.rtlib.guarded()
    crate = rt.Crate(f"{TOP}/crates/{name}", str(TOP), {})
    locks = rt.rtlib.lock([*crate.below(), crate])
    try:
        if missing := [below.name for below in crate.below() if not Path(below.rlib).is_dir()]:
            raise Unavailable(f"run `rt ci` first: there is no library of {', '.join(missing)}")
        yield crate
    finally:
        for lock in locks:
            os.close(lock)


def toolchain(folder: str) -> str:
    """Makes a toolchain in the folder: the kit's, except that its clang is tools/library_clang. Returns the folder."""
    tools = KIT / "toolchain"
    os.mkdir(f"{folder}/bin")
    os.symlink(f"{tools}/lib", f"{folder}/lib")
    for name in ("ld.lld", "llvm-ar", "kit-clang"):
        os.symlink(f"{tools}/bin/clang", f"{folder}/bin/{name}")
    os.symlink(f"{TOP}/tools/library_clang", f"{folder}/bin/clang")
    return folder


def build_archive() -> str:
    """Proves the crate and builds its archive. Returns the archive's path."""
    archive = f"out/lib{CRATE}.a"
    with over_the_gate(CRATE) as crate, tempfile.TemporaryDirectory() as room:
        OUT.mkdir(exist_ok=True)
        words = [*crate.words(["--jobs", "1"], keeps=False), "--backend", "llvm"]
        with open(f"{OUT}/build.log", "w+", encoding="utf-8") as crate.out:
            status = crate.prove(["build", *words, "--toolchain", toolchain(room), "-o", archive])
            crate.out.seek(0)
            lines = crate.out.read().splitlines()
    if status:
        print(*lines[-20:], sep="\n", file=sys.stderr)
        raise Unavailable(f"{CRATE} is not proved (status {status}): the whole log is {OUT}/build.log")
    print(*(line for line in lines if line.startswith(("logic=proved", "axioms"))), sep="\n")
    return f"{TOP}/crates/{CRATE}/{archive}"


def link(archive: str, to: Path) -> None:
    """Makes libtracehost.a and libtracehost.so of the archive and the kit's functions for memory."""
    tools, archive = KIT / "toolchain", os.path.abspath(archive)

    def run(tool: str, *words: str) -> str:
        """Runs one of the tools, which are all one program, in the room."""
        command = subprocess.run([tool, *words], executable=f"{tools}/bin/clang", cwd=room, stdout=subprocess.PIPE, text=True)
        if command.returncode:
            raise Unavailable(f"{tool} failed with status {command.returncode}")
        return command.stdout

    with tempfile.TemporaryDirectory() as room:
        members = run("llvm-ar", "t", archive).split()
        run("llvm-ar", "x", archive)
        run("llvm-ar", "x", f"{KIT}/c/liblibc_c.a", "heap.pic.o")
        run("clang", *C_FLAGS, *HEADERS, "-c", f"{TOP}/library/words.c", "-o", "words.o")
        members += ["words.o", "heap.pic.o"]
        run("ld.lld", "-m", "elf_x86_64", "-r", "--threads=1", "-o", "tracehost.o", *members)
        run("llvm-objcopy", "--wildcard", "--keep-global-symbol=tracehost_*", "tracehost.o")
        run("llvm-ar", "rcsD", NAMES[0], "tracehost.o")
        words = f"-m elf_x86_64 -shared -soname {SONAME} --build-id=sha1 --hash-style=gnu"
        words += " -z relro -z now -z noexecstack -z defs --gc-sections --eh-frame-hdr --strip-all --threads=1"
        exported = ["--version-script", f"{TOP}/library/tracehost.map"]
        run("ld.lld", *words.split(), *exported, "-o", NAMES[1], "tracehost.o", f"{tools}/lib/libc.so.6")
        os.chmod(f"{room}/{NAMES[1]}", 0o755)
        to.mkdir(parents=True, exist_ok=True)
        for name in NAMES:
            shutil.copy(f"{room}/{name}", to / f"{name}.new")
            os.replace(to / f"{name}.new", to / name)


def main(words: list[str]) -> None:
    if words:
        archive, folder = words
        link(archive, Path(folder).resolve())
        return
    sources = subprocess.run([TOP / "tools/sources", CRATE], stdout=subprocess.PIPE, text=True, check=True).stdout.strip()
    link(build_archive(), OUT)
    subprocess.run([TOP / "tools/library", "--built", sources], check=True)


if __name__ == "__main__":
    if len(sys.argv) not in (1, 3):
        sys.exit("usage: tools/build_library.py [ARCHIVE FOLDER]")
    try:
        if not KIT.is_dir():
            raise Unavailable("the command rt of the Rattle kit is missing")
        main(sys.argv[1:])
    except Unavailable as why:
        sys.exit(f"build_library: {why}")
