"""FreeBSD debuggers that nobody here wrote, on the model: the FreeBSD code of delve, reptyr, gdb and LLDB, from Debian's source
packages, unchanged. clients/posix/tests/foreign has a driver for each, which says what is expected.

Each mode runs plain and under 20 seeds; TRACEHOST_TEST_SCALE multiplies them. gdb and LLDB take a minute to unpack and compile:
they run if that is more than 1, or TRACEHOST_OUTSIDE_SUITE is 1. Nothing of the packages stays; if they can't be had the tests are
skipped. DELVE, REPTYR, GDB and LLVM_TOOLCHAIN_14 may name unpacked ones. Nothing here runs as root.
"""

from __future__ import annotations

import pathlib
import shutil
import sys
from collections.abc import Iterator, Sequence
from concurrent.futures import ThreadPoolExecutor

import pytest

from outside_programs import SUITE, Outside, outside_room
from posix_kit import CC, JOBS, POSIX, RUN, SCALE

SCHEDULES = 20 * SCALE
FOREIGN = POSIX / "tests" / "foreign"
LLVM = "14"

pytestmark = pytest.mark.usefixtures("posix")


@pytest.fixture(scope="module")
def outside(program: pathlib.Path) -> Iterator[Outside]:
    yield from outside_room(program)


def need_time() -> None:
    if SCALE == 1 and not SUITE:
        pytest.skip("it runs if TRACEHOST_TEST_SCALE is more than 1, or TRACEHOST_OUTSIDE_SUITE is 1")


def compile_with(outside: Outside, *words: object, compiler: str = "cc") -> None:
    done = outside.run(["env", f"CC={compiler}", CC, "--freebsd", "-g", *words], 600)
    assert done.returncode == 0, done.stderr[-4000:]


def passes(outside: Outside, *words: object) -> None:
    """The plain schedule and all seeds."""
    done = outside.run([sys.executable, RUN, "--no-record", "--schedules", SCHEDULES, *words], 120 * SCALE)
    assert done.returncode == 0 and f"{SCHEDULES + 1} schedules passed" in done.stderr, done.stderr


# ---- in C: the package's file, and its driver


def c_program(outside: Outside, name: str, source: pathlib.Path, headers: pathlib.Path) -> pathlib.Path:
    made, driver = outside.room / "programs" / name, outside.room / f"{name}_driver.o"
    outside.run(["mkdir", "-p", made.parent])
    compile_with(outside, "-w", "-c", "-o", outside.room / f"{name}.o", source)
    compile_with(outside, "-Wall", "-Wextra", "-Werror", "-I", headers, "-c", "-o", driver, FOREIGN / f"{name}.c")
    compile_with(outside, "-o", made, driver, outside.room / f"{name}.o")
    return made


@pytest.fixture(scope="module")
def delve(outside: Outside) -> pathlib.Path:
    native = outside.upstream("delve", "pkg/proc/native/*freebsd*") / "pkg/proc/native"
    return c_program(outside, "delve", native / "proc_freebsd.c", native)


@pytest.fixture(scope="module")
def reptyr(outside: Outside) -> pathlib.Path:
    folder = outside.upstream("reptyr", "*.h", "platform/*")
    return c_program(outside, "reptyr", folder / "platform/freebsd/freebsd_ptrace.c", folder)


def test_delve_finds_each_thread_at_its_breakpoint(outside: Outside, delve: pathlib.Path) -> None:
    passes(outside, delve)


@pytest.mark.parametrize("words", [[], ["fopen"]], ids=["getppid", "fopen"])
def test_reptyr_makes_calls_in_its_target(outside: Outside, reptyr: pathlib.Path, words: Sequence[str]) -> None:
    passes(outside, reptyr, *words)


# ---- gdb: its target, and what it has of threads and inferiors

GDB = """gdb/fbsd-nat.c gdb/inf-ptrace.c gdb/inf-child.c gdb/thread.c gdb/thread-iter.c gdb/inferior.c gdb/target.c
    gdb/process-stratum-target.c gdb/target-connection.c gdb/target/waitstatus.c gdb/observable.c gdbsupport/btrace-common.cc
    gdbsupport/common-exceptions.cc gdbsupport/common-utils.cc gdbsupport/environ.cc gdbsupport/event-pipe.cc
    gdbsupport/ptid.cc gdbsupport/signals.cc""".split()
GDB_HEADERS = "gdb/*.h gdb/target-delegates.c gdb/*.def gdbsupport/*.h gdbsupport/*.def include/* bfd/*.h gnulib/import/*.h".split()


@pytest.fixture(scope="module")
def gdb(outside: Outside) -> pathlib.Path:
    need_time()
    if not pathlib.Path("/usr/include/bfd.h").exists():
        pytest.skip("needs binutils-dev")
    folder = outside.upstream("gdb", *GDB_HEADERS, *GDB)
    include = [FOREIGN / "gdb", *(folder / path for path in ("gdb", ".", "include", "gdbsupport", "bfd", "gnulib/import"))]
    flags = ["-std=gnu++17", *(f"-I{path}" for path in include)]

    def compiled(path: pathlib.Path, *warnings: str) -> pathlib.Path:
        made = outside.room / f"gdb_{path.stem}.o"
        compile_with(outside, *flags, *warnings, "-c", "-o", made, "-x", "c++", path, compiler="g++")
        return made

    with ThreadPoolExecutor(JOBS) as pool:
        objects = list(pool.map(lambda name: compiled(folder / name, "-w"), GDB))
    # what isn't called may be missing
    link = ["-no-pie", "-Wl,--unresolved-symbols=ignore-all"]
    made = outside.room / "gdb_driver"
    compile_with(outside, "-o", made, compiled(FOREIGN / "gdb.cpp", "-Wall"), *objects, *link, compiler="g++")
    return made


@pytest.mark.parametrize("mode", ["threads", "signal", "fork", "vfork", "attach"])
def test_gdb_debugs(outside: Outside, gdb: pathlib.Path, mode: str) -> None:
    passes(outside, gdb, mode)


# ---- LLDB: files that are compiled together, in the order of these lines, and those that are compiled by themselves

SYSTEM = "llvm/BinaryFormat/ELF.h sys/ptrace.h sys/user.h sys/sysctl.h".split()
TOGETHER = {
    "debugger": """Plugins/Process/FreeBSD/NativeProcessFreeBSD Plugins/Process/FreeBSD/NativeThreadFreeBSD
        Plugins/Process/FreeBSD/NativeRegisterContextFreeBSD Plugins/Process/FreeBSD/NativeRegisterContextFreeBSD_x86_64
        Host/common/MainLoop Host/posix/ProcessLauncherPosixFork""",
    "host": """Host/common/FileAction Host/common/File Host/common/HostNativeThreadBase Host/common/HostProcess
        Host/common/HostThread Host/common/MonitoringProcessLauncher Host/common/NativeProcessProtocol
        Host/common/NativeRegisterContext Host/common/NativeThreadProtocol Host/common/NativeWatchpointList Host/common/PipeBase
        Host/common/ProcessLaunchInfo Host/common/HostInfoBase Host/common/ThreadLauncher Host/posix/FileSystemPosix
        Host/posix/HostInfoPosix Host/posix/HostProcessPosix Host/posix/HostThreadPosix Host/posix/PipePosix
        Host/freebsd/Host Host/freebsd/HostInfoFreeBSD Host/common/Host Plugins/Process/POSIX/ProcessPOSIXLog
        Plugins/Process/Utility/RegisterContextFreeBSD_x86_64 Plugins/Process/Utility/NativeRegisterContextRegisterInfo
        Plugins/Process/Utility/RegisterContext_x86 Plugins/Process/Utility/NativeRegisterContextDBReg_x86
        Plugins/Process/Utility/AuxVector""",
    "others": """Utility/LLDBAssert Utility/Reproducer Utility/ReproducerProvider Utility/StructuredData
        Utility/TildeExpressionResolver Utility/DataEncoder Utility/GDBRemote Host/common/FileSystem""",
}
ALONE = """Host/common/PseudoTerminal Plugins/Process/POSIX/NativeProcessELF Host/common/Terminal Utility/Timer
    Plugins/Process/Utility/RegisterContextFreeBSD_i386 Plugins/Process/Utility/RegisterContextPOSIX_x86"""
UNUSED = "DataEncoder GDBRemote LLDBAssert Reproducer ReproducerProvider StructuredData TildeExpressionResolver Timer"
"""Files of Utility that aren't compiled with the rest of it. Those of traces aren't compiled."""


def together(outside: Outside, name: str, sources: Sequence[pathlib.Path], headers: Sequence[str] = ()) -> pathlib.Path:
    """A file that includes these: each has the same headers."""
    made = outside.room / f"lldb_{name}.cpp"
    made.write_text("".join(f"#include <{header}>\n" for header in headers) + "".join(f'#include "{path}"\n' for path in sources))
    return made


def lldb_files(outside: Outside, source: pathlib.Path) -> list[pathlib.Path]:
    files = [
        together(outside, name, [source / f"{name}.cpp" for name in names.split()], SYSTEM if name == "host" else ())
        for name, names in TOGETHER.items()
    ]
    utility = sorted(path for path in source.glob("Utility/*.cpp") if path.stem not in UNUSED.split() and "Trace" not in path.stem)
    return [
        *files,
        together(outside, "utility", utility),
        *(source / f"{name}.cpp" for name in ALONE.split()),
        FOREIGN / "lldb.cpp",
    ]


@pytest.fixture(scope="module")
def lldb(outside: Outside) -> pathlib.Path:
    need_time()
    if shutil.which("clang++") is None or shutil.which(f"llvm-config-{LLVM}") is None:
        pytest.skip(f"needs clang and llvm-{LLVM}-dev")
    folder = outside.upstream(f"llvm-toolchain-{LLVM}", "lldb/include/*", "lldb/source/*") / "lldb"
    include = [FOREIGN, folder / "include", folder / "source", f"/usr/include/llvm-{LLVM}", f"/usr/include/llvm-c-{LLVM}"]
    flags = ["-std=c++14", "-fno-rtti", "-fno-exceptions", "-w", "-O0", "-g0", *(f"-I{path}" for path in include)]
    flags += [f"-D__STDC_{name}_MACROS" for name in ("CONSTANT", "FORMAT", "LIMIT")]

    def compiled(path: pathlib.Path) -> pathlib.Path:
        made = outside.room / f"{path.stem}.o"
        compile_with(outside, *flags, "-c", "-o", made, path, compiler="clang++")
        return made

    with ThreadPoolExecutor(JOBS) as pool:
        objects = list(pool.map(compiled, lldb_files(outside, folder / "source")))
    made = outside.room / "lldb"
    # what isn't called may be missing
    link = ["-no-pie", "-Wl,--unresolved-symbols=ignore-all", f"-L/usr/lib/llvm-{LLVM}/lib", f"-lLLVM-{LLVM}"]
    compile_with(outside, "-o", made, *objects, *link, compiler="clang++")
    return made


@pytest.mark.parametrize("mode", ["launch", "attach", "watch", "fork", "vfork"])
def test_lldb_debugs(outside: Outside, lldb: pathlib.Path, mode: str) -> None:
    passes(outside, lldb, mode)


def test_a_thread_misses_the_breakpoint_that_lldb_steps_over(outside: Outside, lldb: pathlib.Path) -> None:
    """While LLDB steps one thread without its breakpoint a new one is born, which LLDB lets go on: it runs through the place."""
    done = outside.run([sys.executable, RUN, "--no-record", lldb, "threads"])
    assert done.returncode == 0, done.stderr
    done = outside.run([sys.executable, RUN, "--no-record", "--schedules", 200, lldb, "threads"], 600)
    assert done.returncode == 1 and "the first process exited with status 1" in done.stderr, done.stderr
    assert "exit code 7, breakpoints 3, steps 3" in done.stdout + done.stderr, done.stderr
