"""What a call of each function of FreeBSD's headers is in a program of tracehost-cc, by clients/posix/tests/FUNCTIONS.txt.

A program with the address of each is compiled, and the names that it has for the linker are looked up. A function that the
table doesn't have in the right row could reach the host unseen.
"""

from __future__ import annotations

import pathlib
import re
import subprocess
import sys

import pytest
from posix_kit import CC, POSIX, RUN

pytestmark = pytest.mark.usefixtures("posix")

TABLE = POSIX / "tests" / "FUNCTIONS.txt"
HEADERS = """sys/types.h sys/event.h sys/procdesc.h sys/ptrace.h sys/sysctl.h sys/time.h threads.h pty.h utmp.h unistd.h signal.h
pthread.h pthread_np.h semaphore.h time.h sys/wait.h grp.h crypt.h sys/swap.h sys/reboot.h sys/uio.h sys/stat.h poll.h spawn.h
sched.h stdlib.h sys/thr.h wordexp.h""".split()
KINDS = ("runtime", "refused", "absent", "host")


def table() -> dict[str, str]:
    """Each function's kind."""
    found: dict[str, str] = {}
    kind = ""
    for line in TABLE.read_text().splitlines():
        if not line.startswith(" "):
            continue
        words = line.split()
        if words[0] in KINDS:
            kind = words.pop(0)
        found.update(dict.fromkeys(words, kind))
    return found


def compiled(names: list[str], folder: pathlib.Path) -> subprocess.CompletedProcess[str]:
    lines = [f"#include <{header}>" for header in HEADERS]
    lines += ["const void *const table[] = {", *(f"(const void *){name}," for name in names), "};"]
    (folder / "functions.c").write_text("\n".join(lines))
    words = [str(CC), "-w", "-c", "-o", str(folder / "functions.o"), str(folder / "functions.c")]
    return subprocess.run(words, capture_output=True, text=True)


def test_each_function_is_as_the_table_has_it(tmp_path: pathlib.Path) -> None:
    kinds = table()
    there = [name for name, kind in kinds.items() if kind != "absent"]
    done = compiled(there, tmp_path)
    assert done.returncode == 0, done.stderr
    output = subprocess.run(["nm", "-u", tmp_path / "functions.o"], capture_output=True, text=True, check=True).stdout
    symbols = set(re.findall(r"U (\S+)", output))
    headers = "".join((POSIX / "include/tracehost" / name).read_text() for name in ("names.h", "reported.h"))
    redirected = dict(re.findall(r"#pragma redefine_extname (\S+) (\S+)", headers))
    redirected["sigpause"] = "tracehost_sigpause"  # a macro of posix.h
    for name in there:
        symbol = redirected.get(name, name)
        kind = "refused" if symbol.startswith("tracehost_refused_") else "runtime"
        if symbol == name or symbol.startswith("tracehost_host_"):  # the host's, which PT_SYSCALL reports
            kind = "host"
        assert symbol in symbols and kinds[name] == kind, name


def test_no_header_declares_what_is_absent(tmp_path: pathlib.Path) -> None:
    absent = [name for name, kind in table().items() if kind == "absent"]
    done = compiled(absent, tmp_path)
    assert set(re.findall(r"[‘'](\w+)[’'] undeclared", done.stderr)) == set(absent)


@pytest.mark.parametrize("name", ["sigqueue", "setpgrp", "tcsetpgrp", "thrd_create", "reboot", "_Fork"])
def test_what_is_refused_ends_the_run_by_name(name: str, tmp_path: pathlib.Path) -> None:
    includes = "".join(f"#include <{header}>\n" for header in HEADERS)
    (tmp_path / "program.c").write_text(
        f"{includes}int main(void) {{ ((void (*)(long, long, long)){name})(0, 0, 0); return 0; }}\n"
    )
    subprocess.run([CC, "-w", "-o", tmp_path / "program", tmp_path / "program.c"], check=True)
    done = subprocess.run([sys.executable, RUN, "--no-record", tmp_path / "program"], capture_output=True, text=True, timeout=60)
    assert done.returncode == 1 and f"calls {name}, which isn't among the calls of this runtime" in done.stderr
