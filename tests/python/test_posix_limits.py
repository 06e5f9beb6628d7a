"""What `tracehost-run` does beyond the bounds of the runtime: it goes on, or names the bound."""

from __future__ import annotations

import pathlib
import subprocess

import pytest

pytestmark = pytest.mark.usefixtures("posix")

POSIX = pathlib.Path(__file__).resolve().parents[2] / "clients" / "posix"


def run(program: pathlib.Path, flags: list[str], options: list[str], folder: pathlib.Path) -> subprocess.CompletedProcess[str]:
    subprocess.run([POSIX / "tracehost-cc", "-g", "-w", *flags, "-o", folder / "program", program], check=True)
    return subprocess.run(
        [POSIX / "tracehost-run", "--no-record", *options, folder / "program"], capture_output=True, text=True, timeout=300
    )


@pytest.mark.parametrize("levels", [300, 1000, 4000])
def test_handlers_run_within_handlers(levels: int, tmp_path: pathlib.Path) -> None:
    done = run(POSIX / "tests" / "programs" / "nested_handlers.c", [f"-DLEVELS={levels}"], [], tmp_path)
    assert (done.stdout, done.stderr, done.returncode) == (f"{levels} levels\n", "", 0)


def test_too_many_handlers_within_handlers_are_told(tmp_path: pathlib.Path) -> None:
    done = run(POSIX / "tests" / "programs" / "nested_handlers.c", ["-DLEVELS=30000"], ["--limit", "1000000"], tmp_path)
    assert (done.stdout, done.returncode) == ("", 3)
    assert "so many handlers run within handlers that the runtime's stack for them is used up" in done.stderr


@pytest.mark.parametrize("options", [[], ["--calls"], ["--seed", "7"]], ids=" ".join)
def test_a_timer_that_rings_for_nobody_ends_the_run(options: list[str], tmp_path: pathlib.Path) -> None:
    """All wait, and no ring of it wakes anybody: natively the program goes on for ever too."""
    (tmp_path / "rings.c").write_text(
        "#include <signal.h>\n#include <sys/time.h>\n#include <unistd.h>\n"
        "int main(void) { struct itimerval often = {{0, 1}, {0, 1}}; signal(SIGALRM, SIG_IGN);\n"
        "setitimer(ITIMER_REAL, &often, 0); pause(); return 0; }\n"
    )
    done = run(tmp_path / "rings.c", [], ["--limit", "3000", *options], tmp_path)
    assert (done.stdout, done.returncode) == ("", 1)
    assert "no end: a timer of process 1000 rings, and 3000 rings have ended nothing" in done.stderr
