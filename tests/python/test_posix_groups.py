"""What a run says of process groups, which the model doesn't have. What calls for them do is in group_test.c."""

from __future__ import annotations

import sys
from pathlib import Path

import pytest

from posix_kit import CC, RUN, Done, Posix

pytestmark = pytest.mark.usefixtures("posix")


def compiled(folder: Path, name: str, text: str, *options: str) -> Path:
    (folder / f"{name}.c").write_text(text)
    done = Posix.execute(CC, "-g", "-w", *options, "-o", folder / name, folder / f"{name}.c")
    assert done.returncode == 0, done.stderr
    return folder / name


def run(*words: object) -> Done:
    return Posix.execute(sys.executable, RUN, "--no-record", *words)


GROUPS = """
#include <errno.h>
#include <signal.h>
#include <sys/wait.h>
#include <unistd.h>
int main(void) { return CALL ? 0 : errno; }
"""


@pytest.mark.parametrize("call", ["setsid() == -1", "setpgid(0, 0) == 0", "kill(0, 0) == 0", "getpgrp() == getpid()"])
def test_process_groups_are_not_proved(call: str, tmp_path: Path) -> None:
    program = compiled(tmp_path, "groups", GROUPS, f"-DCALL={call}")
    done = run(program)
    asks = not call.startswith("getpgrp")
    assert done.returncode == 0
    assert ("process groups were used, which the model doesn't have: not proved" in done.stderr) == asks
    strict = run("--strict", program)
    if call.startswith("set"):
        assert f"calls {call.partition('(')[0]}, which isn't among the calls of this runtime" in strict.stderr
    assert strict.returncode == asks and "not proved" not in strict.stderr


ORPHANS = """
#include <signal.h>
#include <sys/wait.h>
#include <unistd.h>
int main(int argc, char **argv)
{
	int status, ends[2];
	pid_t child, left;
	pipe(ends);
	if ((child = fork()) == 0 && argc > 1) {
		setsid();
		write(ends[1], &child, sizeof child);
		pause();
	} else if (child == 0) {
		if ((left = fork()) == 0) {
			setpgid(0, 0);
			raise(SIGSTOP);
		}
		waitpid(left, &status, WUNTRACED);
		write(ends[1], &left, sizeof left);
		_exit(0);
	}
	read(ends[0], &left, sizeof left);
	if (argc > 1)
		kill(child, SIGTSTP), kill(child, SIGKILL);
	waitpid(child, &status, 0);
	if (argc == 1)
		kill(left, SIGKILL);
	return 0;
}
"""


def test_orphaned_groups_are_told(tmp_path: Path) -> None:
    program = compiled(tmp_path, "orphans", ORPHANS)
    left, stopped = run(program), run(program, "stop")
    assert left.returncode == stopped.returncode == 0
    assert "left in an orphaned group: if it still is, FreeBSD sends SIGHUP and SIGCONT" in left.stderr, left.stderr
    assert "sent signal 18, which stops it here, and not on FreeBSD" in stopped.stderr, stopped.stderr
