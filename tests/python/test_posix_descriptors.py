"""The runtime's descriptors and memory: a program can't take them over by its calls, and others on the host can't read it."""

from __future__ import annotations

import subprocess
import sys
from pathlib import Path

import pytest
from posix_kit import CC, RUN, Posix

FLAGS = """
#include <sys/types.h>
#include <sys/wait.h>
#include <fcntl.h>
#include <pthread.h>
#include <unistd.h>
static void *ask(void *given) { getppid(); return given; }
int main(void)
{
	pthread_t thread;
	for (int fd = 3; fd < 4096; fd++) {
		int flags = fcntl(fd, F_GETFL);
		if (flags >= 0)
			fcntl(fd, F_SETFL, flags | O_NONBLOCK);
	}
	for (int i = 0; i < 5; i++) {
		int status, made = fork();
		if (made == 0) {
			getppid();
			_exit(3);
		}
		if (waitpid(made, &status, 0) != made || WEXITSTATUS(status) != 3)
			return 1;
	}
	return pthread_create(&thread, NULL, ask, NULL) != 0 || pthread_join(thread, NULL) != 0;
}
"""

DESCRIBED = """
#include <sys/types.h>
#include <sys/procdesc.h>
#include <sys/wait.h>
#include <errno.h>
#include <poll.h>
#include <signal.h>
#include <unistd.h>
int main(void)
{
	int fd, own = open_now();
	pid_t child = pdfork(&fd, 0);
	if (child == 0)
		for (;;)
			pause();
	struct pollfd ended = {.fd = fd, .events = POLLIN};
	for (int other = 3; other < 4096; other++)
		if (other != fd && (dup2(own, other) >= 0 || errno != EBADF))
			close(other);
	if (poll(&ended, 1, 0) != 0)
		return 1; /* its process lives */
	if (pdkill(fd, SIGKILL) != 0 || poll(&ended, 1, -1) != 1 || !(ended.revents & POLLHUP))
		return 2;
	return 0;
}
"""

READERS = """
#include <sys/types.h>
#include <sys/wait.h>
#include <unistd.h>
int main(int argc, char **argv)
{
	if (argc == 1 && fork() == 0) {
		if (fork() == 0)
			_exit(0);
		wait(NULL);
		execl(argv[0], argv[0], "again", (char *)NULL);
	}
	wait(NULL);
	return 0;
}
"""

NOTES = """
#define _GNU_SOURCE
#include <dlfcn.h>
#include <stdarg.h>
#include <stdio.h>
#include <stdlib.h>
#include <sys/prctl.h>
int prctl(int option, ...)
{
	va_list list;
	va_start(list, option);
	unsigned long a = va_arg(list, unsigned long), b = va_arg(list, unsigned long), c = va_arg(list, unsigned long),
				  d = va_arg(list, unsigned long);
	va_end(list);
	if (option == PR_SET_PTRACER) {
		FILE *notes = fopen(getenv("READERS"), "a");
		fprintf(notes, "%lu\\n", a);
		fclose(notes);
	}
	return ((int (*)(int, ...))dlsym(RTLD_NEXT, "prctl"))(option, a, b, c, d);
}
"""


def built(posix: Posix, room: Path, text: str) -> Path:
    (room / "program.c").write_text(text)
    done = posix.execute(CC, "-g", "-w", "-pthread", "-o", room / "program", room / "program.c")
    assert done.returncode == 0, done.stderr
    return room / "program"


@pytest.mark.parametrize("schedules", [0, 10])
def test_one_that_sets_a_flag_of_all_its_descriptors(posix: Posix, tmp_path: Path, schedules: int) -> None:
    done = posix.run(*(["--schedules", schedules] if schedules else []), built(posix, tmp_path, FLAGS))
    assert done.returncode == 0, done.stderr


def test_one_that_puts_another_in_place_of_each(posix: Posix, tmp_path: Path) -> None:
    """A process descriptor's other end is the runtime's: what takes its place would be the process's end."""
    text = DESCRIBED.replace("open_now()", 'open("/dev/null", O_RDWR)').replace(
        "#include <errno.h>", "#include <errno.h>\n#include <fcntl.h>"
    )
    done = posix.run("--limit", 100000, built(posix, tmp_path, text))
    assert (done.stderr, done.returncode) == ("", 0)


def test_only_descendants_of_tracehost_run_may_read_a_process(
    posix: Posix, tmp_path: Path, monkeypatch: pytest.MonkeyPatch
) -> None:
    """As Yama has it: the first process, its child, its grandchild and the image of an exec say so."""
    program = built(posix, tmp_path, READERS)
    (tmp_path / "notes.c").write_text(NOTES)
    assert posix.execute("cc", "-shared", "-fPIC", "-o", tmp_path / "libnotes.so", tmp_path / "notes.c").returncode == 0
    runner = tmp_path / "runner.py"
    runner.write_text("import os, sys\nprint(os.getpid(), flush=True)\nos.execv(sys.executable, [sys.executable, *sys.argv[1:]])\n")
    monkeypatch.setenv("READERS", str(tmp_path / "readers"))
    words = [sys.executable, runner, RUN, program]
    monkeypatch.setenv("LD_PRELOAD", str(tmp_path / "libnotes.so"))
    done = subprocess.run(list(map(str, words)), capture_output=True, text=True, timeout=300, check=False)
    assert done.returncode == 0, done.stderr
    assert (tmp_path / "readers").read_text().split() == 4 * [done.stdout.strip()]
