"""Processes that have ended are collected in the host while a run goes on, and how they have ended stays known."""

from __future__ import annotations

import sys
from pathlib import Path

import pytest
from posix_kit import CC, RUN, OtherUser, Posix

HEAD = """\
#include <sys/types.h>
#include <sys/wait.h>
#include <stdio.h>
#include <stdlib.h>
#include <string.h>
#include <unistd.h>

/* How many children the host has of this process (0) or of the one that has made it (1). */
static int host_children(int of_maker)
{
	char path[80] = "/proc/thread-self/children", line[200];
	int maker, child, count = 0;
	FILE *file = of_maker ? fopen("/proc/self/status", "r") : NULL;
	while (file != NULL && fgets(line, sizeof line, file) != NULL)
		if (sscanf(line, "PPid: %d", &maker) == 1)
			snprintf(path, sizeof path, "/proc/%d/task/%d/children", maker, maker);
	if (file != NULL)
		fclose(file);
	file = fopen(path, "r");
	while (file != NULL && fscanf(file, "%d", &child) == 1)
		count++;
	return file != NULL ? count : -1;
}
"""

IN_A_ROW = """
static void one(void)
{
	if (fork() == 0)
		_exit(0);
	wait(NULL);
}
int main(int argc, char **argv)
{
	int again = argc > 1 && strcmp(argv[1], "again") == 0;
	for (int i = 0; i < 100; i++) {
		int status, made = fork();
		if (made == 0)
			exit(i % 3);
		if (waitpid(made, &status, 0) != made || WEXITSTATUS(status) != i % 3)
			return 1;
	}
	if (!again)
		execl(argv[0], argv[0], "again", (char *)NULL);
	for (int tries = 0; tries < 100 && host_children(0) > 2; tries++)
		one(); /* others are slow to end */
	printf("%d\\n", host_children(0));
	return 0;
}
"""

AT_ONCE = """
int main(void)
{
	for (int i = 0; i < 100; i++)
		if (fork() == 0)
			_exit(0);
	while (wait(NULL) > 0)
		;
	for (int tries = 0; tries < 100 && host_children(0) > 2; tries++) {
		if (fork() == 0)
			_exit(0);
		wait(NULL);
	}
	printf("%d\\n", host_children(0));
	return 0;
}
"""

ORPHANS = """
int main(void)
{
	for (int i = 0; i < 400 && (i < 80 || host_children(1) > 20); i++) { /* some are slow to end */
		int ends[2], status;
		char byte;
		pipe(ends);
		if (fork() == 0) {
			close(ends[1]);
			if (fork() == 0)
				read(ends[0], &byte, 1); /* until the first process closes its end */
			_exit(0);
		}
		wait(&status);
		close(ends[0]), close(ends[1]);
		usleep(1000);
	}
	printf("%d\\n", host_children(1));
	return 0;
}
"""

OF_SHELL = """
int main(void)
{
	int status;
	if (fork() == 0) {
		execl("/bin/sh", "sh", "-c", "for i in 1 2 3 4 5 6 7 8 9; do for j in 1 2 3 4 5; do (true &); done; done;"
			"for i in 1 2 3 4 5 6 7 8 9; do for j in 1 2 3 4 5; do set -- $(cat /proc/$PPID/task/$PPID/children);"
			"[ $# -gt 2 ] || break 2; sleep 0.2; done; done; echo $#", (char *)NULL);
		_exit(9);
	}
	wait(&status);
	return status != 0;
}
"""

LATE = """
extern void end_with(int status);
int main(int argc, char **argv)
{
	int orphans = argc > 1;
	for (int i = 0; i < 60; i++) {
		int made = fork(), status;
		if (made == 0) {
			if (orphans && fork() != 0)
				_exit(0);
			if (i == 3)
				end_with(9);
			exit(0);
		}
		if (waitpid(made, &status, 0) != made || status != 0)
			return 1;
	}
	return 0;
}
"""

LIBRARY = """
#include <unistd.h>
static int status;
void end_with(int given) { status = given; }
__attribute__((destructor)) static void end(void)
{
	if (status != 0)
		_exit(status);
}
"""


def number_of(posix: Posix, room: Path, text: str, *options: object) -> int:
    """What the program prints on the model."""
    source = room / "program.c"
    source.write_text(HEAD + text)
    done = posix.execute(CC, "-g", "-w", "-o", room / "program", source)
    assert done.returncode == 0, done.stderr
    done = posix.run(*options, room / "program")
    assert (done.stderr, done.returncode) == ("", 0)
    return int(done.stdout)


def test_children_one_after_the_other(posix: Posix, tmp_path: Path) -> None:
    """Also those that an earlier image has made. The last one may be about to end."""
    assert 0 <= number_of(posix, tmp_path, IN_A_ROW) <= 2


def test_children_that_end_together(posix: Posix, tmp_path: Path) -> None:
    assert 0 <= number_of(posix, tmp_path, AT_ONCE) <= 2


@pytest.mark.parametrize("seed", [[], ["--seed", 1], ["--seed", 2]], ids=str)
def test_those_without_a_parent(posix: Posix, tmp_path: Path, seed: list[object]) -> None:
    """The server has the first process, and collects the others after each sixteenth."""
    assert 1 <= number_of(posix, tmp_path, ORPHANS, *seed) <= 20


def test_those_of_a_shell(posix: Posix, tmp_path: Path) -> None:
    """The shell itself is one."""
    assert 1 <= number_of(posix, tmp_path, OF_SHELL) <= 2


@pytest.mark.parametrize("words", [[], ["orphans"]], ids=["children", "orphans"])
def test_one_that_its_last_handlers_end_fails_the_run(posix: Posix, tmp_path: Path, words: list[str]) -> None:
    (tmp_path / "library.c").write_text(LIBRARY)
    (tmp_path / "program.c").write_text(HEAD + LATE)
    library = tmp_path / "libends.so"
    assert posix.execute("cc", "-shared", "-fPIC", "-o", library, tmp_path / "library.c").returncode == 0
    done = posix.execute(CC, "-g", "-w", "-o", tmp_path / "program", tmp_path / "program.c", library)
    assert done.returncode == 0, done.stderr
    done = posix.run(tmp_path / "program", *words)
    pid = 1004 if not words else 1008
    assert f"process {pid} has exited with status 0, but was then ended with status 9, by its last handlers" in done.stderr
    assert done.returncode == 1


FEW = """
int main(void)
{
	for (int i = 0; i < 200; i++) {
		int status, made = fork();
		if (made == 0)
			_exit(0);
		if (made < 0 || waitpid(made, &status, 0) != made)
			return 1;
	}
	return 0;
}
"""


def test_where_few_processes_are_allowed(posix: Posix, other_user: OtherUser) -> None:
    """Twenty."""
    program = other_user.room / "program"
    program.with_suffix(".c").write_text(HEAD + FEW)
    assert posix.execute(CC, "-g", "-w", "-o", program, program.with_suffix(".c")).returncode == 0
    done = other_user.run("prlimit", "--nproc=20", sys.executable, RUN, "--no-record", program)
    assert (done.stderr, done.returncode) == ("", 0)
