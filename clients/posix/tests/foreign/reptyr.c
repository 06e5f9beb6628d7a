/*
 * Drives reptyr's freebsd_ptrace.c as reptyr does: attaches to a process that makes calls, makes calls of its own in it, writes
 * to its memory, restores its registers and detaches. The expected answers were written before the first run.
 *
 *   reptyr           the target calls getppid(2)
 *   reptyr fopen     it calls fopen(3) too, whose open(2) is the C library's
 */
#include <sys/types.h>
#include <sys/mman.h>
#include <sys/syscall.h>
#include <sys/wait.h>
#include <err.h>
#include <errno.h>
#include <stdbool.h>
#include <stdio.h>
#include <string.h>
#include <unistd.h>
#include "ptrace.h"

enum { TARGET_ENDS = 6 };

static volatile char text[8] = "before";

static void
target(pid_t parent, bool opens)
{
	FILE *file;

	for (;;) {
		if (getppid() != parent)
			_exit(1);
		if (opens && ((file = fopen("/etc/passwd", "r")) == NULL || fclose(file) != 0))
			_exit(2);
		if (strcmp((const char *)text, "after") == 0)
			_exit(TARGET_ENDS);
	}
}

static void
require(bool holds, const char *what, const struct ptrace_child *child)
{
	if (!holds)
		errx(3, "%s: error %d, state %d, status %#x", what, child->error, (int)child->state, (unsigned)child->status);
}

static long
call(struct ptrace_child *child, int number, long second, long third, long fourth)
{
	return ((long)ptrace_remote_syscall(child, number, 0, second, third, fourth, -1, 0));
}

int
main(int argc, char **argv)
{
	struct ptrace_child child;
	char got[8] = "";
	long memory;
	pid_t pid, parent = getpid();
	int status;

	(void)argv;
	if ((pid = fork()) == 0)
		target(parent, argc > 1);
	require(ptrace_attach_child(&child, pid) == 0, "attach", &child);
	require(ptrace_memcpy_from_child(&child, got, (child_addr_t)text, sizeof(got)) == 0, "read", &child);
	require(memcmp(got, "before", 7) == 0, "the text", &child);
	require(ptrace_save_regs(&child) == 0, "save_regs", &child);
	require(call(&child, SYS_getpid, 0, 0, 0) == pid, "getpid", &child);
	require(call(&child, SYS_getppid, 0, 0, 0) == parent, "getppid", &child);
	memory = call(&child, SYS_mmap, 4096, PROT_READ | PROT_WRITE, MAP_PRIVATE | MAP_ANON);
	require(memory > 0, "mmap", &child);
	require(ptrace_memcpy_to_child(&child, (child_addr_t)memory, "written", 8) == 0, "write to the new memory", &child);
	require(ptrace_memcpy_to_child(&child, (child_addr_t)text, "after", 6) == 0, "write", &child);
	require(ptrace_restore_regs(&child) == 0, "restore_regs", &child);
	require(ptrace_detach_child(&child) == 0, "detach", &child);
	while (waitpid(pid, &status, 0) == -1 && errno == EINTR)
		;
	if (!WIFEXITED(status) || WEXITSTATUS(status) != TARGET_ENDS)
		errx(4, "the target ends with status %#x", (unsigned)status);
	return (0);
}
