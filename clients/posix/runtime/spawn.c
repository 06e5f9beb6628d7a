/* posix_spawn(3): a vfork(2), what its file actions and attributes say, and an exec. */
#define _GNU_SOURCE
#include <fcntl.h>
#include <spawn.h>
#include <string.h>
#include <sys/mman.h>
#include <unistd.h>
#include "freebsd.h"
#include "runtime.h"

struct action {
	enum { OPEN, CLOSE, DUP } kind;
	int fd, from, flags;
	mode_t mode;
	char *path;
	struct action *next;
};

/* The first of the actions, in the host's object. */
static struct action **first_of(const posix_spawn_file_actions_t *actions) { return (struct action **)&actions->__actions; }

static int add(posix_spawn_file_actions_t *actions, struct action wanted)
{
	struct action **last = first_of(actions), *made = malloc(sizeof *made);
	if (made == NULL || wanted.fd < 0) {
		free(made);
		free(wanted.path);
		return wanted.fd < 0 ? EBADF : ENOMEM;
	}
	while (*last != NULL)
		last = &(*last)->next;
	*made = wanted;
	*last = made;
	return 0;
}

int tracehost_posix_spawn_file_actions_init(posix_spawn_file_actions_t *actions)
{
	memset(actions, 0, sizeof *actions);
	return 0;
}

int tracehost_posix_spawn_file_actions_destroy(posix_spawn_file_actions_t *actions)
{
	for (struct action *action = *first_of(actions), *next; action != NULL; action = next) {
		next = action->next;
		free(action->path);
		free(action);
	}
	*first_of(actions) = NULL;
	return 0;
}

int tracehost_posix_spawn_file_actions_addopen(
	posix_spawn_file_actions_t *actions, int fd, const char *path, int flags, mode_t mode)
{
	char *copy = strdup(path);
	return copy == NULL ? ENOMEM
						: add(actions, (struct action){.kind = OPEN, .fd = fd, .flags = flags, .mode = mode, .path = copy});
}

int tracehost_posix_spawn_file_actions_addclose(posix_spawn_file_actions_t *actions, int fd)
{
	return add(actions, (struct action){.kind = CLOSE, .fd = fd});
}

int tracehost_posix_spawn_file_actions_adddup2(posix_spawn_file_actions_t *actions, int from, int fd)
{
	return from < 0 ? EBADF : add(actions, (struct action){.kind = DUP, .fd = fd, .from = from});
}

/* ---- in the child: 0, or an errno */

/* A debugger that follows the child sees these calls. */
static int call_by_code(int code, long a, long b, long c, long d)
{
	return (int)tracehost_system_call(code, (long[6]){a, b, c, d});
}

static int do_action(const struct action *action)
{
	if (action->kind == CLOSE)
		return tracehost_close(action->fd) != 0 ? errno : 0;
	if (action->kind == DUP && action->from == action->fd) /* no FD_CLOEXEC any more */
		return call_by_code(SYSCALL_FCNTL, action->fd, F_SETFD, 0, 0) != 0 ? errno : 0;
	if (action->kind == DUP)
		return tracehost_dup2(action->from, action->fd) < 0 ? errno : 0;
	int fd = call_by_code(SYSCALL_OPENAT, AT_FDCWD, (long)action->path, action->flags, action->mode);
	if (fd < 0 || fd == action->fd)
		return fd < 0 ? errno : 0;
	int error = tracehost_dup2(fd, action->fd) < 0 ? errno : 0;
	tracehost_close(fd);
	return error;
}

static int do_attributes(const posix_spawnattr_t *attributes)
{
	short flags = 0;
	sigset_t set;
	if (attributes != NULL)
		posix_spawnattr_getflags(attributes, &flags);
	pid_t group;
	if (flags & POSIX_SPAWN_SETSID && tracehost_setsid() == -1)
		return errno;
	if (flags & POSIX_SPAWN_SETPGROUP && posix_spawnattr_getpgroup(attributes, &group) == 0 && tracehost_setpgid(0, group) != 0)
		return errno;
	if (flags & BSD_SPAWN_SETSIGMASK && posix_spawnattr_getsigmask(attributes, &set) == 0)
		tracehost_sigprocmask(BSD_SIG_SETMASK, &set, NULL);
	if (flags & BSD_SPAWN_SETSIGDEF && posix_spawnattr_getsigdefault(attributes, &set) == 0)
		for (int number = 1; number <= BSD_SIGNALS; number++)
			if (sigismember(&set, number) == 1)
				tracehost_signal(number, SIG_DFL);
	return 0;
}

static int become(const void *where, const char *file, int by_name, const posix_spawn_file_actions_t *actions,
	const posix_spawnattr_t *attributes, char *const argv[], char *const envp[])
{
	int error = do_attributes(attributes);
	for (struct action *action = actions == NULL ? NULL : *first_of(actions); action != NULL && error == 0; action = action->next)
		error = do_action(action);
	if (error == 0) {
		tracehost_replace(where, file, by_name, argv, envp);
		error = errno;
	}
	return error;
}

static int spawn(const void *where, pid_t *made, const char *file, int by_name, const posix_spawn_file_actions_t *actions,
	const posix_spawnattr_t *attributes, char *const argv[], char *const envp[])
{
	volatile int *failed = mmap(NULL, sizeof *failed, PROT_READ | PROT_WRITE, MAP_SHARED | MAP_ANONYMOUS, -1, 0);
	if (failed == MAP_FAILED)
		return ENOMEM;
	pid_t pid = tracehost_make_child(where, "vfork");
	if (pid == 0) {
		*failed = become(where, file, by_name, actions, attributes, argv, envp);
		tracehost__exit(127);
	}
	int error = pid < 0 ? errno : *failed;
	munmap((void *)failed, sizeof *failed);
	if (pid > 0 && error != 0)
		tracehost_waitpid(pid, NULL, 0);
	else if (pid > 0 && made != NULL)
		*made = pid;
	return error;
}

int tracehost_posix_spawn(pid_t *made, const char *path, const posix_spawn_file_actions_t *actions,
	const posix_spawnattr_t *attributes, char *const argv[], char *const envp[])
{
	return spawn(HERE, made, path, 0, actions, attributes, argv, envp != NULL ? envp : environ);
}

int tracehost_posix_spawnp(pid_t *made, const char *file, const posix_spawn_file_actions_t *actions,
	const posix_spawnattr_t *attributes, char *const argv[], char *const envp[])
{
	return spawn(HERE, made, file, 1, actions, attributes, argv, envp != NULL ? envp : environ);
}
