/* Processes: fork, exec, the end, and waiting for it. */
#define _GNU_SOURCE
#include <fcntl.h>
#include <stdio.h>
#include <string.h>
#include <sys/mman.h>
#include <sys/personality.h>
#include <sys/prctl.h>
#include <sys/resource.h>
#include <sys/stat.h>
#include <sys/wait.h>
#include <unistd.h>
#include "freebsd.h"
#include "runtime.h"

extern char **environ;

/* ---- fork */

pid_t tracehost_make_child(const void *where, const char *call)
{
	int pid, tid, fd, error;
	const unsigned long most = tracehost_most_processes();
	tracehost_free_spare();
	if (most > 0)
		error = tracehost_ask(where, "%s %lu", call, most);
	else
		error = tracehost_ask(where, "%s", call);
	if (error != 0) {
		tracehost_fill_spare();
		return -1;
	}
	pid = tracehost_number(), tid = tracehost_number(), fd = own.passed;
	fflush(stderr);
	if (tracehost_host_fork() == 0) {
		for (int i = 0; i < THREADS; i++)
			if (own_fds[i] != 0) {
				close(own_fds[i]);
				own_fds[i] = 0;
			}
		tracehost_only_thread(tid);
		tracehost_no_timers();
		tracehost_no_kqueues();
		tracehost_drop_hardware();
		tracehost_no_descriptors();
		own.now.frame->rax = 0; /* a debugger may look at it before it has returned */
		tracehost_limits_of_child();
		tracehost_let_read();
		tracehost_begin(fd, pid, tid);
		return 0;
	}
	close(fd);
	tracehost_fill_spare();
	if (strcmp(call, "vfork") == 0)
		own.now.lands &= ~LANDS_ASKING; /* it waits here until the child lets it go */
	if (!(own.now.lands & LANDS_ASKING))
		tracehost_ask(where, "user");
	return pid;
}

pid_t tracehost_fork(void) { return tracehost_make_child(HERE, "fork"); }
pid_t tracehost_vfork(void) { return tracehost_make_child(HERE, "vfork"); }

/* ---- the end */

void tracehost__exit(int status)
{
	ask("exit %d", status & 255);
	tracehost_die();
}

/* Functions of atexit(3), and of at_quick_exit(3), are the program's: they run on its stack. */
static void __attribute__((noreturn)) end_by(void (*way)(int), int status)
{
	struct outcall call = {.function = (void *)(size_t)way, .arguments = {status}};
	own.where = HERE;
	tracehost_call_program(&call, 0);
	__builtin_unreachable();
}

void tracehost_exit(int status)
{
	if (tracehost_exiting) /* in a handler of a signal that has come meanwhile: no handler of exit(3) is left */
		tracehost__exit(status);
	end_by(exit, status);
}

static int quick_status;

static void ask_quick_exit(void)
{
	tracehost_ask(own.where, "exit %d", quick_status & 255);
	tracehost_die();
}

__attribute__((constructor(102))) static void note_quick_exit(void)
{
	at_quick_exit(ask_quick_exit); /* the first one registered runs last */
}

void tracehost_quick_exit(int status)
{
	quick_status = status;
	end_by(quick_exit, status);
}

void tracehost_abort(void)
{
	ask("thr_kill %d %d", own.tid, BSD_SIGABRT);
	ask("action %d 0 0 0 0", BSD_SIGABRT);
	ask("mask %d %u", BSD_SIG_UNBLOCK, 1u << BSD_SIGABRT);
	ask("thr_kill %d %d", own.tid, BSD_SIGABRT);
	tracehost_die();
}

/* ---- exec */

enum { ARGUMENTS = 1024 };

/* What an exec is given is looked at before it is made: bytes that aren't there end the program here, at its own call. */
static size_t bytes_of(char *const words[])
{
	size_t bytes = 0;
	for (; words != NULL && *words != NULL; words++)
		bytes += strlen(*words) + 1 + sizeof *words;
	return bytes;
}

static int may_execute(const char *path) { return access(path, X_OK) == 0; }

static int why_no_file(const char *path)
{
	struct stat st;
	if (!may_execute(path) || stat(path, &st) != 0)
		return errno;
	return S_ISREG(st.st_mode) ? 0 : EACCES;
}

static int why_no_program(const char *path)
{
	char head[4] = "";
	int fd = open(path, O_RDONLY | O_CLOEXEC);
	if (fd < 0)
		return 0; /* it may be executed, and not read */
	ssize_t got = read(fd, head, sizeof head);
	close(fd);
	return got >= 2 && (memcmp(head, "#!", 2) == 0 || memcmp(head, "\177ELF", sizeof head) == 0) ? 0 : ENOEXEC;
}

/* The host may take its time for a look at a file. No poke comes between, so that no run depends on how long that is. */
static int look_at_file(int (*look)(const char *path), const char *path)
{
	own.busy = 1;
	int found = look(path);
	own.busy = 0;
	return found;
}

/* 0, or the errno of an exec that fails. */
static int why_not(const char *path, char *const argv[], char *const envp[])
{
	enum { ARGUMENT_BYTES = 512 * 1024 /* FreeBSD's ARG_MAX */ };
	int error = look_at_file(why_no_file, path);
	if (error != 0)
		return error;
	if (bytes_of(argv) + bytes_of(envp) > ARGUMENT_BYTES)
		return E2BIG;
	return look_at_file(why_no_program, path);
}

static int has_runtime(const char *path)
{
	struct stat st;
	int fd = open(path, O_RDONLY | O_CLOEXEC), found = 0;
	void *text;
	if (fd < 0)
		return 0;
	if (fstat(fd, &st) == 0 && (text = mmap(NULL, st.st_size, PROT_READ, MAP_PRIVATE, fd, 0)) != MAP_FAILED) {
		found = memmem(text, st.st_size, tracehost_marker, strlen(tracehost_marker)) != NULL;
		munmap(text, st.st_size);
	}
	close(fd);
	return found;
}

/* ---- a program without the runtime */

enum { FIRST_NUMBER = 1000, NUMBERS = 1000 }; /* of the model's processes */

static void __attribute__((noreturn)) become_foreign(const char *path, char *const argv[], char *const envp[])
{
	prctl(PR_SET_PDEATHSIG, SIGKILL);
	personality(personality(~0UL) & ~ADDR_NO_RANDOMIZE); /* its calls come from other addresses than ours */
	signal(SIGPIPE, SIG_DFL);
	tracehost_give_limits();
	execve(path, argv, envp);
	_exit(127);
}

static int is_a_number(pid_t pid) { return pid >= FIRST_NUMBER && pid < FIRST_NUMBER + NUMBERS; }

/* A child whose number of the host's isn't one of the model's: others may be named by it. */
static pid_t fork_foreign(void)
{
	pid_t child;
	int tries = 0;
	while (is_a_number(child = tracehost_host_fork()) && tries++ < NUMBERS)
		;
	if (child == 0 && is_a_number(getpid()))
		_exit(0);
	if (is_a_number(child))
		tracehost_broken("fork");
	return child;
}

/* It runs as a child, as one long computation of this LWP; its end is this one's. What it leaves is a child of this one too:
 * so the broker knows whose a process is. */
static void run_foreign(const char *path, char *const argv[], char *const envp[])
{
	tracehost_ask(NULL, "foreign %ld %d", (long)tracehost_held, tracehost_reader);
	signal(SIGCHLD, SIG_DFL);
	prctl(PR_SET_CHILD_SUBREAPER, 1);
	pid_t child = fork_foreign();
	if (child == 0)
		become_foreign(path, argv, envp);
	for (int fd = 3; fd < FIRST_FD; fd++)
		if (fcntl(fd, F_GETFD) == FD_CLOEXEC)
			close(fd);
	const int status = tracehost_await_child(child);
	if (WIFSIGNALED(status) && WTERMSIG(status) == SIGSYS)
		tracehost_ask(NULL, "outside held %s", path);
	if (!WIFEXITED(status))
		tracehost_say("%s: ended by the host's signal %d, which counts as exit code 126 here", path, WTERMSIG(status));
	tracehost_ask(NULL, "exit %d", WIFEXITED(status) ? WEXITSTATUS(status) : 126);
	tracehost_die();
}

static int replace_lifted(const void *where, const char *path, char *const argv[], char *const envp[])
{
	static char socket_of[600];
	char **environment, limits[256], outside[128];
	size_t count = 0;
	int error = why_not(path, argv, envp);
	if (error != 0) {
		tracehost_ask(where, "call %d", SYSCALL_EXECVE);
		errno = error;
		return -1;
	}
	int known = look_at_file(has_runtime, path);
	fflush(stderr);
	tracehost_ask(where, "exec");
	if (!known)
		run_foreign(path, argv, envp);
	while (envp != NULL && envp[count] != NULL)
		count++;
	environment = calloc(count + 2, sizeof *environment);
	if (environment == NULL)
		tracehost_broken(path);
	for (size_t i = 0; i < count; i++)
		environment[i + 1] = envp[i];
	tracehost_write_limits(limits, sizeof limits);
	tracehost_write_outside(outside, sizeof outside);
	snprintf(socket_of, sizeof socket_of, "TRACEHOST_LWP=%d %d %d %lx %d %s%s", own.fd, own_pid, own.tid, tracehost_held,
		tracehost_reader, outside, limits);
	environment[0] = socket_of; /* the program may have given one of that name */
	own.busy = 1; /* no poke comes between */
	fcntl(own.fd, F_SETFD, 0);
	execve(path, argv, environment);
	tracehost_broken(path);
}

static int replace(const void *where, const char *path, char *const argv[], char *const envp[])
{
	tracehost_lift_limits();
	int result = replace_lifted(where, path, argv, envp);
	tracehost_lower_limits();
	return result;
}

/* A file without a head is a script of sh(1) for the calls that look for files. */
static int replace_or_script(const void *where, const char *path, char *const argv[], char *const envp[])
{
	char *words[ARGUMENTS + 2] = {"sh", (char *)path};
	int i = 0;
	if (replace(where, path, argv, envp) != 0 && errno != ENOEXEC)
		return -1;
	while (i < ARGUMENTS - 1 && argv[i] != NULL && argv[i + 1] != NULL)
		i++, words[i + 1] = argv[i];
	words[i + 2] = NULL;
	return replace(where, "/bin/sh", words, envp);
}

static int replace_in(const void *where, const char *file, const char *all, char *const argv[], char *const envp[])
{
	char path[4096], *save = NULL, *copy, *folder;
	if (strchr(file, '/') != NULL || all == NULL)
		return replace_or_script(where, file, argv, envp);
	if ((copy = strdup(all)) == NULL)
		return -1;
	for (folder = strtok_r(copy, ":", &save); folder != NULL; folder = strtok_r(NULL, ":", &save)) {
		snprintf(path, sizeof path, "%s/%s", folder, file);
		if (look_at_file(may_execute, path))
			break;
	}
	free(copy);
	return replace_or_script(where, folder != NULL ? path : file, argv, envp);
}

static int replace_by_name(const void *where, const char *file, char *const argv[], char *const envp[])
{
	return replace_in(where, file, getenv("PATH"), argv, envp);
}

int tracehost_replace(const void *where, const char *file, int by_name, char *const argv[], char *const envp[])
{
	return by_name ? replace_by_name(where, file, argv, envp) : replace(where, file, argv, envp);
}

int tracehost_execve(const char *path, char *const argv[], char *const envp[]) { return replace(HERE, path, argv, envp); }
int tracehost_fexecve(int fd, char *const argv[], char *const envp[])
{
	char path[64];
	/* the first thread may have exited */
	snprintf(path, sizeof path, "/proc/thread-self/fd/%d", fd);
	return replace(HERE, path, argv, envp);
}

int tracehost_execv(const char *path, char *const argv[]) { return replace(HERE, path, argv, environ); }
int tracehost_execvp(const char *file, char *const argv[]) { return replace_by_name(HERE, file, argv, environ); }

int tracehost_execvP(const char *file, const char *folders, char *const argv[])
{
	return replace_in(HERE, file, folders, argv, environ);
}

int tracehost_execvpe(const char *file, char *const argv[], char *const envp[]) { return replace_by_name(HERE, file, argv, envp); }

/* The arguments of execl(3) from the second one on, which are in registers and on the stack: what comes behind their NULL. */
static const void *collect(char *argv[])
{
	const struct frame *frame = own.now.frame;
	const unsigned long registers[] = {frame->rsi, frame->rdx, frame->rcx, frame->r8, frame->r9};
	enum { IN_REGISTERS = sizeof registers / sizeof registers[0] };
	int i = 0;
	const void *next;
	do {
		next = i < IN_REGISTERS ? (const void *)registers[i] : frame->at[1 + i - IN_REGISTERS];
		argv[i++] = (char *)next;
	} while (next != NULL && i < ARGUMENTS);
	return i < IN_REGISTERS ? (const void *)registers[i] : frame->at[1 + i - IN_REGISTERS];
}

int tracehost_execl(const char *path)
{
	char *argv[ARGUMENTS];
	collect(argv);
	return replace(HERE, path, argv, environ);
}

int tracehost_execlp(const char *file)
{
	char *argv[ARGUMENTS];
	collect(argv);
	return replace_by_name(HERE, file, argv, environ);
}

int tracehost_execle(const char *path)
{
	char *argv[ARGUMENTS];
	char *const *envp = collect(argv);
	return replace(HERE, path, argv, envp);
}

/* ---- waiting */

static pid_t wait_for(const void *where, pid_t which, int *status, int options, struct rusage *usage)
{
	pid_t pid;
	if (usage != NULL)
		memset(usage, 0, sizeof *usage);
	if (options & ~(BSD_WNOHANG | BSD_WUNTRACED | BSD_WCONTINUED | BSD_WEXITED | BSD_WTRAPPED)) {
		tracehost_say("wait4: the model has only WNOHANG, WUNTRACED and WCONTINUED (EINVAL)");
		errno = EINVAL;
		return -1;
	}
	if (tracehost_ask(where, "wait %d %d", which, options & (BSD_WNOHANG | BSD_WUNTRACED | BSD_WCONTINUED)) != 0)
		return -1;
	pid = tracehost_number();
	if (pid != 0 && status != NULL)
		*status = tracehost_number();
	if (pid != 0)
		tracehost_collect();
	return pid;
}

pid_t tracehost_wait4(pid_t which, int *status, int options, struct rusage *usage)
{
	return wait_for(HERE, which, status, options, usage);
}

pid_t tracehost_wait3(int *status, int options, struct rusage *usage) { return wait_for(HERE, -1, status, options, usage); }
pid_t tracehost_waitpid(pid_t which, int *status, int options) { return wait_for(HERE, which, status, options, NULL); }
pid_t tracehost_wait(int *status) { return wait_for(HERE, -1, status, 0, NULL); }

/* wait6(2) as far as wait4(2) carries it: ends and trace stops are always reported, and a report is always taken. */
static pid_t wait_six(const void *where, idtype_t kind, id_t id, int *status, int options, struct __siginfo *info)
{
	int word = 0;
	pid_t pid;
	if (((int)kind != BSD_P_PID && (int)kind != BSD_P_ALL) || !(options & BSD_WEXITED)) {
		tracehost_say("wait6, waitid: the model has only P_PID and P_ALL, with WEXITED (EINVAL)");
		errno = EINVAL;
		return -1;
	}
	pid = wait_for(where, (int)kind == BSD_P_ALL ? -1 : (pid_t)id, &word, options, NULL);
	if (pid < 0)
		return -1;
	if (info != NULL)
		tracehost_describe_child(info, pid, word, options);
	if (status != NULL)
		*status = word;
	return pid;
}

pid_t tracehost_wait6(idtype_t kind, id_t id, int *status, int options, void *usage, struct __siginfo *info)
{
	if (usage != NULL)
		memset(usage, 0, 2 * sizeof(struct rusage));
	return wait_six(HERE, kind, id, status, options, info);
}

int tracehost_waitid(idtype_t kind, id_t id, struct __siginfo *info, int options)
{
	return wait_six(HERE, kind, id, NULL, options, info) < 0 ? -1 : 0;
}

/* ---- who */

pid_t tracehost_getpid(void) { return ask("call %d", SYSCALL_GETPID), own_pid; }
pid_t tracehost_getppid(void) { return ask("getppid"), tracehost_number(); }

/* ---- process groups and sessions */

static pid_t group_of(const void *where, int code, pid_t pid)
{
	return tracehost_ask(where, "group %d %d", code, pid) != 0 ? -1 : (pid_t)tracehost_number();
}

pid_t tracehost_getpgrp(void) { return group_of(HERE, SYSCALL_GETPGRP, 0); }
pid_t tracehost_getpgid(pid_t pid) { return group_of(HERE, SYSCALL_GETPGID, pid); }
pid_t tracehost_getsid(pid_t pid) { return group_of(HERE, SYSCALL_GETSID, pid) < 0 ? -1 : (pid_t)tracehost_number(); }
int tracehost_setpgid(pid_t pid, pid_t group) { return ask("setpgid %d %d", pid, group); }
pid_t tracehost_setsid(void) { return ask("setsid") != 0 ? -1 : (pid_t)tracehost_number(); }

int tracehost_killpg(pid_t group, int number)
{
	if (group != 1)
		return ask("kill %d %d", -group, number);
	errno = ESRCH;
	return -1;
}
