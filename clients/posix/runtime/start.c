/* How a program begins: as a server that forks a process for each run, or as the image of an exec.
 *
 * The server is this program before main(): a run costs a fork, and no exec. The broker sends `run` with the socket of
 * the first process, `collect` for those that have ended and have no parent, or `sweep`, which ends all that is left of a
 * run. */
#define _GNU_SOURCE
#include <fcntl.h>
#include <link.h>
#include <stdio.h>
#include <string.h>
#include <sys/prctl.h>
#include <sys/resource.h>
#include <sys/socket.h>
#include <sys/syscall.h>
#include <sys/wait.h>
#include <sys/personality.h>
#include <unistd.h>
#include "freebsd.h"
#include "held.h"
#include "runtime.h"

/* Each file that is compiled with <tracehost/posix.h> has an item here. */
extern const char __start_tracehost_units[] __attribute__((weak));
extern const char __stop_tracehost_units[] __attribute__((weak));

static unsigned long load_address;

static const char forked_word[] = " forked"; /* behind the other words of TRACEHOST_LWP */

/* ---- a thread begins, a process ends */

/* A program without the runtime has forked this process, and exec'd this image in it: the model hears of the two only now. */
static int is_forked;

static void say_hello(int lands)
{
	tracehost_ask(NULL, "hello %d %d %lx %d", (int)syscall(SYS_getpid), (int)syscall(SYS_gettid), load_address, lands);
	own_pid = tracehost_number(), own.tid = tracehost_number();
	unsigned long ignored = tracehost_number();
	for (int n = 1; n <= BSD_SIGNALS; n++)
		if (ignored >> n & 1)
			tracehost_actions[n].sa_handler = SIG_IGN;
}

void tracehost_begin(int fd, int pid, int tid)
{
	int i;
	for (i = 0; i < THREADS && own_fds[i] != 0; i++)
		;
	if (i == THREADS) {
		errno = EAGAIN;
		tracehost_broken("too many threads");
	}
	own_fds[i] = fd;
	own.fd = fd, own.tid = tid, own_pid = pid, own_real = getpid();
	own.dispatches = 0; /* a fork's child has none */
	if (own_real == syscall(SYS_gettid)) /* its only thread */
		prctl(PR_SET_PDEATHSIG, PARENT_ENDS);
	own.busy = 1;
	tracehost_start_ticks();
	say_hello(own.now.inside && !is_forked);
}

void tracehost_let_go(void)
{
	own.now.watches = own.now.selector = 0;
	for (int i = 0; i < THREADS; i++)
		if (own_fds[i] == own.fd)
			own_fds[i] = 0;
	timer_delete(own.tick);
	tracehost_drop_hardware();
	close(own.fd);
	own.fd = -1;
	tracehost_drop_stacks();
}

static int exit_status;
int tracehost_exiting;

static void note_status(int status, void *unused)
{
	(void)unused;
	exit_status = status;
}

/* The last of the program's own handlers asks: those of libraries, as a sanitizer's, come after the end in the model. */
#pragma GCC diagnostic ignored "-Wprio-ctor-dtor"
__attribute__((destructor(0))) static void ask_exit(void)
{
	if (own.fd < 0)
		return;
	tracehost_exiting = 1;
	fflush(NULL);
	enter_end_process();
}

void tracehost_end_process(void) { tracehost_ask(own.where, "exit %d", exit_status & 255); }

/* Of the host's numbers: a debugger of the run, and one of --gdb, are descendants of tracehost-run. Others are no business of
 * ours. A fork's child has none. */
int tracehost_reader;
void tracehost_let_read(void) { prctl(PR_SET_PTRACER, tracehost_reader, 0, 0, 0); }

void tracehost_begin_image(int fd, int pid, int tid)
{
	tracehost_begin(fd, pid, tid);
	if (!is_forked)
		return;
	is_forked = 0;
	tracehost_ask(NULL, "exec");
	say_hello(own.now.inside);
}

static void become_process(int fd, int pid, int tid)
{
	tracehost_let_read();
	on_exit(note_status, NULL); /* the first one registered runs last */
	enter_begin_image(fd, pid, tid);
	tracehost_only_thread(own.tid);
	tracehost_lift_limits();
	tracehost_fill_spare();
}

/* ---- the server */

/* What the broker is told of those that have ended: `swept`, PID:STATUS of each, and `more` if there is no room for more. */
struct swept {
	char text[4096];
	size_t length;
};
enum { ROOM_FOR_ONE = 32 };

/* Collects one that has ended: 0 for none now, and -1 if none is left. */
static pid_t collect(struct swept *swept, int options)
{
	int status;
	pid_t ended = waitpid(-1, &status, options | __WALL);
	if (ended > 0)
		swept->length += (size_t)snprintf(swept->text + swept->length, ROOM_FOR_ONE, " %d:%d", ended, status);
	return ended;
}

static int is_full(const struct swept *swept) { return swept->length + 2 * ROOM_FOR_ONE > sizeof swept->text; }

static void end_children(void)
{
	char list[65536];
	pid_t child;
	tracehost_list_children(list, sizeof list);
	for (char *at = list, *next; (child = strtol(at, &next, 10)) > 0; at = next)
		tracehost_host_kill(child, SIGKILL);
}

/* Collects what has ended. `all`: ends all descendants; those whose parents have ended are children of the server. */
static void sweep(struct swept *swept, int all)
{
	swept->length = (size_t)snprintf(swept->text, sizeof swept->text, "swept");
	while (!is_full(swept)) {
		pid_t ended = collect(swept, WNOHANG);
		if (ended < 0 || (ended == 0 && !all))
			return;
		if (ended > 0)
			continue;
		end_children();
		collect(swept, 0);
	}
	memcpy(swept->text + swept->length, " more", sizeof " more");
	swept->length += strlen(" more");
}

/* The broker has ended. */
static void __attribute__((noreturn)) end_all(void)
{
	struct swept swept;
	do
		sweep(&swept, 1);
	while (is_full(&swept));
	_exit(0);
}

/* Returns in the process of each run, with its socket. */
static int serve(int control)
{
	char word[16], space[CMSG_SPACE(sizeof(int))];
	prctl(PR_SET_CHILD_SUBREAPER, 1, 0, 0, 0);
	prctl(PR_SET_PDEATHSIG, SIGCONT); /* the broker's end: a server that was stopped has to see it */
	for (;;) {
		struct iovec text = {word, sizeof word};
		struct msghdr message = {.msg_iov = &text, .msg_iovlen = 1, .msg_control = space, .msg_controllen = sizeof space};
		ssize_t got = recvmsg(control, &message, 0);
		if (got < 0 && errno == EINTR)
			continue;
		if (got <= 0)
			end_all();
		if (word[0] != 'r') {
			struct swept swept;
			sweep(&swept, word[0] == 's');
			if (send(control, swept.text, swept.length, MSG_NOSIGNAL) < 0)
				end_all();
			continue;
		}
		int given, fd;
		memcpy(&given, CMSG_DATA(CMSG_FIRSTHDR(&message)), sizeof given);
		pid_t child = fork();
		if (child < 0)
			tracehost_broken("fork");
		if (child == 0) {
			close(control);
			if ((fd = fcntl(given, F_DUPFD_CLOEXEC, FIRST_FD)) < 0)
				tracehost_broken("no descriptor is left");
			close(given);
			return fd;
		}
		close(given);
	}
}

static int find_load_address(struct dl_phdr_info *info, size_t size, void *unused)
{
	(void)size, (void)unused;
	load_address = info->dlpi_addr; /* the program is the first */
	return 1;
}

static void set_descriptors(void)
{
	struct rlimit limit;
	if (getrlimit(RLIMIT_NOFILE, &limit) == 0) {
		limit.rlim_cur = limit.rlim_max < DESCRIPTORS ? limit.rlim_max : DESCRIPTORS;
		setrlimit(RLIMIT_NOFILE, &limit);
	}
}

/* What the broker is told as the server is there; the listener of the filter comes with it. */
static int send_ready(int fd)
{
	char text[4096] = "ready", space[CMSG_SPACE(sizeof(int))] = "";
	tracehost_report(text, sizeof text);
	struct iovec part = {text, strlen(text)};
	struct msghdr message = {.msg_iov = &part, .msg_iovlen = 1};
	if (tracehost_listener >= 0) {
		message.msg_control = space, message.msg_controllen = sizeof space;
		struct cmsghdr *header = CMSG_FIRSTHDR(&message);
		header->cmsg_level = SOL_SOCKET, header->cmsg_type = SCM_RIGHTS, header->cmsg_len = CMSG_LEN(sizeof(int));
		memcpy(CMSG_DATA(header), &tracehost_listener, sizeof tracehost_listener);
	}
	ssize_t sent = sendmsg(fd, &message, MSG_NOSIGNAL);
	if (tracehost_listener >= 0)
		close(tracehost_listener);
	return sent < 0 ? -1 : 0;
}

static void remark_lines(char *text)
{
	for (char *save = NULL, *line = strtok_r(text, "\n", &save); line != NULL; line = strtok_r(NULL, "\n", &save))
		tracehost_remark("%s", line);
}

static void refuse_to_start(const char *why)
{
	tracehost_say("%s: %s", program_invocation_name, why);
	_exit(EXIT_REFUSED);
}

/* The process that a program without the runtime has forked, and waits for, is a proxy. It ends as the process of the model
 * has, by a signal if need be, which the broker sends. */
static void __attribute__((noreturn)) be_proxy(pid_t child)
{
	const unsigned long none = 0;
	int status = 0;
	syscall(SYS_close_range, 0, ~0U, 0);
	setrlimit(RLIMIT_CORE, &(struct rlimit){0, 0});
	for (int n = 1; n < SIGRTMIN; n++)
		signal(n, SIG_DFL);
	tracehost_host_call(SYS_rt_sigprocmask, (long[6]){SIG_SETMASK, (long)&none, 0, sizeof none});
	while (waitpid(child, &status, 0) < 0 && errno == EINTR)
		;
	const long said = syscall(SYS_pidfd_send_signal, -1, child, status, BEHIND_ENDS);
	_exit(WEXITSTATUS(said));
}

/* As after an exec of the runtime's: with its addresses, and by its environment. */
static void __attribute__((noreturn)) take_up(int given, char *argv[])
{
	static const char exec[] = "0 exec";
	char line[256] = "", text[300], path[4096] = "";
	int pid, tid, reader, forked, outside = 0;
	long held;
	set_descriptors();
	const int fd = fcntl(given, F_DUPFD, FIRST_FD);
	close(given);
	if (recv(fd, line, sizeof line - 1, 0) <= 0 ||
		sscanf(line, "%d %d %ld %d %d%n", &pid, &tid, &held, &reader, &forked, &outside) != 5)
		_exit(EXIT_REFUSED);
	const pid_t child = forked ? fork() : 0;
	if (child != 0)
		be_proxy(child);
	snprintf(text, sizeof text, "%d %d %d %lx %d%s%s", fd, pid, tid, held, reader, line + outside, forked ? forked_word : "");
	setenv("TRACEHOST_LWP", text, 1);
	if (!forked && (send(fd, exec, strlen(exec), MSG_NOSIGNAL) < 0 || recv(fd, line, sizeof line, 0) <= 0))
		_exit(EXIT_REFUSED);
	personality(ADDR_NO_RANDOMIZE);
	if (readlink("/proc/self/exe", path, sizeof path - 1) > 0)
		execve(path, argv, environ);
	_exit(EXIT_REFUSED);
}

/* In a run a program without the runtime, such as a shell, has started it, which the broker hears of by a call that does
 * nothing. It answers by a descriptor; or it ends the run, if the model has no process for it. */
static void refuse_alone(char *argv[])
{
	prctl(PR_SET_PDEATHSIG, 0);
	const int fd = (int)syscall(SYS_pidfd_send_signal, -1, 0, NULL, BEHIND_ANOTHER);
	if (fd > 0)
		take_up(fd, argv);
	tracehost_say("%s: this program is run by tracehost-run, or by an exec in a program that is", program_invocation_name);
	_exit(EXIT_REFUSED);
}

__attribute__((constructor(101))) void tracehost_start(int argc, char *argv[])
{
	(void)argc;
	int fd, pid, tid, length = 0;
	unsigned long held;
	const char *lwp = getenv("TRACEHOST_LWP"), *control = getenv("TRACEHOST_CONTROL");
	if (lwp == NULL && control == NULL)
		refuse_alone(argv);
	if (&__start_tracehost_units[0] == &__stop_tracehost_units[0])
		refuse_to_start("it was compiled without <tracehost/posix.h>: compile its files with tracehost-cc too");
	set_descriptors();
	dl_iterate_phdr(find_load_address, NULL);
	tracehost_make_key();
	tracehost_make_stacks();
	tracehost_host_signals();
	if (lwp != NULL) { /* this image comes of an exec */
		const char *rest = NULL;
		if (sscanf(lwp, "%d %d %d %lx %d%n", &fd, &pid, &tid, &held, &tracehost_reader, &length) == 5)
			rest = tracehost_read_outside(lwp + length);
		if (rest == NULL)
			refuse_to_start("its environment has another TRACEHOST_LWP than the runtime sets");
		is_forked = strcmp(rest, forked_word) == 0;
		tracehost_lift_limits();
		tracehost_read_limits(rest);
		char text[4096] = "";
		tracehost_report_libraries(text, sizeof text);
		tracehost_hold_calls(held);
		unsetenv("TRACEHOST_LWP");
		fcntl(fd, F_SETFD, FD_CLOEXEC);
		tracehost_find_children();
		become_process(fd, pid, tid);
		tracehost_lower_limits();
		tracehost_tell_filter();
		remark_lines(text);
		return;
	}
	tracehost_hold_calls(0);
	if (sscanf(control, "%d %d", &fd, &tracehost_reader) != 2)
		refuse_to_start("its environment has another TRACEHOST_CONTROL than tracehost-run sets");
	unsetenv("TRACEHOST_CONTROL");
	tracehost_note_outside();
	if (send_ready(fd) < 0)
		refuse_to_start("this program is run by tracehost-run");
	become_process(serve(fd), 0, 0);
}
