/* Calls under PT_SYSCALL: the entry is reported before the call's function begins, so that nothing of it is done then, and what
 * a debugger sets there, in registers and in memory, is what the call takes. Which system call is made is decided by the
 * number in rax, as in a kernel. */
#define _GNU_SOURCE
#include <errno.h>
#include <fcntl.h>
#include <limits.h>
#include <poll.h>
#include <stdio.h>
#include <string.h>
#include <sys/file.h>
#include <sys/ioctl.h>
#include <sys/mman.h>
#include <sys/resource.h>
#include <sys/socket.h>
#include <sys/stat.h>
#include <sys/uio.h>
#include <unistd.h>
#include "freebsd.h"
#include "runtime.h"

/* clang-format off */
/* The runtime's functions that have the arguments of their system call. These ask at once, and that enters the call. */
#define CALLS_THAT_ASK(CALL) \
	CALL(read, 3) CALL(write, 4) CALL(close, 6) CALL(dup, 41) CALL(dup2, 90) CALL(pipe2, 542) CALL(socketpair, 135) \
	CALL(poll, 209) CALL(getpid, 20) CALL(getppid, 39) CALL(getpgrp, 81) CALL(kill, 37) CALL(setpgid, 82) CALL(setsid, 147) CALL(wait4, 7) CALL(thr_self, 432) \
	CALL(thr_kill, 433) CALL(sched_yield, 331)
#define OTHER_CALLS(CALL) \
	CALL(readv, 120) CALL(writev, 121) CALL(close_range, 575) CALL(select, 93) CALL(kqueue, 362) CALL(kevent, 560) \
	CALL(getpgid, 207) CALL(getsid, 310) CALL(pdkill, 519) CALL(pdgetpid, 520) CALL(sigaction, 416) CALL(sigprocmask, 340) \
	CALL(sigaltstack, 53) CALL(nanosleep, 240) CALL(ptrace, 26) CALL(sysctl, 202) CALL(procctl, 544) CALL(timer_create, 235) \
	CALL(timer_delete, 236) CALL(timer_settime, 237) CALL(timer_gettime, 238) CALL(timer_getoverrun, 239) CALL(getitimer, 86) \
	CALL(setitimer, 83) CALL(getrlimit, 194) CALL(setrlimit, 195)
/* They make the system call of another one (tracehost_find_arguments), and ask at once. */
#define OTHER_FORMS(CALL) CALL(waitpid, 7) CALL(wait, 7) CALL(wait3, 7) CALL(raise, 433) CALL(pipe, 542)

#define DECLARE(name, code) extern const char call_##name[] __asm__("tracehost_call_" #name);
CALLS_THAT_ASK(DECLARE)
OTHER_CALLS(DECLARE)
OTHER_FORMS(DECLARE)

/* clang-format on */

enum { CODES = 600 /* more than FreeBSD has */ };
static const struct row {
	const void *function;
	int code;
	enum { ASKS, BEGINS, OF_HOST } kind;
} rows[] = {
#define ASKING(name, code) {call_##name, code, ASKS},
#define BEGINNING(name, code) {call_##name, code, BEGINS},
#define HOST(name, code, count) {(const void *)(size_t)name, code, OF_HOST},
	CALLS_THAT_ASK(ASKING) OTHER_CALLS(BEGINNING) OTHER_FORMS(ASKING)
#include "hosts.inc"
		{(const void *)(size_t)open, SYSCALL_OPEN, OF_HOST}, /* what the C library doesn't make */
};

static const struct row *row_of(const void *function)
{
	for (size_t i = 0; i < sizeof rows / sizeof rows[0]; i++)
		if (rows[i].function == function)
			return &rows[i];
	return NULL;
}

static const struct row *row_by_code(int code)
{
	for (size_t i = 0; i < sizeof rows / sizeof rows[0]; i++)
		if (rows[i].code == code)
			return &rows[i];
	return NULL;
}

/* ---- arguments */

static void set(long to[6], long a, long b, long c, long d, long e, long f)
{
	const long all[6] = {a, b, c, d, e, f};
	memcpy(to, all, sizeof all);
}

#define IS(name) (of == (const void *)(size_t)(name))

static int find_files(long to[6], const void *of, const long g[6])
{
	if (IS(open))
		set(to, AT_FDCWD, g[0], g[1], g[2], 0, 0);
	else if (IS(creat))
		set(to, AT_FDCWD, g[0], O_CREAT | O_WRONLY | O_TRUNC, g[1], 0, 0);
	else if (IS(stat))
		set(to, AT_FDCWD, g[0], g[1], 0, 0, 0);
	else if (IS(lstat))
		set(to, AT_FDCWD, g[0], g[1], AT_SYMLINK_NOFOLLOW, 0, 0);
	else if (IS(send) || IS(recv))
		set(to, g[0], g[1], g[2], g[3], 0, 0);
	else
		return 0;
	return 1;
}

/* The arguments of the system call that FreeBSD's function makes: most often its own. */
void tracehost_find_arguments(long to[6], const struct frame *frame)
{
	const void *of = frame->function;
	const long g[6] = {(long)frame->rdi, (long)frame->rsi, (long)frame->rdx, (long)frame->rcx, (long)frame->r8, (long)frame->r9};
	if (own.reported == frame)
		memcpy(to, own.arguments, sizeof own.arguments);
	else if (IS(call_waitpid))
		set(to, g[0], g[1], g[2], 0, 0, 0);
	else if (IS(call_wait))
		set(to, -1, g[0], 0, 0, 0, 0);
	else if (IS(call_wait3))
		set(to, -1, g[0], g[1], g[2], 0, 0);
	else if (IS(call_raise))
		set(to, own.tid, g[0], 0, 0, 0, 0);
	else if (IS(call_pipe))
		set(to, g[0], 0, 0, 0, 0, 0);
	else if (!find_files(to, of, g))
		memcpy(to, g, sizeof g);
}

/* What the registers are now: a debugger may have set them. The fourth argument is in rcx, where the kernel has put r10. */
static int take_registers(int code)
{
	const struct reg *set = &own.later.general;
	if (!own.set_at_entry)
		return code;
	own.set_at_entry = 0;
	const long arguments[6] = {set->r_rdi, set->r_rsi, set->r_rdx, set->r_rcx, set->r_r8, set->r_r9};
	memcpy(own.arguments, arguments, sizeof arguments);
	return (int)set->r_rax;
}

/* ---- calls */

static long call(const void *function, const long a[6])
{
	return ((long (*)(long, long, long, long, long, long))(size_t)function)(a[0], a[1], a[2], a[3], a[4], a[5]);
}

/* For what a function of the host's may wait; 0 for nothing. */
static short waits_for(const void *of, const long a[6])
{
	if (IS(accept) || IS(accept4))
		return POLLIN;
	if (IS(recvfrom) || IS(recvmsg))
		return a[IS(recvfrom) ? 3 : 2] & MSG_DONTWAIT ? 0 : POLLIN;
	if (IS(sendto) || IS(sendmsg))
		return a[IS(sendto) ? 3 : 2] & MSG_DONTWAIT ? 0 : POLLOUT;
	return IS(connect) ? POLLOUT : 0;
}

/* A call on a socket: while it would wait others go on, as in read(2). */
static long call_on_socket(const struct row *row, short events, const long arguments[6])
{
	struct pollfd ready = {.fd = (int)arguments[0], .events = events};
	const char *kind = events == POLLIN ? "read" : "write";
	tracehost_ask(HERE, "enter %d %s %d", row->code, kind, ready.fd);
	while (!(fcntl(ready.fd, F_GETFL) & O_NONBLOCK) && tracehost_look(&ready) == 0)
		if (tracehost_ask(HERE, "again %s %d", kind, ready.fd) != 0)
			return -1;
	long result = call(row->function, arguments);
	int saved = errno;
	tracehost_ask(HERE, "leave");
	errno = saved;
	return result;
}

static long call_row(const struct row *row)
{
	short events = row->kind == OF_HOST ? waits_for(row->function, own.arguments) : 0;
	return events != 0 ? call_on_socket(row, events, own.arguments) : call(row->function, own.arguments);
}

/* Not the system call that was entered: the one of this number. */
static long call_another(int code)
{
	const struct row *row = row_by_code(code);
	tracehost_ask(HERE, "replace %d %d", code, row != NULL || code < 0 || code >= CODES);
	if (row != NULL)
		return call_row(row);
	errno = ENOSYS;
	return -1;
}

/* The function reports the call itself, unless a debugger changes something at the entry: then the call begins anew. */
static int is_done_by_itself(const struct row *row, const long given[6], long *result)
{
	jmp_buf anew;
	if (_setjmp(anew) != 0) {
		own.begun = 1;
		return 0;
	}
	own.anew = &anew;
	*result = call(row->function, given);
	own.anew = NULL;
	return 1;
}

/* A call of FreeBSD's that only the host has, with the same arguments. */
static long call_host(int number)
{
	const long result = tracehost_host_call(number, own.arguments);
	if (result < 0 && result > -4096) {
		errno = (int)-result;
		return -1;
	}
	return result;
}

static long fail_unknown(int code)
{
	tracehost_say("syscall: call %d does nothing here, and is answered ENOSYS", code);
	errno = ENOSYS;
	return -1;
}

static long make_same(int code, int number)
{
	const struct row *row = row_by_code(code);
	return number != 0 ? call_host(number) : row != NULL ? call_row(row) : fail_unknown(code);
}

/* Behind the entry; of a call that no function makes the host has the number. */
static long make_entered(int code, int number)
{
	const int now = take_registers(code);
	const long result = now == code ? make_same(code, number) : call_another(now);
	const int saved = errno;
	if (own.begun)
		tracehost_ask(HERE, "end %d", now < 0 || now >= CODES ? BSD_SIGSYS : 0);
	errno = saved;
	return result;
}

static long report_and_call(const struct frame *frame, const struct row *row, const long given[6])
{
	long result;
	tracehost_find_arguments(own.arguments, frame);
	own.reported = frame, own.set_at_entry = 0;
	if (row->kind != ASKS)
		tracehost_ask(HERE, "begin %d", row->code);
	else if (is_done_by_itself(row, given, &result))
		return result;
	return make_entered(row->code, 0);
}

/* A call that was entered before its debugger asked for entries: whether it has done nothing yet. */
int tracehost_may_restart(const struct frame *frame)
{
	const struct row *row = frame->was_inside || frame->asked ? NULL : row_of(frame->function);
	return row != NULL && row->kind == ASKS;
}

/* Such a call begins anew, behind its entry, with what a debugger has set there. */
long tracehost_restarted_call(struct frame *frame)
{
	const struct row *row = row_of(frame->function);
	tracehost_find_arguments(own.arguments, frame);
	own.reported = frame, own.begun = 1;
	return make_entered(row->code, 0);
}

/* A call that is no function of the program's. What is known of one that it comes in the midst of is kept. */
long tracehost_reported_code(const struct frame *frame, int code, int number, const long arguments[6])
{
	const struct frame *outer = own.reported;
	long kept[6];
	memcpy(kept, own.arguments, sizeof kept);
	memcpy(own.arguments, arguments, sizeof own.arguments);
	own.reported = frame, own.set_at_entry = 0;
	tracehost_ask(HERE, "begin %d", code < 0 ? INT_MAX : code);
	const long result = make_entered(code, number);
	own.reported = outer;
	memcpy(own.arguments, kept, sizeof kept);
	return result;
}

/* A system call by FreeBSD's number. */
long tracehost_system_call(int code, const long arguments[6])
{
	const struct row *row = row_by_code(code);
	if (own.now.reports)
		return tracehost_reported_code(own.now.frame, code, 0, arguments);
	if (row != NULL)
		return call(row->function, arguments);
	ask("call %d", code);
	return fail_unknown(code);
}

/* In place of the call's function. What is known of a call that this one comes in the midst of, by a handler, is kept. */
long tracehost_reported_call(struct frame *frame)
{
	const struct row *row = frame->was_inside ? NULL : row_of(frame->function);
	const long given[6] = {
		(long)frame->rdi, (long)frame->rsi, (long)frame->rdx, (long)frame->rcx, (long)frame->r8, (long)frame->r9};
	const struct frame *outer = own.reported;
	long kept[6];
	memcpy(kept, own.arguments, sizeof kept);
	own.reported = NULL;
	long result = row != NULL ? report_and_call(frame, row, given) : call(frame->function, given);
	if (outer > frame) {
		own.reported = outer;
		memcpy(own.arguments, kept, sizeof kept);
	}
	return result;
}
