/* The host's own signals: a thread is made to ask, a fault becomes FreeBSD's, and calls are held or dispatched. */
#define _GNU_SOURCE
#include <stdio.h>
#include <string.h>
#include <sys/socket.h>
#include <sys/syscall.h>
#include <ucontext.h>
#include <unistd.h>
#include "freebsd.h"
#include "runtime.h"

enum {
	HELD_CALL = 1, /* si_code of a SIGSYS by seccomp(2), SYS_SECCOMP of the kernel's headers; and of one of dispatch.c */
	DISPATCHED_CALL = 2,
};

/* Where a signal has met the program; a call is looked up by the address behind it. */
static const void *place_of(void *context) { return (const void *)(((ucontext_t *)context)->uc_mcontext.gregs[REG_RIP] + 1); }

/* A question at any place of the program, in the midst of a call of the runtime too: what that has not read yet of its
 * own answer is kept. */
void tracehost_ask_between(const void *where, const char *question, void *context)
{
	int saved = errno, passed = own.passed;
	void *outer = own.now.context, *interrupted = own.now.interrupted;
	char *at = own.at;
	size_t size = strlen(at) + 1;
	char rest[size];
	memcpy(rest, at, size);
	own.now.context = own.now.inside ? NULL : context, own.now.interrupted = context;
	tracehost_ask(where, "%s", question);
	own.now.context = outer, own.now.interrupted = interrupted;
	memcpy(at, rest, size);
	own.at = at, own.passed = passed;
	errno = saved;
}

/* On its way into a call, or out of it. */
int tracehost_is_in_entry(void *context)
{
	const char *at = (const char *)((ucontext_t *)context)->uc_mcontext.gregs[REG_RIP];
	return at >= __start_tracehost_entry && at < __stop_tracehost_entry;
}

/* A handler of the host's signals begins, and ends: in the runtime no call is dispatched. What the program's next call is, a
 * question in between may have changed. */
struct handling {
	char selector, handles;
};

static struct handling begin_handling(void)
{
	const struct handling before = {own.now.selector, own.now.handles};
	own.now.selector = 0, own.now.handles = 1;
	return before;
}

static void end_handling(struct handling before, void *context)
{
	const int is_program = !before.handles && !own.now.inside && !own.busy && own.fd >= 0 && !tracehost_is_in_entry(context);
	own.now.handles = before.handles;
	own.now.selector = is_program ? own.now.watches : before.selector;
}

static void make_ask(const char *question, void *context)
{
	if (question != NULL && !tracehost_looks_for_leaks()) /* however long that takes, it is no computation of the program's */
		tracehost_ask_between(place_of(context), question, context);
}

static void look_at_poke(const siginfo_t *info, void *context)
{
	if (own.busy || own.fd < 0 || tracehost_is_in_entry(context))
		return;
	make_ask(info->si_code == SI_TIMER ? tracehost_question_of_tick(context) : "poke 1", context);
}

static void on_poke(int number, siginfo_t *info, void *context)
{
	const struct handling before = begin_handling();
	(void)number;
	look_at_poke(info, context);
	end_handling(before, context);
}

/* If the server and the broker are killed, nobody ends a process that sleeps in a call of the host's: it does itself. */
static void on_parent_end(int number, siginfo_t *info, void *context)
{
	char byte;
	const int saved = errno;
	const struct handling before = begin_handling();
	(void)number, (void)info;
	for (int i = 0; i < THREADS; i++)
		if (own_fds[i] != 0 && recv(own_fds[i], &byte, 1, MSG_PEEK | MSG_DONTWAIT) == 0)
			_exit(0);
	end_handling(before, context);
	errno = saved;
}

/* A fault as FreeBSD reports it: sys/amd64/amd64/trap.c. */
struct fault {
	int number, code;
	const void *address;
};

/* The host tells a page fault by its address, and all else by SI_KERNEL: an address that isn't canonical, a privileged
 * instruction. */
static struct fault fault_of_memory(int number, const siginfo_t *info, const void *at)
{
	if (info->si_code == SI_KERNEL)
		return (struct fault){BSD_SIGBUS, BUS_OBJERR, at};
	if (number == SIGSEGV)
		return (struct fault){BSD_SIGSEGV, info->si_code, info->si_addr};
	if (info->si_code == BUS_ADRALN)
		return (struct fault){BSD_SIGBUS, BUS_ADRALN, at};
	return (struct fault){BSD_SIGBUS, BUS_OBJERR, info->si_addr}; /* behind the end of a file */
}

/* Both arithmetic codes for integers have each other's numbers. */
static int code_of_arithmetic(int code) { return code == FPE_INTDIV ? BSD_FPE_INTDIV : code == FPE_INTOVF ? BSD_FPE_INTOVF : code; }

static struct fault fault_of(int number, const siginfo_t *info, const void *at)
{
	switch (number) {
	case SIGFPE: return (struct fault){BSD_SIGFPE, code_of_arithmetic(info->si_code), at};
	case SIGILL: return (struct fault){BSD_SIGILL, ILL_PRVOPC, at};
	case SIGTRAP: return (struct fault){BSD_SIGTRAP, info->si_code == HOST_TRAP_PERF ? TRAP_TRACE : TRAP_BRKPT, at};
	case SIGSYS: return (struct fault){BSD_SIGSYS, info->si_code, at};
	default: return fault_of_memory(number, info, at);
	}
}

/* The host's signal of a fault as FreeBSD has it. */
static int freebsd_number(int number)
{
	static const int table[][2] = {{SIGSEGV, BSD_SIGSEGV}, {SIGBUS, BSD_SIGBUS}, {SIGFPE, BSD_SIGFPE}, {SIGILL, BSD_SIGILL},
		{SIGTRAP, BSD_SIGTRAP}, {SIGSYS, BSD_SIGSYS}};
	for (size_t i = 0; i < sizeof table / sizeof table[0]; i++)
		if (table[i][0] == number)
			return table[i][1];
	return BSD_SIGABRT;
}

static void look_at_fault(int number, siginfo_t *info, void *context)
{
	char question[64];
	const char *at = (const char *)((ucontext_t *)context)->uc_mcontext.gregs[REG_RIP], *poke;
	if (number == SIGTRAP && info->si_code == TRAP_TRACE && tracehost_step_of_loop(context, &poke)) {
		make_ask(poke, context);
		return;
	}
	if (number == SIGSYS && info->si_code == HELD_CALL) {
		tracehost_held_call(info, context);
		return;
	}
	if (number == SIGTRAP && tracehost_trap(info, context))
		return;
	if (own.busy || own.fd < 0 || tracehost_is_in_entry(context)) { /* the runtime's own fault; or no stack is left for a handler */
		signal(number, SIG_DFL);
		return;
	}
	const struct fault sent = {freebsd_number(number), BSD_SI_LWP, NULL};
	const struct fault fault = info->si_code <= 0 ? sent : fault_of(number, info, at);
	snprintf(question, sizeof question, "fault %d %d %ld", fault.number, fault.code, (long)fault.address);
	tracehost_ask_between(number == SIGTRAP ? at : own.now.inside ? HERE : at + 1, question, context);
}

static void on_fault(int number, siginfo_t *info, void *context)
{
	const struct handling before = begin_handling();
	if (number == SIGSYS && info->si_code == DISPATCHED_CALL) {
		if (tracehost_dispatch(info, context)) {
			own.now.handles = before.handles; /* the selector stays: the call isn't dispatched again */
			return;
		}
	} else
		look_at_fault(number, info, context);
	end_handling(before, context);
}

void tracehost_host_signals(void)
{
	static const int faults[] = {SIGSEGV, SIGBUS, SIGFPE, SIGILL, SIGTRAP, SIGABRT, SIGSYS};
	struct sigaction action = {.sa_sigaction = on_fault, .sa_flags = SA_SIGINFO | SA_NODEFER | SA_RESTART | SA_ONSTACK};
	for (size_t i = 0; i < sizeof faults / sizeof faults[0]; i++)
		sigaction(faults[i], &action, NULL);
	action.sa_sigaction = on_poke;
	sigaction(POKE, &action, NULL);
	action.sa_sigaction = on_parent_end;
	sigaction(PARENT_ENDS, &action, NULL);
	signal(SIGCHLD, SIG_DFL); /* children of the host are collected by the server, when their parent has ended */
	signal(SIGPIPE, SIG_IGN); /* a broken pipe is posted by write */
}
