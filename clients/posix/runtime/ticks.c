/* A thread that asks nothing for long is made to ask: if it computes, or as soon as it spins.
 *
 * The host's kernel says how long a thread has had a processor, and counts what a virtual machine's host takes away in the midst
 * of an instruction as the thread's. So a tick counts at most as much as that kernel may be late, and a thread that is at the
 * same place at two ticks spins only if single steps lead it back there. */
#define _GNU_SOURCE
#include <string.h>
#include <sys/resource.h>
#include <sys/syscall.h>
#include <ucontext.h>
#include <unistd.h>
#include "../include/machine/psl.h"
#include "runtime.h"

enum {
	TICK_MS = 2, /* of a thread's processor time, or as often as the host's kernel looks */
	LATEST_MS = 10, /* a kernel looks at least 100 times a second */
	COMPUTES_MS = 95, /* after which it is made to ask */
	LOOP_BYTES = 64, /* of one that waits for another thread's store */
	LOOP_STEPS = 256,
};

static greg_t *general(void *context) { return ((ucontext_t *)context)->uc_mcontext.gregs; }

static long used_ms(void)
{
	struct timespec used;
	clock_gettime(CLOCK_THREAD_CPUTIME_ID, &used);
	return used.tv_sec * 1000 + used.tv_nsec / 1000000;
}

static long page_faults(void)
{
	struct rusage usage = {0};
	getrusage(RUSAGE_THREAD, &usage);
	return usage.ru_minflt + usage.ru_majflt;
}

/* Whether the thread is where it was at the last tick, with the same registers. One that waits for its memory, on a host that
 * has little of it, is there too. */
static int stays(const greg_t *g)
{
	const greg_t moved = g[REG_RIP] - own.sample[REG_RIP];
	const long faults = page_faults();
	const int is_same = own.has_sample && faults == own.faults && moved > -LOOP_BYTES && moved < LOOP_BYTES &&
						memcmp(g, own.sample, sizeof(greg_t) * REG_RIP) == 0;
	memcpy(own.sample, g, sizeof own.sample);
	own.has_sample = 1, own.faults = faults;
	return is_same;
}

/* A loop that only reads memory makes no call of the system; and what stores the flags would store that of single steps. */
static int may_step(const greg_t *g)
{
	enum { SIZE = 0x66, REX = 0x40, REXES = 0xf0, PUSHF = 0x9c, INT = 0xcd, TWO = 0x0f, SYSCALL = 0x05, SYSENTER = 0x34 };
	const unsigned char *at = (const unsigned char *)g[REG_RIP];
	while (*at == SIZE || (*at & REXES) == REX)
		at++;
	return !(*at == PUSHF || *at == INT || (*at == TWO && (at[1] == SYSCALL || at[1] == SYSENTER)));
}

static void begin_steps(greg_t *g)
{
	if (own.now.inside || g[REG_EFL] & PSL_T || !may_step(g)) /* in a call, or a debugger makes it step */
		return;
	own.steps = LOOP_STEPS;
	g[REG_EFL] |= PSL_T;
}

/* The trap of a single step: whether it is one of these, and the question of a thread that is back where it was. */
int tracehost_step_of_loop(void *context, const char **question)
{
	greg_t *g = general(context);
	if (own.steps == 0)
		return 0;
	const int is_back = g[REG_RIP] == own.sample[REG_RIP] && memcmp(g, own.sample, sizeof(greg_t) * REG_RIP) == 0;
	if (--own.steps == 0 || is_back || own.busy || own.now.inside || tracehost_is_in_entry(context) || !may_step(g)) {
		g[REG_EFL] &= ~PSL_T;
		own.steps = own.has_sample = 0;
	}
	*question = is_back ? "poke 2" : NULL;
	return 1;
}

/* The question of a thread that has asked nothing for long; NULL for none. */
const char *tracehost_question_of_tick(void *context)
{
	const long used = used_ms(), had = used - own.used;
	own.used = used;
	if (own.seen != own.questions) /* it has asked since the last tick */
		own.seen = own.questions, own.computed = own.has_sample = 0;
	else
		own.computed += had < LATEST_MS ? had : LATEST_MS;
	if (own.computed >= COMPUTES_MS)
		return "poke 0";
	if (own.steps == 0 && stays(general(context)))
		begin_steps(general(context));
	return NULL;
}

/* A thread that computes for long without a question is made to ask. */
void tracehost_start_ticks(void)
{
	struct sigevent event = {.sigev_notify = SIGEV_THREAD_ID, .sigev_signo = POKE};
	struct itimerspec every = {{0, TICK_MS * 1000000}, {0, TICK_MS * 1000000}};
	event._sigev_un._tid = syscall(SYS_gettid);
	if (timer_create(CLOCK_THREAD_CPUTIME_ID, &event, &own.tick) == 0)
		timer_settime(own.tick, 0, &every, NULL);
}
