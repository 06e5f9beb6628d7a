/* Stacks. The runtime has two stacks for each thread. The program's calls run on one (entry.S), and the host's signals on
 * the other. So nothing of the runtime is on the program's stack, and a debugger may write below the stack pointer of a
 * stopped thread. The program's handlers run on the program's stack, as a kernel calls them, or on that of sigaltstack(2). */
#define _GNU_SOURCE
#include <string.h>
#include <sys/mman.h>
#include <ucontext.h>
#include "freebsd.h"
#include "runtime.h"

enum {
	BSD_SS_ONSTACK = 1,
	BSD_SS_DISABLE = 4,
	SMALLEST = 16384, /* FreeBSD's is smaller: the runtime needed room there once */
	CALLS = 32 << 20,
	SIGNALS = 32 << 20, /* only what is used takes memory */
	BETWEEN = 2048, /* left to what runs already, as another level begins below it */
	LOW = 64 << 10, /* a level needs less */
	KEPT = 8, /* so many threads' stacks are left to later ones */
	RED_ZONE = 128,
};

/* From now on a signal of the host's begins there. It takes that stack off itself: so it may be set in a handler. */
static void set_signals(char *top)
{
	const int autodisarm = (int)(1U << 31); /* SS_AUTODISARM of the kernel's headers */
	own.now.signals = top;
	sigaltstack(&(stack_t){.ss_sp = own.stacks, .ss_size = (size_t)(top - own.stacks), .ss_flags = autodisarm}, NULL);
}

static int made_stacks; /* of all threads; a fork's child has them too */
static char *kept_stacks[KEPT]; /* of threads that have ended: to unmap them takes longer than all else at an end */

size_t tracehost_memory_of_stacks(void) { return (size_t)__atomic_load_n(&made_stacks, __ATOMIC_RELAXED) * (SIGNALS + CALLS); }

static char *kept_one(void)
{
	char *found = NULL;
	for (int i = 0; i < KEPT && found == NULL; i++)
		found = __atomic_exchange_n(&kept_stacks[i], NULL, __ATOMIC_ACQ_REL);
	return found;
}

static int keep(char *stacks)
{
	for (int i = 0; i < KEPT; i++) {
		char *none = NULL;
		if (__atomic_compare_exchange_n(&kept_stacks[i], &none, stacks, 0, __ATOMIC_ACQ_REL, __ATOMIC_RELAXED))
			return 1;
	}
	return 0;
}

static char *new_one(void)
{
	tracehost_lift_limits();
	char *made = mmap(NULL, SIGNALS + CALLS, PROT_READ | PROT_WRITE, MAP_PRIVATE | MAP_ANONYMOUS | MAP_NORESERVE, -1, 0);
	if (made == MAP_FAILED)
		tracehost_broken("no stack is left for the runtime");
	__atomic_fetch_add(&made_stacks, 1, __ATOMIC_RELAXED);
	tracehost_lower_limits();
	return made;
}

void tracehost_make_stacks(void)
{
	if (own.stacks != NULL)
		return; /* a fork has them already */
	char *stacks = kept_one();
	own.stacks = stacks != NULL ? stacks : new_one();
	own.now.top = own.stacks + SIGNALS + CALLS;
	if (sigaltstack(NULL, &own.former_stack) != 0)
		tracehost_broken("no stack is left for the runtime");
	set_signals(own.stacks + SIGNALS);
}

void tracehost_drop_stacks(void)
{
	sigaltstack(&own.former_stack, NULL); /* a sanitizer's, which it looks for */
	if (!keep(own.stacks)) {
		munmap(own.stacks, SIGNALS + CALLS);
		__atomic_fetch_sub(&made_stacks, 1, __ATOMIC_RELAXED);
	}
	own.stacks = NULL;
}

static void __attribute__((noreturn)) tell_depth(void)
{
	errno = ENOMEM;
	tracehost_broken("so many handlers run within handlers that the runtime's stack for them is used up");
}

static int is_for_calls(const char *at)
{
	return own.stacks != NULL && at > own.stacks + SIGNALS && at <= own.stacks + SIGNALS + CALLS;
}
static char *aligned(char *at) { return (char *)((size_t)at & ~15UL); }

void tracehost_leave_runtime(void)
{
	own.now.inside = own.now.lands = own.now.handles = 0;
	own.now.context = own.now.interrupted = NULL;
	own.now.selector = own.now.watches;
}

/* ---- jumps out of handlers: what runs below is gone */

void tracehost_back_to(char *top, char *signals)
{
	own.now.top = top;
	if (own.now.signals != signals)
		set_signals(signals);
	tracehost_leave_runtime();
}

/* ---- the program's functions, called from the runtime */

static char *stack_pointer(void *context) { return (char *)((ucontext_t *)context)->uc_mcontext.gregs[REG_RSP]; }

/* The stack pointer of what the runtime has interrupted, or that has called it. */
static char *program_stack(void)
{
	if (own.now.context != NULL)
		return stack_pointer(own.now.context);
	return own.now.inside ? tracehost_stack_of(own.now.frame) : NULL;
}

static int is_on(const stack_t *stack, const char *at)
{
	const char *from = stack->ss_sp;
	return from != NULL && at >= from && at < from + stack->ss_size;
}

/* Calls and signals that come while the program's function runs begin below what runs now. */
static void lower(void)
{
	char *here = __builtin_frame_address(0);
	if (is_for_calls(here))
		own.now.top = aligned(here - BETWEEN);
	else if (own.now.interrupted != NULL) {
		set_signals(aligned(here - BETWEEN));
		if (is_for_calls(stack_pointer(own.now.interrupted)))
			own.now.top = aligned(stack_pointer(own.now.interrupted) - BETWEEN);
	}
	if (own.stacks != NULL && (own.now.signals < own.stacks + LOW || own.now.top < own.stacks + SIGNALS + LOW))
		tell_depth();
}

void tracehost_call_program(struct outcall *call, int on_other_stack)
{
	const struct now before = own.now;
	char *stack = program_stack();
	call->frame_pointer = own.now.context != NULL ? (size_t)((ucontext_t *)own.now.context)->uc_mcontext.gregs[REG_RBP]
						  : own.now.inside        ? own.now.frame->rbp
												  : 0;
	if (on_other_stack && own.other_stack.ss_sp != NULL && !is_on(&own.other_stack, stack))
		call->stack = aligned((char *)own.other_stack.ss_sp + own.other_stack.ss_size);
	else
		call->stack = aligned((stack != NULL ? stack : (char *)__builtin_frame_address(0) - BETWEEN) - RED_ZONE);
	lower();
	tracehost_leave_runtime();
	own.busy = 0;
	tracehost_on_stack(call);
	own.busy = 1;
	own.now = before;
}

/* ---- sigaltstack(2) */

int tracehost_sigaltstack(const stack_t *new, stack_t *old)
{
	const stack_t before = own.other_stack;
	int on = is_on(&before, program_stack());
	ask("call %d", SYSCALL_SIGALTSTACK);
	if (new != NULL && (on || (new->ss_flags & ~BSD_SS_DISABLE) != 0)) {
		errno = on ? EPERM : EINVAL;
		return -1;
	}
	if (new != NULL && !(new->ss_flags &BSD_SS_DISABLE) && new->ss_size < SMALLEST) {
		errno = ENOMEM;
		return -1;
	}
	if (old != NULL) {
		*old = before;
		old->ss_flags = before.ss_sp == NULL ? BSD_SS_DISABLE : on ? BSD_SS_ONSTACK : 0;
	}
	if (new != NULL)
		own.other_stack = new->ss_flags &BSD_SS_DISABLE ? (stack_t){0} : *new;
	return 0;
}
