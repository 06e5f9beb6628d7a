/* A coroutine for each LWP, so that a call reads from top to bottom. */
#include <stdlib.h>
#include <sys/mman.h>
#include "run.h"
#ifdef USE_VALGRIND /* it has to know of the stacks */
#include <valgrind/valgrind.h>
#else
#define VALGRIND_STACK_REGISTER(first, end) ((void)0)
#endif

enum { STACK = 1 << 20, GUARD = 4096, LOW = 64 << 10 };

static ucontext_t home;
static LIST(char *) unused; /* stacks */
static LIST(struct {
	struct lwp *of;
	char *stack;
}) owned;
static struct info deeper; /* what a handler's new stack begins with */
static struct lwp *running, *leaving; /* leaving: its stack is in use until the switch is made */
static struct lwp *renewed; /* the same, of its former stacks */
static void (*life_of)(struct lwp *l);

static char *new_stack(void)
{
	if (unused.count > 0)
		return unused.at[--unused.count];
	char *stack = mmap(NULL, GUARD + STACK, PROT_READ | PROT_WRITE, MAP_PRIVATE | MAP_ANONYMOUS | MAP_NORESERVE | MAP_STACK, -1, 0);
	if (stack == MAP_FAILED || mprotect(stack, GUARD, PROT_NONE) != 0)
		broken("no memory is left for an LWP's stack");
	VALGRIND_STACK_REGISTER(stack + GUARD, stack + GUARD + STACK);
	return stack;
}

static char *stack_for(struct lwp *l)
{
	char *stack = new_stack();
	APPEND(&owned, (typeof(*owned.at)){l, stack});
	return stack;
}

static size_t place_of(const char *stack)
{
	size_t place = 0;
	while (owned.at[place].stack != stack)
		place++;
	return place;
}

/* Its stacks, except one that it keeps. */
static void give_back_but(struct lwp *l, const char *kept)
{
	for (size_t i = owned.count; i-- > 0;)
		if (owned.at[i].of == l && owned.at[i].stack != kept) {
			APPEND(&unused, owned.at[i].stack);
			TAKE_OUT(&owned, i);
		}
}

static void give_back(struct lwp *l)
{
	give_back_but(l, NULL);
	l->stack = NULL;
}

static void arrive(void)
{
	if (leaving != NULL && leaving != running && leaving->stack != NULL)
		give_back(leaving);
	leaving = NULL;
	if (renewed != NULL)
		give_back_but(renewed, renewed->stack);
	renewed = NULL;
}

static void begin(void)
{
	arrive();
	life_of(running);
	abort(); /* a life ends in vanish() */
}

static void prepare_context(ucontext_t *context, char *stack, void (*function)(void), ucontext_t *after)
{
	getcontext(context);
	context->uc_stack.ss_sp = stack + GUARD;
	context->uc_stack.ss_size = STACK;
	context->uc_link = after;
	makecontext(context, function, 0);
}

static void prepare(struct lwp *l)
{
	l->started = true;
	l->stack = stack_for(l);
	prepare_context(&l->context, l->stack, begin, NULL);
}

/* By contexts and not by a jump: those of each stack have a shadow stack of their own. */
void begin_anew(struct lwp *l)
{
	static ucontext_t nowhere;
	l->renewed = true;
	prepare(l);
	renewed = l;
	swapcontext(&nowhere, &l->context);
	abort();
}

void switch_to(struct lwp *from, struct lwp *to)
{
	if (from == to)
		return;
	if (to != NULL && !to->started)
		prepare(to);
	running = to;
	swapcontext(from != NULL ? &from->context : &home, to != NULL ? &to->context : &home);
	arrive();
}

/* Returns once the run is over. */
void start_with(struct lwp *first, void (*life)(struct lwp *l))
{
	life_of = life;
	switch_to(NULL, first);
}

_Noreturn void leave_run(void)
{
	static ucontext_t nowhere;
	running = NULL;
	swapcontext(&nowhere, &home);
	abort();
}

void retire(struct lwp *l)
{
	if (l->stack == NULL)
		return;
	if (l == running)
		leaving = l;
	else
		give_back(l);
}

/* The run is over: what its LWPs stood in is forgotten. */
void coroutines_end(void)
{
	leaving = renewed = NULL;
	while (owned.count > 0)
		give_back(owned.at[owned.count - 1].of);
}

/* ---- handlers within handlers may use up a stack: then the next one begins another */

static void begin_handler(void) { run_handler(running, deeper); }

/* Whether the handler has run, on a stack of its own. */
bool ran_on_another_stack(struct lwp *l, struct info info)
{
	ucontext_t here, there;
	char *at = __builtin_frame_address(0), *former = l->stack;
	if (at - (former + GUARD) >= LOW)
		return false;
	l->stack = stack_for(l);
	deeper = info;
	prepare_context(&there, l->stack, begin_handler, &here);
	swapcontext(&here, &there);
	APPEND(&unused, l->stack);
	TAKE_OUT(&owned, place_of(l->stack));
	l->stack = former;
	return true;
}
