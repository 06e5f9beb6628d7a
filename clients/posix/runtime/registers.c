/* Registers of a thread that is in a question, its steps, and the context of its handlers.
 *
 * A thread that a signal of the host's has stopped, that lands, or that is born has the context of that signal: what is set
 * there takes effect at once. One in a call has the registers that the program called with (entry.S): what is set there
 * takes effect as the call returns, by a landing. A step is the processor's trap flag; a call of the runtime is one step,
 * as the system call in it. */
#define _GNU_SOURCE
#include <asm/prctl.h>
#include <stdio.h>
#include <string.h>
#include <sys/syscall.h>
#include <ucontext.h>
#include <unistd.h>
#include "../include/machine/psl.h"
#include "freebsd.h"
#include "runtime.h"

enum {
	WRITABLE = PSL_USERCHANGE & ~(PSL_T | PSL_RF), /* the trap flag is PT_STEP's */
	ARITHMETIC = PSL_C | PSL_PF | PSL_AF | PSL_Z | PSL_N | PSL_V,
	GENERAL_REGISTERS = 15 * sizeof(long), /* as many words come first in struct reg and in struct frame, in one order */
};
_Static_assert(
	offsetof(struct reg, r_trapno) == GENERAL_REGISTERS && offsetof(struct frame, flags) == GENERAL_REGISTERS, "the same order");
_Static_assert(sizeof(struct fpreg) == 512, "as fxsave has them");

static greg_t *general(void *context) { return ((ucontext_t *)context)->uc_mcontext.gregs; }

/* Where struct reg has its first words, in the host's context. */
static const int places[15] = {REG_R15, REG_R14, REG_R13, REG_R12, REG_R11, REG_R10, REG_R9, REG_R8, REG_RDI, REG_RSI, REG_RBP,
	REG_RBX, REG_RDX, REG_RCX, REG_RAX};

static void from_context(struct reg *to, void *context)
{
	const greg_t *g = general(context);
	const unsigned long segments = (unsigned long)g[REG_CSGSFS];
	for (int i = 0; i < 15; i++)
		(&to->r_r15)[i] = g[places[i]];
	to->r_trapno = (uint32_t)g[REG_TRAPNO], to->r_err = (uint32_t)g[REG_ERR];
	to->r_rip = g[REG_RIP], to->r_rsp = g[REG_RSP], to->r_rflags = g[REG_EFL] & ~PSL_T;
	to->r_cs = segments & 0xffff, to->r_gs = segments >> 16 & 0xffff, to->r_fs = segments >> 32 & 0xffff;
	to->r_ss = (int64_t)(segments >> 48);
}

static void to_context(void *context, const struct reg *from)
{
	greg_t *g = general(context);
	for (int i = 0; i < 15; i++)
		g[places[i]] = (&from->r_r15)[i];
	g[REG_RIP] = from->r_rip, g[REG_RSP] = from->r_rsp;
	g[REG_EFL] = (g[REG_EFL] & ~WRITABLE) | (from->r_rflags & WRITABLE);
}

/* The legacy area of xrstor(2)'s image; the image says whether it counts. */
static void floats_to_context(void *context, const struct fpreg *from)
{
	enum { MAGIC = 0x46505853, MAGIC_AT = 464, STATES_AT = 512, LEGACY = 3 };
	char *image = (char *)((ucontext_t *)context)->uc_mcontext.fpregs;
	uint32_t magic;
	if (image == NULL)
		return;
	memcpy(&magic, image + MAGIC_AT, sizeof magic);
	memcpy(image, from, offsetof(struct fpreg, fpr_spare));
	if (magic == MAGIC)
		image[STATES_AT] |= LEGACY;
}

void tracehost_fill_frame(struct frame *frame, void *context)
{
	struct reg registers;
	from_context(&registers, context);
	memcpy(frame, &registers, GENERAL_REGISTERS);
}

/* As the program has called. */
static void from_frame(struct reg *to, const struct frame *frame)
{
	memset(to, 0, sizeof *to);
	memcpy(to, frame, GENERAL_REGISTERS);
	to->r_rip = (int64_t)frame->at[0], to->r_rsp = (int64_t)tracehost_stack_of(frame);
	to->r_rflags = (frame->flags & ~(unsigned long)(PSL_T | ARITHMETIC)) | PSL_I | 2;
	to->r_cs = 0x33, to->r_ss = 0x2b; /* of the host's programs */
}

/* ---- what a debugger asks of a stopped thread, which fills the record, and takes it over */

/* At a call's entry they are as a system call has them. */
static void fetch_of_entry(struct reg *to, int code)
{
	long a[6];
	tracehost_find_arguments(a, own.now.frame);
	to->r_rax = code;
	to->r_rdi = a[0], to->r_rsi = a[1], to->r_rdx = a[2], to->r_rcx = to->r_r10 = a[3], to->r_r8 = a[4], to->r_r9 = a[5];
}

static void fetch_of_call(struct record *to, int code)
{
	if (own.now.lands & LANDS_SET)
		to->general = own.later.general;
	else
		from_frame(&to->general, own.now.frame);
	if (code >= 0 && !own.set_at_entry)
		fetch_of_entry(&to->general, code);
	if (own.now.lands & LANDS_SET_FLOATS)
		to->floats = own.later.floats;
	else
		__asm__ volatile("fxsave %0" : "=m"(to->floats));
}

void tracehost_fetch(int code)
{
	struct record *to = &own.record;
	memset(to, 0, sizeof *to);
	own.at_entry = code >= 0;
	syscall(SYS_arch_prctl, ARCH_GET_FS, &to->fs);
	syscall(SYS_arch_prctl, ARCH_GET_GS, &to->gs);
	if (own.now.context != NULL) {
		const void *floats = ((ucontext_t *)own.now.context)->uc_mcontext.fpregs;
		from_context(&to->general, own.now.context);
		if (floats != NULL)
			memcpy(&to->floats, floats, offsetof(struct fpreg, fpr_spare));
	} else if (own.now.inside)
		fetch_of_call(to, code);
	memset(to->floats.fpr_spare, 0, sizeof to->floats.fpr_spare);
	if (own.now.frame != NULL)
		tracehost_find_arguments(to->arguments, own.now.frame);
	to->error = own.error, to->debug = own.debug;
}

void tracehost_apply(int kind)
{
	if (kind == BASES)
		syscall(SYS_arch_prctl, ARCH_SET_GS, own.record.gs);
	else if (kind == DEBUG)
		own.record.refused = tracehost_set_hardware(&own.record.debug);
	else if (own.now.context != NULL && kind == GENERAL)
		to_context(own.now.context, &own.record.general);
	else if (own.now.context != NULL)
		floats_to_context(own.now.context, &own.record.floats);
	else if (own.now.inside && kind == GENERAL)
		own.later.general = own.record.general, own.now.lands |= LANDS_SET, own.set_at_entry = own.at_entry;
	else if (own.now.inside)
		own.later.floats = own.record.floats, own.now.lands |= LANDS_SET_FLOATS;
}

/* ---- how the thread goes on after an answer */

static void set_step(void *context, int steps)
{
	greg_t *flags = &general(context)[REG_EFL];
	*flags = steps ? *flags | PSL_T : *flags & ~PSL_T;
}

void tracehost_go_on(int steps, int lands)
{
	own.steps = 0;
	if (own.now.context != NULL)
		set_step(own.now.context, steps);
	else if (own.now.inside) {
		own.now.lands &= ~LANDS_STEPPING;
		own.now.lands |= (steps ? LANDS_STEPPING : 0) | (lands ? LANDS_ASKING : 0);
	}
}

/* An instruction was made, of one that its debugger makes step. */
static void ask_stepped(void *context)
{
	const greg_t at = general(context)[REG_RIP];
	char question[64];
	snprintf(question, sizeof question, "trace %lld", at);
	tracehost_ask_between((const void *)at, question, context);
}

enum { INSTRUCTION = 2 /* bytes of the one that makes a system call */ };

int tracehost_goes_back(void *context, const void *behind) { return general(context)[REG_RIP] == (greg_t)behind - INSTRUCTION; }

/* A debugger has set the thread back to the call's instruction: it makes a call once more, the one that its registers say. What
 * it returns to is still on its stack. */
static void call_again(void *context, const void *behind)
{
	greg_t *g = general(context);
	if (!tracehost_goes_back(context, behind))
		return;
	g[REG_RIP] = (greg_t)enter_call_again;
	g[REG_RSP] -= (greg_t)sizeof behind;
	memcpy((void *)g[REG_RSP], &behind, sizeof behind);
}

long tracehost_call_again(void)
{
	const struct frame *f = own.now.frame;
	const long arguments[6] = {(long)f->rdi, (long)f->rsi, (long)f->rdx, (long)f->rcx, (long)f->r8, (long)f->r9};
	return tracehost_system_call((int)f->rax, arguments);
}

/* The program's call is over. Its registers are those that it called with, except the result. */
void tracehost_land(void *context)
{
	const int lands = own.now.lands;
	const greg_t result = general(context)[REG_RAX];
	struct reg registers;
	own.now.lands = own.set_at_entry = 0;
	own.error = (int)result == -1 ? errno : 0;
	if (lands & LANDS_SET)
		registers = own.later.general;
	else
		from_frame(&registers, own.now.frame);
	registers.r_rax = result; /* a kernel sets it as its call returns, over what a debugger has set there */
	to_context(context, &registers);
	if (lands & LANDS_SET_FLOATS)
		floats_to_context(context, &own.later.floats);
	if (lands & LANDS_STEPPED)
		ask_stepped(context);
	else if (lands & LANDS_ASKING)
		tracehost_ask_between((const void *)general(context)[REG_RIP], "user", context);
	else
		set_step(context, lands & LANDS_STEPPING);
}

int tracehost_trap(siginfo_t *info, void *context)
{
	const char *at = (const char *)general(context)[REG_RIP];
	if (at == tracehost_landing) {
		const void *behind = own.now.frame->at[0];
		tracehost_land(context);
		call_again(context, behind);
		return 1;
	}
	if (at == tracehost_birth) { /* the thread is at its routine's first instruction */
		general(context)[REG_RIP] = general(context)[REG_RAX];
		tracehost_say_hello(context);
		return 1;
	}
	if (info->si_code == HOST_TRAP_PERF && (own.busy || own.now.inside)) /* a call touches it: a kernel's doing */
		return 1;
	if (info->si_code == HOST_TRAP_PERF)
		tracehost_hit(info);
	if (info->si_code != TRAP_TRACE)
		return 0;
	if (at < __start_tracehost_entry || at >= __stop_tracehost_entry)
		ask_stepped(context);
	else {
		set_step(context, 0);
		if (!own.now.inside && at != tracehost_handled && at != tracehost_born)
			own.now.lands |= LANDS_STEPPED; /* the call is the step */
	}
	return 1;
}

/* ---- handlers of the program */

/* A context for a handler in a call, and what it has changed there. */
static void make_context(ucontext_t *context)
{
	struct reg registers;
	memset(context, 0, sizeof *context);
	if (!own.now.inside)
		return;
	from_frame(&registers, own.now.frame);
	general(context)[REG_EFL] = registers.r_rflags;
	to_context(context, &registers);
}

static void take_context(const ucontext_t *context, const greg_t before[])
{
	if (own.now.inside && memcmp(context->uc_mcontext.gregs, before, sizeof(gregset_t)) != 0) {
		from_context(&own.later.general, (void *)context);
		own.now.lands |= LANDS_SET;
	}
}

void tracehost_handle(int number)
{
	const struct sigaction action = tracehost_actions[number];
	const int saved = errno;
	struct __siginfo info = {.si_signo = number};
	ucontext_t made, *context = own.now.context;
	gregset_t before;
	tracehost_describe(&info);
	if (action.sa_flags & BSD_SA_RESETHAND)
		tracehost_actions[number].sa_handler = SIG_DFL;
	if (!(action.sa_flags & BSD_SA_SIGINFO) && (action.sa_handler == SIG_DFL || action.sa_handler == SIG_IGN))
		return;
	if (context == NULL)
		make_context(context = &made);
	memcpy(before, context->uc_mcontext.gregs, sizeof before);
	struct outcall call = {.function = (void *)(size_t)action.sa_sigaction, .arguments = {number, (long)&info, (long)context}};
	tracehost_call_program(&call, action.sa_flags & BSD_SA_ONSTACK);
	if (context == &made)
		take_context(&made, before);
	errno = saved;
}
