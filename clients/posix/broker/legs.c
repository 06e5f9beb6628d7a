/* What each leg of a run touches. Two legs commute if they touch nothing in common: then their order makes no difference, to
 * them or to what comes after. A leg touches
 *   - the process of its LWP;
 *   - the processes whose topics it changes or awaits, and those that its steps name;
 *   - news, which are signals and statuses, of processes that it looks at, or that hear of it;
 *   - the host, if the program runs in it: its memory, files and descriptors may be shared with anybody;
 *   - the clock, if it looks at it, or waits for a time.
 * An LWP that only leaves a call looks at no news. What isn't known to touch less touches everything: processes and LWPs that
 * begin or end, a new tracer, signals to all.
 *
 * The number of a leg is made of what it does, and of the last legs before it that touched the same. The number of a run is
 * the sum of its legs' numbers, so runs that differ only in the order of legs that commute have the same number. Such runs
 * are one trace by A. Mazurkiewicz, Concurrent Program Schemes and their Interpretations, 1977. */
#include <string.h>
#include "run.h"

enum { HOST, CLOCK, FIRST };

static struct touches leg;
static size_t steps; /* that were kept before it */
static uint64_t questions;
static bool is_told;
static struct {
	uint64_t leg;
	unsigned era;
} last[FIRST + 2 * PROCESSES]; /* that has touched this, if it has in this era */
static unsigned era; /* begins with a leg that touches everything */
static uint64_t first_of_era, sum;

static uint64_t mixed(uint64_t hash, uint64_t with)
{
	hash = (hash ^ with) * 0x9e3779b97f4a7c15;
	return hash ^ hash >> 29;
}

static uint64_t mixed_bytes(uint64_t hash, const void *bytes, size_t size)
{
	uint64_t word;
	for (; size > 0; size -= size < sizeof word ? size : sizeof word, bytes = (const char *)bytes + sizeof word) {
		word = 0;
		memcpy(&word, bytes, size < sizeof word ? size : sizeof word);
		hash = mixed(hash, word);
	}
	return hash;
}

/* ---- what it touches */

static void touch(uint16_t what)
{
	size_t place = leg.count;
	while (place > 0 && leg.at[place - 1] >= what)
		place--;
	if (leg.all || (place < leg.count && leg.at[place] == what))
		return;
	if (leg.count == TOUCHED) {
		leg.all = true;
		return;
	}
	memmove(&leg.at[place + 1], &leg.at[place], (leg.count++ - place) * sizeof leg.at[0]);
	leg.at[place] = what;
}

void touch_all(void) { leg.all = true; }

void touch_host(void) { touch(HOST); }

void touch_clock(void) { touch(CLOCK); }

int64_t now(void)
{
	touch_clock();
	return table.now;
}

static bool is_of_run(int64_t pid) { return pid >= FIRST_PROCESS && pid < FIRST_PROCESS + PROCESSES; }

static void touch_state(int64_t pid) { touch(FIRST + 2 * (pid - FIRST_PROCESS)); }

void touch_news(int64_t pid)
{
	if (is_of_run(pid))
		touch(FIRST + 2 * (pid - FIRST_PROCESS) + 1);
	else if (pid != 0 && pid != 1) /* nobody, and init(8) */
		touch_all();
}

void touch_process(int64_t pid)
{
	touch_news(pid);
	if (is_of_run(pid))
		touch_state(pid);
}

void touch_topic(int64_t topic)
{
	if (topic == IO || topic == SYNC)
		touch_host();
	else if (topic >= FIRST_LWP)
		touch_all();
	else if (topic >= 0)
		touch_news(topic);
	else
		touch_process(-topic);
}

/* The process, and those that hear of it. */
void touch_with_kin(const struct process *p)
{
	if (p == NULL) {
		touch_all();
		return;
	}
	touch_process(p->pid);
	touch_news(p->parent);
	touch_news(p->tracer);
}

static void touch_request(const struct step *s)
{
	const struct process *caller = live_process(s->actor), *target = process_of(s->which);
	bool resumes = s->a == TRACEHOST_PT_CONTINUE || s->a == TRACEHOST_PT_STEP || s->a == TRACEHOST_PT_SYSCALL ||
				   s->a == TRACEHOST_PT_TO_SCE || s->a == TRACEHOST_PT_TO_SCX;
	bool only_looks = s->a == TRACEHOST_PT_LWPINFO || s->a == TRACEHOST_PT_GETNUMLWPS || s->a == TRACEHOST_PT_GETLWPLIST ||
					  s->a == TRACEHOST_PT_GET_EVENT_MASK;
	bool of_lwp = s->a == TRACEHOST_PT_SUSPEND || s->a == TRACEHOST_PT_RESUME;
	if (!(only_looks || of_lwp || (resumes && s->b == 0)) || caller == NULL)
		touch_all();
	else {
		touch_process(caller->pid);
		touch_with_kin(target);
	}
}

/* Of a step that was made. */
void touch_step(const struct step *s, const reply *r)
{
	const struct lwp *l = s->op == TURN ? lwp_of(s->actor) : NULL;
	switch (s->op) {
	case TURN:
		if (l == NULL || r->kind == TRACEHOST_ENDED || r->kind == TRACEHOST_NEW || r->kind == TRACEHOST_ERROR)
			touch_all();
		else if (r->kind == TRACEHOST_STOPPED)
			touch_with_kin(l->process);
		else if (s->act != TRACEHOST_LEAVE_CALL || r->kind != TRACEHOST_OK)
			touch_process(l->process->pid);
		return;
	case WAIT4:
		touch_process(s->actor);
		if (r->kind == TRACEHOST_STATUS)
			touch_with_kin(live_process(r->pid));
		return;
	case SEND:
		if (s->a == KILL || live_process(s->which) == NULL)
			touch_all();
		else if (s->a == CONT || stops(s->a))
			touch_with_kin(live_process(s->which));
		else
			touch_news(s->which);
		return;
	case PTRACE: touch_request(s); return;
	case SIGACTION: touch_process(s->actor); return;
	default: touch_all();
	}
}

/* ---- legs */

void legs_begin(void)
{
	leg = (struct touches){.all = true};
	is_told = false;
	steps = 0, questions = 0;
	era++;
	first_of_era = sum = 0;
}

/* Python hears what this leg touches. */
void leg_is_told(void) { is_told = true; }

static void tell(void)
{
	note("leg ");
	for (size_t i = 0; i < leg.count && !leg.all; i++)
		note("%s%d", i > 0 ? "." : "", leg.at[i]);
	note("\n");
	is_told = false;
}

static bool commute(const struct touches *a, const struct touches *b)
{
	if (a->all || b->all)
		return false;
	for (size_t i = 0, other = 0; i < a->count; i++) {
		while (other < b->count && b->at[other] < a->at[i])
			other++;
		if (other < b->count && b->at[other] == a->at[i])
			return false;
	}
	return true;
}

static void wake(void)
{
	for (size_t i = 0; i < table.lwps.count; i++)
		if (table.lwps.at[i]->asleep.count > 0 && !commute(&table.lwps.at[i]->asleep, &leg))
			table.lwps.at[i]->asleep.count = 0;
}

/* The words of a question that are the program's own: others have the host's numbers. */
void leg_asks(const struct question *q, const char *text)
{
	bool hosts = q->call != NULL && (strcmp(q->call->name, "hello") == 0 || strcmp(q->call->name, "again") == 0);
	questions = mixed_bytes(questions, text, hosts ? strcspn(text, " ") : strlen(text));
}

/* A choice within the leg, which its next step will show. */
void leg_chooses(int number) { questions = mixed(questions, number); }

static uint64_t of_steps(uint64_t hash)
{
	for (size_t i = steps; i < run.kept.count; i++) {
		const struct step *s = &run.kept.at[i].step;
		hash = mixed(hash, s->op | s->act << 8 | s->call << 16 | s->bare << 24 | (uint64_t)s->actor << 32);
		hash = mixed(hash, s->a | (uint64_t)s->b << 32);
		hash = mixed(hash, s->which);
		hash = mixed_bytes(hash, &run.kept.at[i].reply, sizeof(reply));
	}
	return hash;
}

/* The leg of this LWP is over. */
void leg_ends(const struct lwp *l)
{
	if (l != NULL && is_of_run(l->process->pid))
		touch_state(l->process->pid);
	uint64_t hash = of_steps(mixed(l != NULL ? l->tid : 0, questions));
	if (leg.all) {
		hash = mixed(hash, sum);
		first_of_era = hash;
		era++;
	}
	for (size_t i = 0; i < leg.count && !leg.all; i++) {
		uint16_t what = leg.at[i];
		hash = mixed(mixed(hash, what), last[what].era == era ? last[what].leg : first_of_era);
	}
	for (size_t i = 0; i < leg.count && !leg.all; i++) {
		last[leg.at[i]].leg = hash;
		last[leg.at[i]].era = era;
	}
	if (is_told)
		tell();
	if (schedule.strategy == SWITCHED)
		wake();
	sum += mixed(hash, hash >> 32);
	leg.all = false;
	leg.count = 0;
	steps = run.kept.count;
	questions = 0;
}

/* Two runs up to here have the same number if they differ only in the order of legs that commute. */
uint64_t legs_sum(void) { return sum; }

/* A number of the same kind, with the LWP that runs, the leg that it is in, and those that sleep. */
uint64_t state_of(int tid)
{
	uint64_t hash = of_steps(mixed(mixed(sum, tid), questions));
	for (size_t i = 0; i < table.lwps.count; i++) {
		const struct lwp *l = table.lwps.at[i];
		if (l->asleep.count > 0)
			hash = mixed_bytes(mixed(hash, l->tid), l->asleep.at, l->asleep.count * sizeof l->asleep.at[0]);
	}
	return hash;
}
