#include "table.h"
#include <stdio.h>
#include <stdlib.h>
#include <string.h>

struct table table;
static struct {
	uint64_t io, sync, news[PROCESSES], runs[PROCESSES], lwps[LWPS], none;
} changes;
static struct process *by_number[PROCESSES];
static int next_process, next_lwp;
static bool wrapped, lwps_wrapped;

static void *there(void *memory)
{
	if (memory == NULL) {
		fprintf(stderr, "tracehost-broker: no memory is left\n");
		exit(3);
	}
	return memory;
}

void *with_room(void *at, size_t count, size_t *room, size_t size)
{
	if (count <= *room)
		return at;
	*room = 2 * *room > count ? 2 * *room : count < 8 ? 8 : count;
	return there(realloc(at, *room * size));
}

void take_out(void *at, size_t *count, size_t place, size_t size)
{
	char *item = (char *)at + place * size;
	--*count;
	memmove(item, item + size, (*count - place) * size);
}

/* ---- topics */

static bool is_number(int64_t number) { return number >= FIRST_PROCESS && number < FIRST_PROCESS + PROCESSES; }

static uint64_t *topic(int64_t number)
{
	if (number == IO)
		return &changes.io;
	if (number == SYNC)
		return &changes.sync;
	if (is_number(number))
		return &changes.news[number - FIRST_PROCESS];
	if (is_number(-number))
		return &changes.runs[-number - FIRST_PROCESS];
	if (number >= FIRST_LWP && number < FIRST_LWP + LWPS)
		return &changes.lwps[number - FIRST_LWP];
	for (size_t i = 0; i < table.lwps.count; i++) /* a timer's number */
		if (table.lwps.at[i]->tid == number)
			return &table.lwps.at[i]->changed;
	return &changes.none;
}

/* Those who wait for this may look again. */
void change(int64_t number)
{
	table.clock++;
	*topic(number) = table.clock;
	touch_topic(number);
}

bool can_go(const struct lwp *l)
{
	if (!l->waits)
		return true;
	for (int i = 0; i < l->n_topics; i++)
		if ((int64_t)*topic(l->topics[i]) > l->seen)
			return true;
	return l->until != NEVER && l->until <= table.now;
}

/* Threads that never wait would keep sleeps from their ends: time goes on to the next one, but not to a timer. */
void end_first_sleep(void)
{
	const struct lwp *first = NULL;
	touch_all();
	for (size_t i = 0; i < table.lwps.count; i++) {
		const struct lwp *l = table.lwps.at[i];
		if (l->until == NEVER)
			continue;
		if (first == NULL || l->until < first->until || (l->until == first->until && l->is_timer && !first->is_timer))
			first = l;
	}
	if (first != NULL && !first->is_timer && first->until > table.now)
		table.now = first->until;
}

int64_t later(int64_t time, int64_t by)
{
	int64_t sum;
	return __builtin_add_overflow(time, by, &sum) ? INT64_MAX : sum;
}

/* ---- a run begins */

void table_begin(void)
{
	size_t processes = wrapped ? PROCESSES : (size_t)table.made, lwps = lwps_wrapped ? LWPS : (size_t)(next_lwp - FIRST_LWP);
	memset(changes.news, 0, processes * sizeof changes.news[0]);
	memset(changes.runs, 0, processes * sizeof changes.runs[0]);
	memset(changes.lwps, 0, next_lwp == 0 ? 0 : lwps * sizeof changes.lwps[0]);
	memset(by_number, 0, processes * sizeof by_number[0]);
	memset(table.statuses, 0, processes * sizeof table.statuses[0]);
	memset(table.groups, 0, processes * sizeof table.groups[0]);
	changes.io = changes.sync = changes.none = 0;
	table.processes.count = table.lwps.count = table.news.count = 0;
	table.now = 0, table.made = 0, table.clock = 0;
	table.n_processes = table.n_lwps = 0;
	next_process = FIRST_PROCESS, next_lwp = FIRST_LWP;
	wrapped = lwps_wrapped = false;
}

struct process *new_process(int pid, int parent)
{
	if (table.n_processes == table.all_processes.count)
		APPEND(&table.all_processes, there(calloc(1, sizeof(struct process))));
	struct process *p = table.all_processes.at[table.n_processes++];
	struct lists lists = p->lists;
	memset(p, 0, offsetof(struct process, lists));
	lists.lwps.count = lists.replaced.count = lists.rung.count = lists.watched.count = 0;
	lists.counts.count = lists.happened.count = lists.described.count = 0;
	p->lists = lists;
	p->pid = pid, p->parent = parent, p->live = true, p->told = -1;
	APPEND(&table.processes, p);
	if (is_number(pid))
		by_number[pid - FIRST_PROCESS] = p;
	return p;
}

struct lwp *new_lwp(struct process *p, int tid, signals mask)
{
	if (table.n_lwps == table.all_lwps.count)
		APPEND(&table.all_lwps, there(calloc(1, sizeof(struct lwp))));
	struct lwp *l = table.all_lwps.at[table.n_lwps++];
	int *room = l->injected.at;
	size_t size = l->injected.room;
	memset(l, 0, offsetof(struct lwp, context));
	l->injected.at = room, l->injected.room = size;
	l->process = p, l->tid = tid, l->mask = l->former = mask;
	l->fd = l->entered = -1, l->until = l->polling = NEVER, l->alive = true;
	memcpy(l->asked, "hello", sizeof "hello");
	APPEND(&p->lists.lwps, l);
	return l;
}

void into_table(struct lwp *l)
{
	if (!l->in_table)
		APPEND(&table.lwps, l);
	l->in_table = true;
}

void out_of_table(struct lwp *l)
{
	for (size_t i = 0; l->in_table && i < table.lwps.count; i++)
		if (table.lwps.at[i] == l) {
			TAKE_OUT(&table.lwps, i);
			l->in_table = false;
		}
}

bool is_of(const struct process *p, const struct lwp *l) { return l != NULL && l->alive && l->process == p; }

/* The group of a process of this run, one that has ended too; 0 if there is none. */
int group_of(int64_t pid) { return is_number(pid) ? table.groups[pid - FIRST_PROCESS] : 0; }

void set_group(struct process *p, int group)
{
	p->group = group;
	if (is_number(p->pid))
		table.groups[p->pid - FIRST_PROCESS] = group;
}

/* Those who watch the process hear of it. */
void happen(int64_t kind, int64_t number, int64_t status)
{
	for (EACH_PROCESS(p)) {
		struct process *p = table.processes.at[p_at];
		for (size_t i = 0; i < p->lists.watched.count; i++)
			if (p->lists.watched.at[i].pid == number) {
				APPEND(&p->lists.happened, (struct happening){kind, number, status, 0});
				change(p->pid);
			}
	}
}

/* The process has ended, and its timers with it: what was its news is nobody's, and its children are process 1's. */
void table_end(struct process *p, int status)
{
	p->live = false;
	for (size_t i = table.processes.count; i-- > 0;)
		if (table.processes.at[i] == p)
			TAKE_OUT(&table.processes, i);
	if (is_number(p->pid)) {
		by_number[p->pid - FIRST_PROCESS] = NULL;
		table.statuses[p->pid - FIRST_PROCESS] = status;
	}
	for (size_t i = table.lwps.count; i-- > 0;)
		if (table.lwps.at[i]->process == p)
			out_of_table(table.lwps.at[i]);
	for (size_t i = table.news.count; i-- > 0;)
		if (table.news.at[i].to == p->pid)
			TAKE_OUT(&table.news, i);
	for (EACH_PROCESS(other)) {
		struct process *other = table.processes.at[other_at];
		if (other->parent == p->pid)
			other->parent = 1;
		change(other->pid);
	}
	change(IO);
}

/* ---- looking up */

struct process *live_process(int64_t pid) { return is_number(pid) ? by_number[pid - FIRST_PROCESS] : NULL; }

struct lwp *lwp_of(int64_t tid)
{
	for (size_t i = 0; i < table.lwps.count; i++)
		if (table.lwps.at[i]->tid == tid && !table.lwps.at[i]->is_timer)
			return table.lwps.at[i];
	return NULL;
}

struct process *process_of(int64_t number)
{
	struct process *p = live_process(number);
	struct lwp *l = p == NULL ? lwp_of(number) : NULL;
	return l != NULL ? l->process : p;
}

/* ---- statuses */

static int by_value(const void *a, const void *b) { return *(const int *)a - *(const int *)b; }

/* The processes whose statuses a wait of this one may report, by number. */
int reportable(const struct process *p, bool stops, int pids[PROCESSES])
{
	int count = 0;
	for (size_t i = 0; i < table.news.count; i++) {
		const struct news *news = &table.news.at[i];
		if (news->to == p->pid && (stops || !news->job) && !hides(p, news->pid))
			pids[count++] = news->pid;
	}
	qsort(pids, count, sizeof pids[0], by_value);
	return count;
}

/* Whether a wait for any child doesn't report this one: it has a process descriptor, and the parent doesn't trace it. */
bool hides(const struct process *parent, int pid)
{
	const struct process *child = live_process(pid);
	for (size_t i = 0; i < parent->lists.described.count; i++)
		if (parent->lists.described.at[i].pid == pid)
			return child == NULL || child->tracer != parent->pid;
	return false;
}

struct news *news_of(int pid)
{
	for (size_t i = 0; i < table.news.count; i++)
		if (table.news.at[i].pid == pid)
			return &table.news.at[i];
	APPEND(&table.news, (struct news){.pid = pid});
	return &table.news.at[table.news.count - 1];
}

void forget_news(int pid)
{
	for (size_t i = table.news.count; i-- > 0;)
		if (table.news.at[i].pid == pid)
			TAKE_OUT(&table.news, i);
}

/* A wait has reported the status. If it was the tracer's, and that of a zombie, it is the parent's now. */
struct process *reported(int pid)
{
	int heir = 0;
	for (size_t i = 0; i < table.news.count; i++)
		if (table.news.at[i].pid == pid)
			heir = table.news.at[i].heir;
	forget_news(pid);
	struct process *p = live_process(heir);
	if (p != NULL)
		*news_of(pid) = (struct news){.pid = pid, .to = heir};
	return p;
}

/* ---- numbers */

int number_process(const bool in_use[PROCESSES])
{
	int number = next_process, last = FIRST_PROCESS + PROCESSES - 1;
	table.made++;
	while (in_use != NULL && in_use[number - FIRST_PROCESS])
		number = number == last ? FIRST_PROCESS : number + 1;
	next_process = number == last ? FIRST_PROCESS : number + 1;
	wrapped |= number == last;
	return number;
}

bool numbers_have_wrapped(void) { return wrapped; }

static bool is_live_lwp(int tid)
{
	for (EACH_PROCESS(p))
		for (size_t i = 0; i < table.processes.at[p_at]->lists.lwps.count; i++)
			if (table.processes.at[p_at]->lists.lwps.at[i]->tid == tid)
				return true;
	return false;
}

int number_lwp(void)
{
	int number = next_lwp, last = FIRST_LWP + LWPS - 1;
	while (lwps_wrapped && is_live_lwp(number))
		number = number == last ? FIRST_LWP : number + 1;
	next_lwp = number == last ? FIRST_LWP : number + 1;
	lwps_wrapped |= number == last;
	return number;
}
