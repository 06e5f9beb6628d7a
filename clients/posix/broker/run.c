/* Who goes on, until the first process has ended and all others wait, or all wait for each other.
 *
 * Only one thread runs at a time. Every other thread waits for the answer to its question. So a run depends on the choices of
 * the schedule, and on nothing else. */
#include <stdlib.h>
#include <string.h>
#include "run.h"

struct options options;
struct run run;
static lwps can, asleep;

/* ---- a leg: what an LWP does until others may go on */

void give_way(struct lwp *l)
{
	switch_to(l, next_lwp());
	l->before = run.kept.count;
}

void end_leg(struct lwp *l)
{
	if (!l->is_timer && (long)run.kept.count > l->before)
		l->ran = run.steps; /* a step that was held is none */
}

void others(struct lwp *l)
{
	l->waits = false, l->until = NEVER;
	end_leg(l);
	give_way(l);
}

void await(struct lwp *l, int64_t until, int count, const int64_t *topics)
{
	if (count > 0)
		memcpy(l->topics, topics, count * sizeof *topics);
	l->waits = true, l->n_topics = count, l->until = until, l->seen = table.clock;
	for (int i = 0; i < count; i++)
		touch_topic(topics[i]);
	if (until != NEVER)
		touch_clock();
	end_leg(l);
	give_way(l);
	if (until != NEVER)
		touch_clock();
}

_Noreturn void vanish(struct lwp *l)
{
	retire(l);
	struct lwp *next = next_lwp();
	if (next == NULL)
		leave_run();
	switch_to(l, next);
	__builtin_unreachable();
}

/* ---- the choice */

/* Without a look at the others. */
static bool simply_goes_on(const struct lwp *current, long point)
{
	bool able = !run.wants.points && !current->yields && !current->waits && current->in_table;
	if (!able || !schedule_stays(current, point))
		return false;
	if (run.wants.made)
		APPEND(&run.made, STAYED);
	if (run.wants.covers)
		cover(current, current);
	return true;
}

/* Those whose sleep may end now. A sleeper may be slow to wake, but a timer isn't: none is passed over. */
static void find_sleepers(void)
{
	bool rings = false;
	int64_t first = INT64_MAX;
	asleep.count = 0;
	for (size_t i = 0; i < can.count; i++)
		if (can.at[i]->is_timer)
			return;
	for (size_t i = 0, next = 0; i < table.lwps.count; i++) {
		struct lwp *l = table.lwps.at[i];
		if (next < can.count && can.at[next] == l)
			next++;
		else if (l->until != NEVER) {
			APPEND(&asleep, l);
			if (l->is_timer) {
				rings = true;
				first = l->until < first ? l->until : first;
			}
		}
	}
	for (size_t i = asleep.count; rings && i-- > 0;)
		if (asleep.at[i]->until > first)
			TAKE_OUT(&asleep, i);
}

static void note_made(const struct lwp *chosen)
{
	APPEND(&run.made, CHOSE);
	APPEND(&run.made, (int)can.count);
	for (size_t i = 0; i < can.count; i++)
		APPEND(&run.made, can.at[i]->tid);
	APPEND(&run.made, (int)asleep.count);
	for (size_t i = 0; i < asleep.count; i++)
		APPEND(&run.made, asleep.at[i]->tid);
	APPEND(&run.made, chosen != NULL ? chosen->tid : 0);
}

static bool is_among(const lwps *list, const struct lwp *l)
{
	for (size_t i = 0; i < list->count; i++)
		if (list->at[i] == l)
			return true;
	return false;
}

/* A choice that another schedule makes. One that sleeps would make a schedule that another one is already. */
static bool is_other(const struct lwp *l, const struct lwp *plain) { return l != plain && l->asleep.count == 0; }

/* The others that could have gone on, and whether that preempts the running LWP. */
static bool note_point(const struct lwp *plain, long point)
{
	const struct lwp *current = run.current;
	bool forced = current == NULL || !is_among(&can, current) || current->yields;
	int tid = current != NULL ? current->tid : 0, count = 0;
	for (size_t i = 0; i < can.count + asleep.count; i++)
		count += is_other(i < can.count ? can.at[i] : asleep.at[i - can.count], plain);
	if (count == 0)
		return false;
	if (run.points++ == run.wants.points)
		repeats(); /* no more are wanted */
	note("point %d %ld %d %llu", tid, point, forced, (unsigned long long)state_of(tid));
	for (size_t i = 0; i < can.count + asleep.count; i++) {
		const struct lwp *l = i < can.count ? can.at[i] : asleep.at[i - can.count];
		if (is_other(l, plain))
			note(" %d", l->tid);
	}
	note("\n");
	return true;
}

static void note_switch(const struct lwp *chosen, long point)
{
	const struct lwp *current = run.current;
	char then[64];
	APPEND(&run.switches, (struct switch_to){.tid = current != NULL ? current->tid : 0, .point = point, .to = chosen->tid});
	if (!run.wants.places)
		return;
	if (chosen == current)
		snprintf(then, sizeof then, "its sleep is over");
	else
		snprintf(
			then, sizeof then, chosen->is_timer ? "the timer of %d goes on" : "%d/%d goes on", chosen->process->pid, chosen->tid);
	note_place("switch", current, then, run.kept.count + 1);
}

static void make_switch(const struct lwp *chosen, long point)
{
	const struct switch_to *given = run.current != NULL ? given_at(run.current->tid, point) : NULL;
	if (given != NULL)
		run.current->asleep = given->asleep;
	note_switch(chosen, point);
}

static struct lwp *chosen_one(struct lwp *chosen, bool was_asleep)
{
	if (was_asleep && chosen->until != NEVER) {
		touch_all();
		run.busy = 0;
		table.now = chosen->until > table.now ? chosen->until : table.now;
	}
	if (run.current != NULL && run.current != chosen)
		run.current->yields = false;
	chosen->yields = false;
	return run.current = chosen;
}

/* All that wait look once more, in case a change was missed: false if they have done so, and all wait again. */
static bool look_again(void)
{
	if (run.last_look == table.clock || !run.first->live)
		return false;
	for (size_t i = 0; i < table.lwps.count; i++)
		table.lwps.at[i]->seen = -1;
	change(IO);
	change(SYNC);
	for (EACH_PROCESS(p))
		change(table.processes.at[p_at]->pid);
	for (EACH_PROCESS(p))
		change(-table.processes.at[p_at]->pid);
	run.last_look = table.clock;
	return true;
}

static struct lwp *hosted(void)
{
	struct lwp *best = NULL;
	for (size_t i = 0; i < table.lwps.count; i++) {
		struct lwp *l = table.lwps.at[i];
		if (l->hosted && (best == NULL || l->ran < best->ran || (l->ran == best->ran && l->tid < best->tid)))
			best = l;
	}
	return best;
}

/* Nobody can go on: time does, or all look again. The LWP that goes on then, or NULL; `over`: all wait for each other. */
static struct lwp *when_all_wait(bool *over)
{
	touch_all();
	run.busy = 0;
	*over = false;
	if (asleep.count > 0 && run.first->live) {
		int64_t first = INT64_MAX;
		for (size_t i = 0; i < asleep.count; i++)
			first = asleep.at[i]->until < first ? asleep.at[i]->until : first;
		table.now = first;
		return NULL;
	}
	struct lwp *l = hosted(); /* the host may be done */
	if (l != NULL)
		return chosen_one(l, false);
	*over = !look_again();
	return NULL;
}

static struct lwp *choose(long point)
{
	can.count = 0;
	for (size_t i = 0; i < table.lwps.count; i++)
		if (can_go(table.lwps.at[i]))
			APPEND(&can, table.lwps.at[i]);
	find_sleepers();
	struct lwp *plain = plain_choice(&can, run.current);
	struct lwp *chosen = schedule_choose(&can, &asleep, run.current, point, plain);
	if (run.wants.covers && chosen != NULL && run.current != NULL && !run.current->yields && is_among(&can, run.current))
		cover(run.current, chosen);
	if (run.wants.made)
		note_made(chosen);
	bool noted = run.wants.points && note_point(plain, point);
	if (chosen == NULL)
		return NULL;
	if (chosen->asleep.count > 0)
		repeats();
	if (chosen != plain)
		make_switch(chosen, point);
	else if (noted && chosen == run.current)
		leg_is_told();
	return chosen_one(chosen, is_among(&asleep, chosen));
}

/* The LWP with the next turn; NULL if all wait for each other, or nobody is left. */
struct lwp *next_lwp(void)
{
	leg_ends(run.current);
	while (table.lwps.count > 0) {
		struct lwp *current = run.current;
		long point = current != NULL ? ++current->points : ++run.idle_points;
		bool over;
		run.choices++;
		if (current != NULL && simply_goes_on(current, point))
			return current;
		struct lwp *chosen = choose(point);
		if (chosen != NULL)
			return chosen;
		chosen = when_all_wait(&over);
		if (chosen != NULL || over)
			return chosen;
	}
	return NULL;
}

/* ---- the steps that are kept */

void keep_step(struct step s, const reply *r)
{
	struct kept kept = {s, *r, NULL};
	if (run.wants.trace) {
		char step[1024], words[16384], *text;
		write_step(step, sizeof step, &s);
		write_last_reply(words, sizeof words);
		if (asprintf(&text, "%s\t%s", step, words) < 0)
			broken("no memory is left for the record");
		kept.text = text;
	}
	APPEND(&run.kept, kept);
}

/* The last step was a look after all. */
void unkeep(void) { free(run.kept.at[--run.kept.count].text); }

/* ---- a run */

static void begin(void)
{
	for (size_t i = 0; i < run.kept.count; i++)
		free(run.kept.at[i].text);
	memset(&run, 0, offsetof(struct run, wants));
	run.switches.count = run.made.count = run.kept.count = 0;
	run.inside = !options.calls;
	run.last_look = UINT64_MAX;
	outcome_begin();
	notices_begin();
	table_begin();
	legs_begin();
	coverage_begin();
	schedule_begin();
	program_forget_output();
	model_begin(options.kill_on_debugger_exit != 0);
}

/* The first process, and its LWP. */
static struct lwp *make_first(void)
{
	reply r = make((struct step){.op = SPAWN}, true);
	number_process(NULL);
	number_lwp();
	run.first = new_process(r.pid, 1);
	run.first->session = 1;
	set_group(run.first, r.pid);
	run.first->filters = program_filters();
	return new_lwp(run.first, r.lwp, 0);
}

void run_once(void)
{
	begin();
	start_with(make_first(), live);
	if (!has_failed() && !run.repeats)
		verdict();
	for (size_t i = 0; i < table.n_lwps; i++)
		close_socket(table.all_lwps.at[i]); /* its thread reads the end, and ends its process */
	program_sweep();
	outcome_end();
	coroutines_end();
	model_end();
}
