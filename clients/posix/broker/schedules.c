#include "schedules.h"
#include <stdlib.h>
#include <string.h>
#include "twister.h"

struct schedule schedule;

static struct twister choosing, staying, reporting;
static bool draws_children; /* `reporting` has begun */
static double often;

/* Of priorities. */
static long n_choices;
static double lowest;
static LIST(struct {
	long choice;
	int place;
}) fallen;
static LIST(struct {
	int tid;
	double priority;
}) priorities;
static LIST(struct {
	int tid;
	int64_t until;
	bool is;
}) sleeps; /* which take part */

/* ---- seeds */

/* As it begins by each of the last two seeds: a seed and the next one are asked for, again and again. */
static void begin_twister(struct twister *t, uint64_t seed)
{
	static struct {
		bool is_known;
		uint64_t seed;
		struct twister begun;
	} last[2], *of;
	uint32_t key[] = {(uint32_t)seed, (uint32_t)(seed >> 32)};
	of = &last[seed & 1];
	if (!of->is_known || of->seed != seed)
		seed_twister(&of->begun, key, key[1] == 0 ? 1 : 2);
	of->is_known = true, of->seed = seed;
	*t = of->begun;
}

static int draw_child(const int *children, int count)
{
	if (!draws_children) { /* by the number 2 * SEED + 2^64 */
		uint64_t twice = schedule.seed << 1;
		uint32_t key[] = {(uint32_t)twice, (uint32_t)(twice >> 32), 1};
		seed_twister(&reporting, key, 3);
		draws_children = true;
	}
	return children[draw_below(&reporting, count)];
}

void schedule_begin(void)
{
	static const double how_often[] = {0.02, 0.1, 0.3, 0.7};
	draws_children = false;
	n_choices = 0, lowest = 0;
	fallen.count = priorities.count = sleeps.count = 0;
	if (schedule.strategy != SEEDED && schedule.strategy != PRIORITIES)
		return;
	begin_twister(&choosing, schedule.seed);
	if (schedule.strategy == SEEDED) {
		begin_twister(&staying, schedule.seed + 1);
		often = how_often[draw_below(&choosing, 4)];
		return;
	}
	for (int place = 1; place < schedule.depth; place++) {
		long choice = 1 + draw_below(&choosing, schedule.length > 1 ? schedule.length : 1);
		APPEND(&fallen, (typeof(*fallen.at)){choice, place});
	}
}

/* ---- switches that are given */

const struct switch_to *given_at(int tid, long point)
{
	for (size_t i = schedule.given.count; schedule.strategy == SWITCHED && i-- > 0;)
		if (schedule.given.at[i].tid == tid && schedule.given.at[i].point == point)
			return &schedule.given.at[i];
	return NULL;
}

/* ---- the running LWP */

static bool draw_stay(void) { return draw(&staying) >= often; }

/* Whether the running LWP, which can go on, does so in any case. */
bool schedule_stays(const struct lwp *current, long point)
{
	switch (schedule.strategy) {
	case PLAIN: return true;
	case SWITCHED: return given_at(current->tid, point) == NULL;
	case SEEDED: return draw_stay();
	default: return false;
	}
}

/* The running LWP goes on until it waits; then the one that has waited longest. */
struct lwp *plain_choice(const lwps *can, const struct lwp *current)
{
	struct lwp *best = NULL;
	for (size_t i = 0; i < can->count; i++)
		if (can->at[i] == current && !current->yields)
			return can->at[i];
	for (size_t i = 0; i < can->count; i++) {
		struct lwp *l = can->at[i];
		if (l == current && can->count > 1)
			continue;
		if (best == NULL || l->ran < best->ran || (l->ran == best->ran && l->tid < best->tid))
			best = l;
	}
	return best;
}

/* ---- strategies */

static int by_tid(const void *a, const void *b)
{
	const struct lwp *one = *(struct lwp *const *)a, *other = *(struct lwp *const *)b;
	return one->tid < other->tid ? -1 : one->tid > other->tid;
}

static int by_value(const void *a, const void *b) { return *(const int *)a - *(const int *)b; }

static struct lwp *draw_lwp(const lwps *from)
{
	static lwps sorted;
	sorted.count = 0;
	for (size_t i = 0; i < from->count; i++)
		APPEND(&sorted, from->at[i]);
	qsort(sorted.at, sorted.count, sizeof sorted.at[0], by_tid);
	return sorted.at[draw_below(&choosing, sorted.count)];
}

static struct lwp *seeded_choice(const lwps *can, const lwps *asleep)
{
	if (schedule.early && asleep->count > 0 && (can->count == 0 || draw(&choosing) < 0.2))
		return draw_lwp(asleep);
	return can->count > 0 ? draw_lwp(can) : NULL;
}

static double *priority_of(int tid)
{
	for (size_t i = 0; i < priorities.count; i++)
		if (priorities.at[i].tid == tid)
			return &priorities.at[i].priority;
	return NULL;
}

static void set_priority(int tid, double priority)
{
	double *known = priority_of(tid);
	if (known != NULL)
		*known = priority;
	else
		APPEND(&priorities, (typeof(*priorities.at)){tid, priority});
}

static void give_priorities(const lwps *to)
{
	for (size_t i = 0; i < to->count; i++)
		if (priority_of(to->at[i]->tid) == NULL)
			set_priority(to->at[i]->tid, 1.0 + draw(&choosing));
}

static bool sleep_takes_part(const struct lwp *l)
{
	for (size_t i = sleeps.count; i-- > 0;)
		if (sleeps.at[i].tid == l->tid && sleeps.at[i].until == l->until)
			return sleeps.at[i].is;
	bool is = draw(&choosing) < 0.5;
	APPEND(&sleeps, (typeof(*sleeps.at)){l->tid, l->until, is});
	return is;
}

static void fall(const struct lwp *current)
{
	if (current->yields) { /* it waits for others, and would spin for ever */
		lowest -= 2.0;
		set_priority(current->tid, lowest);
	}
	for (size_t i = fallen.count; i-- > 0;)
		if (fallen.at[i].choice == n_choices) { /* below those that have yielded */
			set_priority(current->tid, lowest - 1.0 / fallen.at[i].place);
			return;
		}
}

static struct lwp *highest(const lwps *can, const lwps *asleep, const struct lwp *current)
{
	struct lwp *best = NULL;
	n_choices++;
	give_priorities(can);
	give_priorities(asleep);
	if (current != NULL)
		fall(current);
	for (size_t i = 0; i < can->count; i++)
		if (best == NULL || *priority_of(can->at[i]->tid) > *priority_of(best->tid))
			best = can->at[i];
	for (size_t i = 0; i < asleep->count; i++)
		if (sleep_takes_part(asleep->at[i]) && (best == NULL || *priority_of(asleep->at[i]->tid) > *priority_of(best->tid)))
			best = asleep->at[i];
	return best;
}

struct lwp *schedule_choose(const lwps *can, const lwps *asleep, const struct lwp *current, long point, struct lwp *plain)
{
	if (schedule.strategy == SEEDED)
		return seeded_choice(can, asleep);
	if (schedule.strategy == PRIORITIES)
		return highest(can, asleep, current);
	const struct switch_to *given = given_at(current != NULL ? current->tid : 0, point);
	for (size_t i = 0; given != NULL && i < can->count + asleep->count; i++) {
		struct lwp *l = i < can->count ? can->at[i] : asleep->at[i - can->count];
		if (l->tid == given->to)
			return l;
	}
	return plain;
}

int schedule_first_of(const int *children, int count, const struct lwp *l, long point)
{
	if (schedule.strategy == SEEDED || schedule.strategy == PRIORITIES)
		return draw_child(children, count);
	const struct switch_to *given = given_at(l->tid, point);
	for (int i = 0; given != NULL && i < count; i++)
		if (children[i] == given->to)
			return given->to;
	return 0;
}

/* ---- a seed that draws no switch */

static int drawn_of(const int *can, int n_can, const int *asleep, int n_asleep)
{
	static LIST(int) sorted;
	bool sleeper = schedule.early && n_asleep > 0 && (n_can == 0 || draw(&choosing) < 0.2);
	int count = sleeper ? n_asleep : n_can;
	if (count == 0)
		return 0;
	sorted.count = 0;
	for (int i = 0; i < count; i++)
		APPEND(&sorted, (sleeper ? asleep : can)[i]);
	qsort(sorted.at, count, sizeof sorted.at[0], by_value);
	return sorted.at[draw_below(&choosing, count)];
}

bool schedule_is_plain(const choices *made)
{
	const int *at = made->at, *end = at + made->count;
	while (at < end) {
		int kind = *at++;
		if (kind == STAYED) {
			if (!draw_stay())
				return false;
			continue;
		}
		int count = *at++;
		const int *first = at;
		at += count;
		if (kind == REPORTED) {
			if (draw_child(first, count) != first[0])
				return false;
			continue;
		}
		int n_asleep = *at++;
		const int *asleep = at;
		at += n_asleep;
		if (drawn_of(first, count, asleep, n_asleep) != *at++)
			return false;
	}
	return true;
}
