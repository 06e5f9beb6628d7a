/* The choices: who goes on if several can. A seed is the same schedule on each machine: its numbers are those of twister.h. */
#ifndef SCHEDULES_H
#define SCHEDULES_H
#include "table.h"

/* A choice that isn't the plain schedule's: at this point of this LWP, another goes on. */
struct switch_to {
	int tid;
	long point;
	int to;
	struct touches asleep; /* of a given one: what the leg that it postpones touches */
};
typedef LIST(struct switch_to) switches;
typedef LIST(struct lwp *) lwps;

enum strategy { PLAIN, SWITCHED, SEEDED, PRIORITIES };
struct schedule {
	enum strategy strategy;
	uint64_t seed;
	bool early; /* a sleep ends at any time */
	long depth, length; /* of priorities */
	switches given;
};
extern struct schedule schedule;

void schedule_begin(void);
bool schedule_stays(const struct lwp *current, long point);
struct lwp *schedule_choose(const lwps *can, const lwps *asleep, const struct lwp *current, long point, struct lwp *plain);
struct lwp *plain_choice(const lwps *can, const struct lwp *current);
/* The given switch at this point, or NULL. */
const struct switch_to *given_at(int tid, long point);
/* Which of these children a wait for any reports; 0 for the lowest number. */
int schedule_first_of(const int *children, int count, const struct lwp *l, long point);

/* The choices of the plain schedule, as numbers: the list for schedule_is_plain. */
typedef LIST(int) choices;
enum { STAYED, CHOSE, REPORTED };
/* Whether a seed makes these choices too. It draws: the schedule has to begin again after that. */
bool schedule_is_plain(const choices *made);
#endif
