/* The calls at which another LWP could go on, and whether one did. */
#include <string.h>
#include "run.h"

struct covered {
	int real;
	uint64_t base, where;
	bool preempted;
	char asked[ASKED];
};
static LIST(struct covered) covered; /* in this run */

void coverage_begin(void) { covered.count = 0; }

static bool is_at(const struct covered *c, const struct lwp *l)
{
	return c->real == l->process->real && c->base == l->process->base && c->where == l->where && strcmp(c->asked, l->asked) == 0;
}

static bool another_can_go(const struct lwp *current)
{
	for (size_t i = 0; i < table.lwps.count; i++)
		if (table.lwps.at[i] != current && can_go(table.lwps.at[i]))
			return true;
	return false;
}

/* Each is told once, and once more if it is preempted after that. */
void cover(const struct lwp *current, const struct lwp *chosen)
{
	bool preempted = chosen != current;
	size_t i = 0;
	if (!preempted && !another_can_go(current))
		return;
	while (i < covered.count && !is_at(&covered.at[i], current))
		i++;
	if (i == covered.count) {
		APPEND(&covered, (struct covered){current->process->real, current->process->base, current->where, false, ""});
		memcpy(covered.at[i].asked, current->asked, sizeof current->asked);
	} else if (!preempted || covered.at[i].preempted)
		return;
	covered.at[i].preempted = preempted;
	note_place("met", current, preempted ? "preempted" : "", 0);
}
