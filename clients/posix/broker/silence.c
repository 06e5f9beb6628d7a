/* An LWP that computes and says nothing, while the calls of its computation are answered. */
#include <poll.h>
#include <time.h>
#include "calls.h"
#include "notices.h"

enum { SHORT_MS = 1 };

static double milliseconds(void)
{
	struct timespec now;
	clock_gettime(CLOCK_MONOTONIC, &now);
	return now.tv_sec * 1e3 + now.tv_nsec / 1e6;
}

static bool has_message(const struct lwp *l) { return poll(&(struct pollfd){.fd = l->fd, .events = POLLIN}, 1, 0) > 0; }

/* What it leaves may be about to start a process of the model's, on a busy host too. */
static void let_rest(struct lwp *l)
{
	struct watch watch;
	watch_begin(&watch, options.patience);
	do {
		answer_notices(l);
		end_if_python_is_gone();
		if (!has_due(l) && rest_now(l) != RUNS_ON)
			return;
		wait_for_notice(NULL, LOOK_MS);
	} while (!watch_look(&watch, l->process->real, l->real));
}

static bool has_news(const struct lwp *l)
{
	take_notices();
	return has_due(l) || has_message(l);
}

/* It waits in the host for children only, and has been woken: whether that is so still, once the host has done its part. One
 * that goes on for as long as a thread that computes does so. */
bool still_awaits(const struct lwp *l)
{
	struct watch watch;
	watch_begin(&watch, until_poke[COMPUTES]);
	for (int looks = 1; !has_news(l); looks++) {
		const enum rest how = rest_now(l);
		if (how != RUNS_ON)
			return how == AWAITS_CHILDREN && !has_news(l);
		wait_for_notice(l, SHORT_MS);
		if (looks % LOOK_MS == 0 && watch_look(&watch, l->process->real, l->real))
			return false;
	}
	return false;
}

/* It waits in the host, and others go on: until one that it has started ends, if it waits for nothing else. How many of the
 * milliseconds that are left it was silent then. */
static double rest(struct lwp *l, enum rest how, double left)
{
	const long steps = run.steps;
	l->awaits = how == AWAITS_CHILDREN;
	change(IO); /* it may have written before */
	ask_for(l, "0 poke %d", ASLEEP_IN_HOST);
	if (run.steps > steps + 1) { /* others went on */
		l->idle = 0;
		return 0;
	}
	const double began = milliseconds();
	l->idle = l->idle < LOOK_MS ? l->idle + 1 : LOOK_MS;
	wait_for_notice(NULL, l->idle < left ? l->idle : left > 0 ? (int)left + 1 : 0);
	return milliseconds() - began;
}

/* Whether an LWP that computes says nothing for LOOK_MS, while the calls of its computation are answered as they come: of a
 * program without the runtime, or of a sanitizer that looks for leaks. The calls of others are heard when there is time. */
bool stays_silent(struct lwp *l)
{
	const bool was_foreign = l->foreign;
	if (!was_foreign && !l->process->looks_for_leaks)
		return false;
	for (double left = LOOK_MS; left > 0;) {
		answer_notices(l);
		if (l->foreign != was_foreign) /* it has become an image of the runtime */
			return false;
		const double began = milliseconds();
		const bool starts = was_foreign && has_started(l->process);
		const bool hears = wait_for_notice(l, starts || has_due(l) ? SHORT_MS : (int)left + 1);
		if (has_message(l)) {
			if (was_foreign && is_over(l))
				let_rest(l);
			return false;
		}
		const enum rest how = starts && !hears && !has_news(l) ? rest_now(l) : RUNS_ON;
		left -= hears ? SHORT_MS : milliseconds() - began;
		if (how != RUNS_ON)
			left -= rest(l, how, left);
	}
	return true;
}
