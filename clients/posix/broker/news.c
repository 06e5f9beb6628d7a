/* Who hears of a signal, and of a process's status. */
#include "run.h"

bool stops(int64_t signal) { return has(BIT(STOP) | BIT(18) | BIT(21) | BIT(22), signal); }

/* The signal may be pending now. */
void nudge(struct process *p, int signal)
{
	change(p->pid);
	p->stops |= stops(signal);
	p->chld_due |= signal == CHLD && (p->catches & BIT(CHLD) || p->tracer != 0);
	if (p->tracer != 0 ? !is_discarded(p, signal) : has(p->catches, signal) || !(has(p->ignored, signal) || has(DISCARDED, signal)))
		p->maybe |= BIT(signal);
}

/* The signal was sent to the process, whatever comes of it: for kevent(2). */
void count_signal(struct process *p, int64_t signal)
{
	for (size_t i = 0; i < p->lists.counts.count; i++)
		if (p->lists.counts.at[i].signal == signal && !(signal == CHLD && p->ignored & BIT(CHLD))) {
			p->lists.counts.at[i].number++;
			change(p->pid);
		}
}

/* The process has ended, with this status of wait(2). */
void end_news(struct process *p, int status)
{
	int signal = status & 0x7F;
	child_news(p,
		signal == 0     ? BSD_CLD_EXITED
		: status & 0x80 ? BSD_CLD_DUMPED
						: BSD_CLD_KILLED,
		signal != 0 ? signal : status >> 8);
}

/* The status is the tracer's news, or without one the parent's. */
static void post_news(const struct process *p, const struct process *receiver, int code)
{
	bool has_ended = !p->live;
	if (receiver == NULL)
		forget_news(p->pid);
	else if (receiver->pid == p->tracer)
		*news_of(p->pid) =
			(struct news){.pid = p->pid, .to = receiver->pid, .heir = has_ended && p->parent != p->tracer ? p->parent : 0};
	else if (code != BSD_CLD_CONTINUED)
		*news_of(p->pid) = (struct news){.pid = p->pid, .to = p->parent, .job = !has_ended};
}

/* The process has a status for its tracer, or without one for its parent; SIGCHLD may have come to both. */
void child_news(struct process *p, int code, int status)
{
	struct process *receiver = live_process(p->tracer == 0 ? p->parent : p->tracer);
	touch_with_kin(p);
	post_news(p, receiver, code);
	bool silent = !p->live && receiver != NULL && hides(receiver, p->pid);
	bool tells = !silent && (code != BSD_CLD_CONTINUED || p->stops);
	if (silent) {
		receiver->chld_spurious = true;
		return;
	}
	if (receiver != NULL && tells)
		count_signal(receiver, CHLD);
	const int told[] = {p->tracer, p->parent};
	for (int i = 0; i < 2; i++) {
		struct process *other = live_process(told[i]);
		if (other == NULL)
			continue;
		if (tells)
			send_info(other, (struct info){.signal = CHLD, .code = code, .sender = p->pid, .status = status});
		nudge(other, CHLD);
	}
}
