/* What a call means in steps: the bodies of the table in questions.c. */
#ifndef CALLS_H
#define CALLS_H
#include "run.h"

enum { COMPUTES, ASLEEP_IN_HOST, SPINS }; /* why a thread asks `poke` */
extern const double until_poke[]; /* seconds of its processor's time after which it does */

#define BODY(name) void name(struct lwp *l, const struct call *call, const int64_t *arguments)

/* process_calls.c */
BODY(hello);
BODY(fork_call);
BODY(vfork_call);
BODY(pdfork_call);
BODY(thr_new);
BODY(thr_exit);
BODY(exec_image);
BODY(foreign);
BODY(exit_process);
BODY(user_call);
BODY(poke);
BODY(point);
BODY(compute);
BODY(cancel);
BODY(simple);
BODY(sched_yield_call);
BODY(getppid_call);
BODY(join);
BODY(stat_call);

/* signal_calls.c, timer_calls.c */
BODY(kill_call);
BODY(thr_kill);
BODY(fault_call);
BODY(trace_call);
BODY(action);
BODY(mask_call);
BODY(suspend);
BODY(pause_call);
BODY(masked);
BODY(restore);
BODY(sigwait_call);
BODY(pending);
BODY(sleep_call);
BODY(clock_call);
BODY(timer_call);
BODY(timer_left);
BODY(overrun);

/* trace_calls.c */
BODY(ptrace_call);
BODY(memory);
BODY(registers_call);
BODY(apply);
BODY(setstep);
BODY(thread);

/* group_calls.c */
BODY(setpgid_call);
BODY(setsid_call);
BODY(group_call);
void tell_orphan_stop(const struct process *p, int signal);
void tell_orphans(void);
void use_groups(struct lwp *l, const char *call);
bool names_group(int64_t which);
void kill_group(struct lwp *l, int which, int signal);
int reportable_of_group(struct lwp *l, int64_t which, bool stops, int pids[PROCESSES]);

/* waiting_calls.c */
BODY(wait_call);
BODY(enter_only);
BODY(leave_only);
BODY(again);

/* reported_calls.c */
BODY(begin_call);
BODY(replace_call);
BODY(end_call);
void not_reported(const struct lwp *l, const char *call);

/* event_calls.c */
enum { FORKED = 1, EXECED, ENDED, SIGNALLED };
BODY(watch_call);
BODY(unwatch);
BODY(count_call);
BODY(news_call);
BODY(undescribed);
void wait_for_events(struct lwp *l, int64_t end);
void close_all_described(struct process *p);
void tell_fork(const struct process *p, const struct process *child);

/* of more than one file */
void posted(struct lwp *l, struct process *const *targets, size_t count, int signal);
int send_to_lwp(struct lwp *l, int64_t tid, int64_t signal);
void ring(struct lwp *timer);
int find_described(const struct process *p, int64_t pid);
void bare_call(struct lwp *l, int code); /* into a call that never waits, and out of it */
#endif
