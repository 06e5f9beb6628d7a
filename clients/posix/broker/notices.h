/* Notifications of seccomp(2): calls of programs without the runtime, and what the host tells of their processes. */
#ifndef NOTICES_H
#define NOTICES_H
#include <linux/seccomp.h>
#include "run.h"

/* A call that waits for its answer. */
struct notice {
	uint64_t id;
	struct lwp *lwp; /* whose computation it is; NULL for nobody's */
	int tid, pid; /* of the host's: who calls */
	struct seccomp_data data;
	bool answered; /* that has begun */
};

/* ---- notices.c */

enum rest { RUNS_ON, RESTS, AWAITS_CHILDREN }; /* of a program without the runtime */
enum rest rest_now(const struct lwp *l);
void answer_notices(struct lwp *l);
bool has_due(const struct lwp *l);
bool wait_for_notice(const struct lwp *l, int milliseconds); /* or for a message of the LWP's, if one is given */
int give_descriptor(const struct notice *n, int fd); /* its number there; -1 if the caller has gone. `fd` is closed */
void answer_with(const struct notice *n, int64_t value);
bool is_over(const struct lwp *l);
int host_signal_of(int signal); /* of FreeBSD's number; SIGKILL if the host hasn't it */

/* ---- behind.c: programs of tracehost-cc that such a program has started */

bool is_behind(const struct notice *n);
bool is_proxy(const struct notice *n); /* it waits for the end in the model */
bool replaces(const struct notice *n); /* the image is the LWP's: no new process */
bool may_end(const struct notice *n);
void take_up(struct lwp *l, const struct notice *n);
void end_proxy(struct lwp *l, const struct notice *n);
bool has_started(const struct process *p);
struct process *started_as(int real);

/* ---- host_processes.c */

struct process *process_with(int real);
struct process *maker_of(int pid);
bool descends_from(int pid, const struct process *p);
const char *file_of(int pid);
bool is_sanitizer(const char *file);
bool is_first_child(int pid, const struct process *p);
int compare_by_age(int a, int b, const struct process *p);
enum rest rest_of(const struct process *p);
#endif
