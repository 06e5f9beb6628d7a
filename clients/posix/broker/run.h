/* A run: who goes on, what the threads ask, and how it ends. */
#ifndef RUN_H
#define RUN_H
#include <stdarg.h>
#include <stdio.h>
#include "turns.h"

struct options { /* of all runs */
	bool calls; /* others go on between calls only */
	bool strict;
	long limit; /* questions of a run */
	double patience;
	long long output_limit;
	int kill_on_debugger_exit;
	int requests, answers; /* the pipes */
	int output; /* the file of what a run prints, or -1 */
	bool stays; /* on the processor on which it begins */
};
extern struct options options;

struct wants {
	bool trace, places, made, halts, covers;
	long points; /* so many */
}; /* what an answer has besides its line */

struct kept {
	struct step step;
	reply reply;
	char *text;
}; /* text: of both, if the trace is wanted */
struct run {
	struct process *first;
	struct lwp *current;
	bool inside; /* others go on inside of calls */
	bool repeats; /* from here on it would only repeat another one */
	bool has_status;
	int status; /* of the first process */
	long questions, choices, steps, passed, skipped, examined, idle_points, busy, points, orphans, asides, rings;
	uint64_t last_look;
	/* these stay from run to run */
	struct wants wants;
	switches switches; /* that were made */
	choices made;
	LIST(struct kept) kept;
};
extern struct run run;

/* ---- run.c */

void others(struct lwp *l); /* others may go on: returns when this LWP is chosen again */
void give_way(struct lwp *l); /* the same, behind an answer */
void end_leg(struct lwp *l);
void await(struct lwp *l, int64_t until, int count, const int64_t *topics);
#define AWAIT(l, until, ...) await(l, until, sizeof(int64_t[]){__VA_ARGS__} / sizeof(int64_t), (int64_t[]){__VA_ARGS__})
_Noreturn void vanish(struct lwp *l); /* of the LWP at its turn, which has ended */
struct lwp *next_lwp(void);
void run_once(void);

/* ---- coroutines.c */

void switch_to(struct lwp *from, struct lwp *to); /* NULL is the loop of runs */
void start_with(struct lwp *first, void (*life)(struct lwp *l));
void retire(struct lwp *l); /* it never goes on again */
_Noreturn void begin_anew(struct lwp *l); /* its life, on another stack: an exec forgets what it stood in */
void coroutines_end(void);
bool ran_on_another_stack(struct lwp *l, struct info info);
_Noreturn void leave_run(void);

/* ---- questions.c and hearing.c */

struct call {
	const char *name;
	void (*body)(struct lwp *l, const struct call *call, const int64_t *arguments);
	int code; /* FreeBSD's number of the call; 0 if there is none, or the question has it */
	int least, most; /* arguments */
	const char *steps; /* that it makes if it doesn't wait, and nothing comes between */
	int waits, wakes; /* topics: for which it waits, besides that its process may run; that it changes */
	bool at_once; /* nobody goes on between the question and its first step */
	const char *of; /* the program's calls that ask it */
};
enum { NEWS = 1, RUNS = 2, ENDS = 4, FILES = 8, LOCKS = 16, TIME = 32 }; /* of waits and wakes */
void print_calls(void);

enum kind { READ, WRITE, POLL, KEVENT, SEMAPHORE, OTHER }; /* of `again` */
struct question {
	uint64_t where; /* the address behind the program's call; 0 if there is none */
	char *text, *words; /* words: behind the name */
	const struct call *call; /* NULL for `handled` */
	int64_t arguments[ARGUMENTS];
	int sender; /* the host's number of the process that asks, by its kernel */
};
enum reading { ASKS, HANDLED, BROKEN, REFUSED, OUTSIDE, REMARKS, ENDS_CHILD, HAS_FILTER, FOREIGN_TEXT, UNKNOWN };
enum reading read_question(char *line, struct question *q);
void leg_asks(const struct question *q, const char *text); /* of legs.c */

void live(struct lwp *l);
void meet(struct lwp *l);
void run_handler(struct lwp *l, struct info info);
const char *aside(struct lwp *l, const char *line);
void close_socket(struct lwp *l);
_Noreturn void foreign_question(const struct lwp *l);
int int_of(const struct lwp *l, int64_t number); /* which is an int in the runtime */
int code_of(const struct lwp *l, int64_t number); /* of a call that the LWP stays in */
void count_ring(const struct lwp *timer);
int64_t ask_for(struct lwp *l, const char *format, ...) __attribute__((format(printf, 2, 3)));

/* ---- notices.c, silence.c, host_processes.c: programs without the runtime */

void notices_of(int listener);
void notices_begin(void);
void take_notices(void);
bool stays_silent(struct lwp *l);
bool still_awaits(const struct lwp *l);
bool awaits_answer(int tid);
int status_of(int pid, const char *name);
const char *file_at(int pid, uint64_t address, uint64_t *loaded);

/* ---- ends.c */

_Noreturn void ended(struct lwp *l, int status);
void reap(struct process *const *suspects, size_t count, int status);
void release_parent(struct process *p);
void forget_lwp(struct lwp *l);
void replace_lwp(struct lwp *l);
void ended_in_host(int real, int status);
void wait_for_end_in_host(int real);

/* ---- outcome.c: what is answered to tracehost-run */

void note(const char *format, ...) __attribute__((format(printf, 1, 2)));
void note_text(const char *text); /* tabs, line feeds and % as %XX */
void note_place(const char *kind, const struct lwp *l, const char *then, size_t step);
void blame(const struct lwp *l, const char *then);
void halt(const struct process *p);
void flush_notes(void);
/* How a run ends: the program has failed; or the broker, the runtime or the host has, and nothing is known of the program.
 * outcome.py has the words. */
_Noreturn void failed(const char *format, ...) __attribute__((format(printf, 1, 2)));
_Noreturn void broken(const char *format, ...) __attribute__((format(printf, 1, 2)));
_Noreturn void gone(const struct process *p);
_Noreturn void repeats(void);
void set_failure(const char *format, ...) __attribute__((format(printf, 1, 2)));
bool has_failed(void);
void outcome_begin(void);
void outcome_end(void); /* of a process that has ended outside of the model: how */
void note_outcome(void);
void note_plain_outcome(void);
void forget_notes(void);
void verdict(void);
void remark(const char *format, ...) __attribute__((format(printf, 1, 2))); /* the run says so at its end */

/* ---- program.c */

enum { LOOK_MS = 50, ENDING_S = 20, MESSAGE = 4097 };
void program_start(char **argv);
void program_end(void);
int program_server(void); /* the host's number */
int program_filters(void); /* of seccomp(2), in each first process */
int program_run(void); /* the broker's end of the first thread's socket */
void program_files(char *text, size_t room);
void program_collect(void); /* of those that have ended the ones without a parent */
void program_sweep(void);
long long program_printed(void);
void program_forget_output(void);
int socket_pair(int *given);
bool send_with(int to, const char *text, int fd);

/* ---- main.c */

void end_if_python_is_gone(void);
_Noreturn void leave_python(void); /* nobody hears any more: all is ended */
void wait_for_python(void);

/* ---- coverage.c */

void coverage_begin(void);
void cover(const struct lwp *current, const struct lwp *chosen); /* a choice of an LWP that could go on itself */

/* ---- watch.c */

struct watch {
	double left, asleep; /* seconds */
	long own, others; /* processor time at the last look; -1 for none */
};
void watch_begin(struct watch *w, double patience);
bool watch_look(struct watch *w, int real, int thread); /* of the host's numbers */
bool watch_poke(struct watch *w, const struct lwp *l);
#endif
