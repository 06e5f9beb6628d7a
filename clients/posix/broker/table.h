/* The processes and LWPs of a run, and who waits for what. There is one run at a time. */
#ifndef TABLE_H
#define TABLE_H
#include <setjmp.h>
#include <stdbool.h>
#include <stddef.h>
#include <stdint.h>
#include <tracehost.h>
#include <ucontext.h>

typedef tracehost_reply reply;
typedef uint32_t signals; /* signal n is bit n; in the model's sets it is bit n - 1 */
#define BIT(number) ((signals)1 << (number))
#define EACH_SIGNAL(number) \
	int number = 1;         \
	number < 32;            \
	number++

enum { TRAP = 5, KILL = 9, SEGV = 11, STOP = 17, CONT = 19, CHLD = 20 };
enum { USER = TRACEHOST_FIRST_USER, FIRST_PROCESS = TRACEHOST_FIRST_PROCESS, PROCESSES = TRACEHOST_PROCESS_NUMBERS };
enum { FIRST_LWP = TRACEHOST_FIRST_LWP, LWPS = TRACEHOST_LWP_NUMBERS };

/* Topics: a process's number (news for it), its negative (it may run again), an LWP's number (it has ended), and these. */
enum { IO = 1, SYNC = 2 };
enum { NEVER = -1 }; /* no time */

/* A list that grows. One that belongs to a process keeps its memory for the next run. */
#define LIST(type)          \
	struct {                \
		type *at;           \
		size_t count, room; \
	}
#define APPEND(list, ...)                                                                      \
	((list)->at = with_room((list)->at, (list)->count + 1, &(list)->room, sizeof *(list)->at), \
		(list)->at[(list)->count++] = (__VA_ARGS__))
#define TAKE_OUT(list, place) take_out((list)->at, &(list)->count, place, sizeof *(list)->at)
void *with_room(void *at, size_t count, size_t *room, size_t size);
void take_out(void *at, size_t *count, size_t place, size_t size);

struct info {
	int64_t signal, code, sender, status, address;
}; /* of a signal, what siginfo_t has */
struct caught {
	bool restart, no_defer, reset;
	signals mask;
};
struct awaited {
	int signal, count;
	uint32_t action;
}; /* caught while `count` LWPs wait for it in sigwait(2) */
struct put_back {
	int signal;
	uint32_t action;
};
struct rung {
	int64_t number, at, every, overruns, topic;
	int signal;
	bool due;
}; /* a timer while its signal is pending */
struct watched {
	int64_t pid;
	bool tracks;
};
struct counted {
	int64_t signal, number;
};
struct happening {
	int64_t kind, number, first, second;
};
struct described {
	int pid;
	bool daemon;
};
struct news {
	int pid, to, heir;
	bool job;
}; /* a status that no wait has reported */

struct lwp;
struct process {
	int pid, parent, tracer; /* no tracer is 0 */
	int group, session;
	bool execed; /* since its fork */
	int real; /* the host's number */
	bool collected; /* there is none any more; it has ended with the status `how` of the host's */
	int how;
	int proxy; /* the host's number of the process that waits for it, a child of a program without the runtime; 0 if there is none */
	uint64_t base; /* where the host has loaded its program */
	int filters; /* of seccomp(2), that the program hasn't set itself */
	bool live;
	bool looks_for_leaks; /* a sanitizer of this image does: the host's kernel tells of its calls, for which a thread may spin */
	bool examines; /* a debugger that has asked for registers, or set a byte: its steps are instructions */
	bool stops; /* it has been stopped, or sent a signal that stops */
	bool vforked; /* its parent waits for its exec or end */
	bool reports; /* its tracer has asked for stops at calls */
	bool chld_due, chld_spurious; /* a SIGCHLD has come since the last one was caught; one of a stop that was passed over */
	int told; /* the exit code that the model has, or -1 */
	struct lwp *reporting; /* of its last stop */
	signals catches, ignored, maybe, has_sent; /* maybe: those that may be pending, for a call that waits */
	struct caught caught[32];
	struct info sent[32];
	int n_awaited, n_put_back;
	struct awaited awaited[32];
	struct put_back put_back[32]; /* of a fork's child: what a sigwait(2) of its parent has changed */
	struct lists {
		LIST(struct lwp *) lwps, replaced; /* replaced: taken away by an exec */
		LIST(struct rung) rung;
		LIST(struct watched) watched;
		LIST(struct counted) counts;
		LIST(struct happening) happened;
		LIST(struct described) described;
	} lists;
};

enum { TOUCHED = 24 };
enum { MEMORY = 1, REGISTERS = 2 }; /* of `altered` */
struct touches {
	bool all;
	size_t count;
	uint16_t at[TOUCHED]; /* in ascending order */
}; /* what a leg touches, by numbers of legs.c */

struct call;
enum { ARGUMENTS = 6, ASKED = 520 };
struct lwp {
	struct process *process;
	int tid, real, fd; /* fd: -1 for a timer, and before its socket is given out */
	bool rings; /* a timer whose time has come, and whose signal isn't sent yet */
	bool is_timer, alive; /* alive: one of its process's */
	bool in_table; /* it has said hello */
	signals mask, former, accepting; /* former: before ppoll(2); accepting: by its sigwait(2), in place of a handler */
	/* what it waits for */
	bool waits;
	int n_topics;
	int64_t topics[4], until;
	int64_t seen; /* the clock then; -1 looks again */
	long ran, points, before; /* before: steps that were kept when its leg began */
	bool yields, stepping, leaves, foreign;
	int64_t held, reader; /* of one that is foreign: for an image of the runtime that takes it up */
	struct touches asleep; /* of the leg that was due when it was preempted: it sleeps until another leg touches that */
	bool traps; /* it steps by an instruction */
	bool to_step; /* by PT_SETSTEP or PT_STEP: the mark stays until it has stepped */
	bool lands; /* its call is over: it asks `user` after the call has returned */
	bool hosted; /* it waits in a call of the host's */
	bool awaits; /* a program without the runtime, which waits for its children only */
	int idle; /* how often it has waited, and nobody else has gone on */
	bool lost; /* a debugger has let it go on at address 0 */
	bool cancelled, born; /* born: its next message is the hello of a new image */
	int level, depth; /* how many questions wait for an answer; and how many did when its debugger made it step */
	signals has_sent;
	struct info sent[32], info; /* info: of the signal that it has last stopped for */
	signals passed; /* whose handlers are due: one at a call's entry, another at its exit */
	LIST(int) injected; /* that other threads have sent it */
	int64_t polling; /* when its poll(2) is over */
	int entered; /* the code of the call that it is in, or -1 */
	bool at_entry, begins, begun; /* stopped at a call's entry; by `begin`; in a call that its next step would enter */
	int altered; /* at its entry, by a debugger */
	bool denied; /* a debugger has set another number there than the call's */
	bool anew; /* its question is void: it makes the call anew */
	int replaced; /* by its debugger: the code of the call that it makes; 0 if that is the one it has entered */
	double computed; /* seconds, since its last call */
	/* its question */
	uint64_t where;
	char asked[ASKED];
	const struct call *call;
	int64_t arguments[ARGUMENTS];
	struct lwp *bears; /* its next answer has the socket of this one with it */
	/* a timer */
	int64_t number, first, every;
	int signal;
	uint64_t changed;
	/* its coroutine */
	char *stack;
	bool started, renewed; /* renewed: by an exec */
	ucontext_t context;
	jmp_buf *act; /* a void question comes back here, on the same stack: a shadow stack has no other frames to leave */
};

struct table {
	LIST(struct process *) processes; /* live ones, by age */
	LIST(struct lwp *) lwps; /* that may be chosen: timers too */
	LIST(struct news) news;
	int statuses[PROCESSES]; /* of processes that have ended, by number */
	int groups[PROCESSES]; /* of all processes, by number */
	int64_t now; /* virtual time, in nanoseconds */
	int made; /* how many processes there have been */
	uint64_t clock;
	/* all of the run, for the next one to use again */
	LIST(struct process *) all_processes;
	LIST(struct lwp *) all_lwps;
	size_t n_processes, n_lwps;
};
extern struct table table;

#define EACH_PROCESS(p)             \
	size_t p##_at = 0;              \
	p##_at < table.processes.count; \
	p##_at++

void table_begin(void);
void change(int64_t topic);
bool can_go(const struct lwp *l);
void end_first_sleep(void);
int64_t later(int64_t time, int64_t by);

struct process *new_process(int pid, int parent);
struct lwp *new_lwp(struct process *p, int tid, signals mask);
void into_table(struct lwp *l);
void out_of_table(struct lwp *l);
bool is_of(const struct process *p, const struct lwp *l);
void happen(int64_t kind, int64_t number, int64_t status);
void table_end(struct process *p, int status);

struct process *live_process(int64_t pid);
struct lwp *lwp_of(int64_t tid);
struct process *process_of(int64_t number);

int group_of(int64_t pid);
void set_group(struct process *p, int group);
int reportable(const struct process *p, bool stops, int pids[PROCESSES]);
bool hides(const struct process *parent, int pid);
struct news *news_of(int pid);
void forget_news(int pid);
struct process *reported(int pid);

/* The numbers that come next. `in_use`: the user's, zombies too, once numbers have begun again. */
int number_process(const bool in_use[PROCESSES]);
bool numbers_have_wrapped(void);
int number_lwp(void);

/* ---- legs.c: what the leg that runs touches */

void touch_all(void);
void touch_host(void);
void touch_clock(void);
void touch_process(int64_t pid);
void touch_news(int64_t pid);
void touch_with_kin(const struct process *p);
void touch_topic(int64_t topic);
int64_t now(void); /* the time, at which the leg looks */
#endif
