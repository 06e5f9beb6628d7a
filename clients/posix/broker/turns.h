/* How an LWP makes a step: at its turn, again and again until its act was done, waiting if it can't. Others go on in a call of
 * others() or await(). */
#ifndef TURNS_H
#define TURNS_H
#include "schedules.h"

enum { ANSWER = 16384 };
enum { BSD_SI_USER = 0x10001, BSD_SI_TIMER = 0x10003, BSD_SI_KERNEL = 0x10006, BSD_SI_LWP = 0x10007, BSD_TRAP_TRACE = 2 };
enum { BSD_CLD_EXITED = 1, BSD_CLD_KILLED, BSD_CLD_DUMPED, BSD_CLD_TRAPPED, BSD_CLD_STOPPED, BSD_CLD_CONTINUED };
#define UNBLOCKABLE (BIT(KILL) | BIT(STOP))
#define DISCARDED (BIT(16) | BIT(CONT) | BIT(CHLD) | BIT(23) | BIT(28) | BIT(29))

static inline bool has(signals set, int64_t signal) { return signal > 0 && signal < 32 && set & BIT(signal); }

enum operation { SPAWN, TURN, PTRACE, WAIT4, SEND, SIGACTION, LIST_PROCESSES };
struct step {
	uint8_t op, act, call;
	bool bare; /* PT_GET_EVENT_MASK without data */
	uint32_t actor, a, b; /* a: a signal, a set, a code, options, a request; b: data, an action */
	int64_t which; /* another process or LWP */
};

/* ---- model.c: libtracehost, and the steps as text */

void model_begin(bool kill_on_debugger_exit);
void model_end(void);
reply look(struct step s);
struct numbers {
	size_t count;
	uint32_t at[1024];
};
void numbers_of_last(struct numbers *numbers);
bool rows_of(int pid, int tid, tracehost_process *process, tracehost_lwp *lwp);
bool is_request(int64_t number);
void write_last_reply(char *text, size_t room);
void write_step(char *text, size_t room, const struct step *s);

/* ---- legs.c: legs that commute */

void touch_step(const struct step *s, const reply *r);
void legs_begin(void);
void leg_ends(const struct lwp *l);
void leg_is_told(void);
void leg_chooses(int number);
uint64_t legs_sum(void);
uint64_t state_of(int tid);

/* ---- steps */

reply make(struct step s, bool keep);
void keep_step(struct step s, const reply *r);
void unkeep(void);
reply step_of_call(struct lwp *l, struct step s, bool keep); /* a step whose caller is the LWP's process */
struct step act_of(const struct lwp *l, int act, uint32_t argument);
struct step entry_of(const struct lwp *l, int call, uint32_t argument);

/* ---- turns */

struct met {
	signals all;
	int accepted;
	struct info info;
}; /* signals that were caught; the first one that a sigwait(2) takes, and what is known of it */
typedef bool done(struct lwp *l, const reply *r); /* whether the act ends in this stop */
struct how {
	done *done;
	struct met *met;
	bool at_once, defers;
};
reply turn(struct lwp *l, struct step s, struct how how);
void enter(struct lwp *l, int code, struct met *met);
void enter_call(struct lwp *l, int call, uint32_t argument, struct met *met);
reply leave(struct lwp *l);
signals user(struct lwp *l);
void user_met(struct lwp *l, struct met *met);
void stepped(struct lwp *l);
void stay(struct lwp *l);
void finish(struct lwp *l);
void back(struct lwp *l);
bool lands(const struct lwp *l);
reply dispose(struct lwp *l, int signal, uint32_t action, const struct caught *caught);
bool dispose_at_once(struct lwp *l, int signal, uint32_t action, const struct caught *caught); /* false: it is held */
void block(struct lwp *l, signals mask);

/* ---- waiting in a call */

/* In a call that can't go on, until something has changed: whether a signal has ended the call. */
bool linger(struct lwp *l, int64_t topic, bool restarts, int64_t until);
bool interrupts(const struct process *p, signals met, bool restarts);
bool is_due(const struct lwp *l);

/* ---- news.c: who hears of what */

bool is_discarded(const struct process *p, int signal); /* of turns.c: a traced process doesn't stop for it */
bool stops(int64_t signal); /* whether it stops by default */
void nudge(struct process *p, int signal);
void count_signal(struct process *p, int64_t signal);
void end_news(struct process *p, int status);
void child_news(struct process *p, int code, int status);
void send_info(struct process *p, struct info info);
void send_info_to_lwp(struct lwp *l, struct info info);

/* ---- answers.c */

extern char answer[ANSWER];
void say(const char *format, ...) __attribute__((format(printf, 1, 2)));
void say_error(int host_errno);
void say_reply(const reply *r); /* ok, or an errno */
void say_requested(const reply *r, const struct info *info, const struct numbers *numbers);
#endif
