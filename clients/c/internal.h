/* What the files of the client share. Programs include only tracehost_client.h. */
#ifndef TRACEHOST_INTERNAL_H
#define TRACEHOST_INTERNAL_H

#include "tracehost_client.h"

#include <pthread.h>
#include <signal.h>
#include <stddef.h>
#include <stdint.h>
#include <sys/types.h>
#include <tracehost.h>

#define COUNT(array) (sizeof(array) / sizeof((array)[0]))

/* ---- names and numbers: names.c */

struct thp_name {
    const char *name;
    int value;
};

struct thp_table {
    const struct thp_name *names;
    size_t count;
};

extern const struct thp_table thp_requests, thp_events, thp_stop_flags, thp_options, thp_actions, thp_decisions, thp_calls;

/* the name of a value; NULL for none */
const char *thp_name_of(const struct thp_table *table, int value);
/* Appends to a text with room for `size` bytes, and adds to its length; what doesn't fit is cut. */
void thp_append(char *text, size_t size, size_t *length, const char *more);
/* all values together */
int thp_all_of(const struct thp_table *table);
/* the host system's number of the model's errno with FreeBSD's number; 0 for none */
int thp_errno_numbered(unsigned freebsd);
/* the name of the model's errno; NULL for another one */
const char *thp_error_name(int error);

/* ---- a step and its reply */

enum thp_op { THP_SPAWN, THP_LIST, THP_SIGACTION, THP_KILL, THP_WAIT4, THP_INSTALL, THP_HANDLE, THP_PTRACE, THP_TURN, THP_LINE };
enum thp_act { THP_COMPUTE, THP_RAISE, THP_BLOCK, THP_ENTER, THP_LEAVE }; /* of a turn */

/* A step has the fields of its op; the others are 0. */
struct thp_step {
    enum thp_op op;
    unsigned user;
    int32_t caller;
    int32_t lwp; /* of a turn */
    enum thp_act act;
    int32_t target; /* of a request, kill or wait4 */
    int request, signal, options, action, call;
    unsigned data; /* of a request; the event mask; the set of a block; the code of a call */
    const struct th_rule *rules;
    size_t rule_count;
    const char *line; /* of th_step_text */
    int32_t *numbers; /* room for the list that answers it */
    size_t size;
};

/* tools/format kinds of replies */
enum thp_kind { /* up to THP_ERROR in the order of tracehost.h */
    THP_DONE,
    THP_NEW,
    THP_NUMBER,
    THP_STATUS,
    THP_NOTHING,
    THP_INFO,
    THP_LWPS,
    THP_PIDS,
    THP_MASK,
    THP_HANDLED,
    THP_STOPPED,
    THP_CAUGHT,
    THP_ENDED,
    THP_HELD,
    THP_ERROR,
    THP_REFUSED
};
/* end */

/* tools/format reply */
/* A reply has the fields of its kind; the others are 0, and -1 is no handler. The error has the host system's number. */
struct thp_reply {
    enum thp_kind kind;
    int pid;
    int lwp;
    int number;
    int status;
    int signal;
    int event;
    int flags;
    int mask;
    int pending;
    int child;
    unsigned code;
    int handler;
    int decision, pass;
    int error;
    int events;
    size_t count; /* of a list */
};
/* end */

/* ---- why a step was refused: refusals.c, and rows.c by the user's rows */

/* tools/format conditions */
/* clang-format off */
enum thp_condition {
    THP_CALLER_GONE, THP_CALLER_IN_TRACE_STOP, THP_CALLER_IN_JOB_STOP, THP_NO_NUMBER_OF_LWP, THP_LWP_GONE,
    THP_LWP_IN_TRACE_STOP, THP_LWP_IN_JOB_STOP, THP_LWP_SUSPENDED, THP_LWP_WAITS, THP_NO_GROUPS, THP_NO_CHILD,
    THP_NO_CHILD_OF_NUMBER, THP_NO_SIGNAL_TO_POST, THP_NO_OTHER_PROCESS, THP_PROCESS_GONE, THP_NO_SIGNAL,
    THP_FIXED_SIGNAL, THP_MOST_HANDLERS, THP_IN_NO_CALL, THP_IN_A_CALL, THP_NO_SIGNAL_TO_RAISE, THP_MOST_PROCESSES,
    THP_MOST_LWPS, THP_NO_MEMORY, THP_CALLER_TRACED, THP_PARENT_IS_1, THP_TRACES_ITS_PARENT, THP_TARGET_IS_0,
    THP_TARGET_PROCESS_GONE, THP_TARGET_LWP_GONE, THP_TARGET_ENDED, THP_TRACES_ITSELF, THP_TRACED_ALREADY,
    THP_TRACES_THE_CALLER, THP_NOT_TRACED, THP_TRACED_BY_ANOTHER, THP_IN_NO_STOP, THP_STOP_NOT_TOLD,
    THP_NO_SIGNAL_TO_PASS, THP_NO_COUNT, THP_UNNAMED_EVENTS
};
/* clang-format on */
/* end */

/* What a step asks, as format/refusals.toml names it; the fields that its op doesn't have are 0, and `which` is -1. */
struct thp_asked {
    int64_t user, caller, target, which, lwp, signal, data, request, act, action, unnamed;
};

/*
 * Stores in `text`, of at least one byte, why the step was answered so: by an errno of the host system, or TH_EHELD. Unless the
 * rows are those of the refusal, each condition that is possible is named.
 */
void thp_explain(th_host *h, const struct thp_step *step, int error, int has_rows, char *text, size_t size);
/* Keeps for th_explain that the calling thread's step was refused by an errno; 0 for a call that the model didn't refuse. */
void thp_note_refusal(const th_host *h, const struct thp_step *step, int error);
/* The place of the first of so many conditions that holds by the user's rows; -1 if none is known to. */
int thp_first_that_holds(th_host *h, const struct thp_asked *asked, const enum thp_condition *conditions, size_t count);

/* ---- the session: session.c */

/* bytes that grow */
struct thp_text {
    char *bytes;
    size_t length, size;
    int failed; /* memory ran out: what was to be added is missing */
};

/* an open file, and -1 for none: the program may close its descriptor, and open another file that gets its number */
struct thp_file {
    int number;
    dev_t device;
    ino_t inode;
};

/* a wait that is blocked */
struct thp_wait {
    struct thp_wait *next;
    int due; /* it is to be asked again */
};

struct th_host {
    pthread_mutex_t lock; /* a call holds it from the beginning of its step to the end of its answer */
    pthread_cond_t changed; /* a wait blocks, is due, or is over */
    struct thp_wait *waits; /* in the order in which they began to block */
    unsigned long session; /* its number in this program, from 1 */
    int broken; /* no more steps are made */
    pid_t owner; /* the process that opened the session */
    tracehost library;
    size_t asked; /* how many steps were asked for */
    struct thp_text step; /* the line of a step, if it is needed */
    struct thp_text answer; /* that of its answer, with a NUL in place of its line feed */
    int kills; /* the setting of kern.kill_on_debugger_exit */
    int answered; /* a step was answered */
    unsigned long changes; /* steps that may have changed rows */
    struct thp_file scenario, lines; /* of th_record */
    size_t steps; /* recorded in them */
    off_t recorded; /* bytes of the scenario before the brackets that close it */
    off_t lines_end; /* bytes of the lines */
    int record_error; /* why a step can't be recorded; 0 while all are */
    struct thp_text entry; /* what is added to the scenario */
    struct thp_test *test; /* NULL for none */
};

void thp_add_bytes(struct thp_text *text, const char *bytes, size_t length);
/* at least `more` bytes of room; -1 if memory ran out */
int thp_room_for(struct thp_text *text, size_t more);
/* No more steps are made: the next calls answer EPIPE. */
void thp_break_off(th_host *h);
/* whether the session was opened before a fork, by another process */
int thp_is_inherited(const th_host *h);
/* Makes a step. 0 if it is answered, neither by an errno, nor `held`, nor as refused; a line always; else -1 with errno. */
int thp_ask(th_host *h, const struct thp_step *step, struct thp_reply *reply);

/* ---- how the library makes a step: library.c */

/* Makes a step, and stores its reply; if it is recorded or refused, the lines of both too. -1 with errno. */
int thp_make(th_host *h, const struct thp_step *step, struct thp_reply *reply);
/* Stores why the last line was refused, at most size - 1 bytes and a NUL. */
void thp_read_reason(const th_host *h, char *reason, size_t size);

/* ---- the record: record.c */

/* Adds the step and its answer to the files of th_record; -1 with errno. */
int thp_record(th_host *h, const struct thp_reply *reply);
void thp_close_record(th_host *h);
struct thp_file thp_file_of(int number);
/* Closes the file, unless its number means another one by now. */
void thp_close_file(struct thp_file *file);

/* Begins a record in files that are empty; -1 with errno, and the session isn't recorded. */
int thp_begin_record(th_host *h, int scenario, int lines);

/* ---- tests: failing.c; their files: artifacts.c; their pages: pages.c; signals that end them: crashes.c */

enum { THP_PATH = 4096, THP_STEM = 112, THP_PAGE_WORDS = 10 };

struct thp_artifacts {
    char folder[THP_PATH], scenario[THP_PATH], lines[THP_PATH], page[THP_PATH];
    char scenario_now[THP_PATH], lines_now[THP_PATH]; /* while the test runs */
    char traces[THP_PATH]; /* the folder $TRACEHOST_TRACES, or "" */
    char stem[THP_STEM]; /* how the names begin */
    int nth; /* of the tests with this stem that have names; 0 for none */
    int is_own_folder; /* of this test only */
};

struct thp_test {
    struct thp_test *next;
    volatile sig_atomic_t is_open;
    th_host *host;
    pid_t owner;
    struct thp_file file; /* the scenario, which is locked */
    struct thp_artifacts artifacts;
    char name[256], message[1024];
    int has_failed;
    size_t step; /* at which it failed */
};

/* All tests, also those that have ended: they are used again and never freed, so that a signal's handler may read them. */
extern struct thp_test *volatile thp_tests;

/* Makes the files of a test of this name, and opens two of them; -1 with errno. */
int thp_open_artifacts(struct thp_artifacts *a, const char *test, int *scenario, int *lines);
/* The test has failed, and the files get their last names; -1 with errno. A signal's handler may call it. */
int thp_keep_artifacts(const struct thp_artifacts *a, int in_handler);
/* Copies the scenario, an open file, to the folder $TRACEHOST_TRACES, if it is set. What goes wrong is told. */
void thp_leave_trace(const struct thp_artifacts *a, int scenario);
/* The test has ended: the files of one that has passed go, and those that an earlier run of it has left. */
void thp_end_artifacts(const struct thp_artifacts *a, int failed);
/* Handles signals that end the program, from now on. */
void thp_watch_signals(void);
/* The command that makes the page, which the other arguments are for. */
void thp_page_command(
    const char *argv[THP_PAGE_WORDS], const struct thp_artifacts *a, const char *test, const char *message, const char *step);
/* Makes the page of a test that failed after so many steps; -1 if there is none, and standard error says why. */
int thp_make_page(const struct thp_artifacts *a, const char *test, const char *message, size_t step);
/* Waits for the group of processes that makes a page, and kills it if it doesn't end. A signal's handler may call it. */
void thp_wait_for_page(pid_t child);
/* What the session of a test that failed after so many steps comes to, in words; -1 without tracehost-debug, or if it fails.
   $TRACEHOST_DEBUG names it; an empty one is none. */
int thp_tell_story(const struct thp_artifacts *a, size_t step);
/* A step of a test can't be recorded, which is told. */
void thp_tell_lost_record(const th_host *h, int error);
/* The session of a test that hasn't ended is closed. */
void thp_end_test(th_host *h);

/* ---- several threads: threads.c */

/* Begins to use the lock and the condition, or an errno; and ends it. */
int thp_init_threads(th_host *h);
void thp_end_threads(th_host *h);
/* Begins a call, after the waits that are due; and ends it. errno stays. */
void thp_enter(th_host *h);
void thp_leave(th_host *h);
/* Every blocked wait is asked again, before any other step is made. */
void thp_wake(th_host *h);
/*
 * thp_ask as a call of its own. Unless `timeout` is NULL, it asks until the reply isn't THP_NOTHING; -1 and ETIMEDOUT after so many
 * ms, if they aren't negative.
 */
int thp_call(th_host *h, const struct thp_step *step, struct thp_reply *reply, const int *timeout);

/* ---- a step as a line: steps.c */

/* the line of a step, with its line feed; -1 with ENOMEM */
int thp_write_step(th_host *h, const struct thp_step *step);

#endif
