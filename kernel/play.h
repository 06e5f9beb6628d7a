/* The player: plays sessions of the model by real processes of the machine's kernel. What its files share. */
#ifndef PLAY_H
#define PLAY_H

#include <stdatomic.h>
#include <stdbool.h>
#include <stddef.h>
#include <stdio.h>
#include <sys/types.h>

enum { MODEL_SIGNALS = 32, MOST_LWPS = 512, FIRST_USER = 1001, USERS = 64, FIRST_LWP = 100000, LONG_TEXT = 8192 };

/* ---- puppets: processes whose LWPs spin until they are asked for something (puppets.c) */

enum act {
    ACT_NONE,
    ACT_PTRACE,
    ACT_WAIT4,
    ACT_KILL,
    ACT_SIGACTION,
    ACT_RAISE,
    ACT_BLOCK,
    ACT_FORK,
    ACT_VFORK,
    ACT_EXEC,
    ACT_EXIT,
    ACT_THR_NEW,
    ACT_THR_EXIT,
    ACT_OTHER
};
enum { ACTION_DEFAULT, ACTION_IGNORE, ACTION_CATCH };

struct command {
    enum act act;
    int option; /* the request of ptrace, the options of wait4, the action of sigaction */
    long number; /* the process or LWP, the exit code, the system call; the kernel's numbers */
    int signal; /* or other data of a request */
    unsigned set; /* of signals, or of events: the model's bits */
    int child; /* the slot of the LWP that is born */
};

/* What PT_LWPINFO says, in the model's words, except numbers. */
struct lwp_info {
    long lwp;
    bool reports;
    int flags;
    unsigned blocked, pending;
    pid_t child;
    unsigned code;
};

struct answer {
    long result;
    int error;
    int status; /* of wait4; a mask of events */
    struct lwp_info info;
    int count;
    int lwps[MOST_LWPS];
};

/* What an LWP and the player share. */
struct slot {
    atomic_uint asked, begun, done; /* numbers of commands */
    atomic_ulong beat; /* counts rounds in user mode */
    atomic_bool is_image; /* it has become an image of its own */
    atomic_int lender; /* 1 + the slot of the LWP whose thread and memory it has, by vfork(2); or 0 */
    atomic_int process; /* the kernel's numbers */
    atomic_long lwp;
    atomic_uint caught[MODEL_SIGNALS]; /* how often a handler has run */
    struct command command;
    struct answer answer;
};

/* All of the shared memory. */
struct stage {
    atomic_int interrupted; /* the signal that has come to the outer process */
    atomic_uint session; /* a puppet of an earlier one ends */
    atomic_int player; /* whose end ends the puppets; 0 if the kernel sees to that */
    atomic_bool silent; /* LWPs make no calls of their own: calls are reported */
    struct slot slots[MOST_LWPS];
};

#define PUPPET_NAME "tracehost-puppet"
/* What puppets inherit, and nothing else. */
enum { STAGE_DESCRIPTOR = 3, IMAGE_DESCRIPTOR = 4 };
extern struct stage *stage;
void puppet_begin(int slot) __attribute__((noreturn)); /* the first LWP of a process */
void puppet_live(int slot) __attribute__((noreturn));
void puppet_resume(int slot) __attribute__((noreturn));
int puppet_become_image(int slot);

/* ---- names and numbers (names.c) */

int native_signal(long number); /* -1: this kernel has none; a number that no kernel has for one that the model doesn't have */
int model_signal(int signal); /* 0: the model has none */
long model_status(int status);
long signal_of_word(const char *word); /* a number, or a name; -1: neither */
void error_reply(int error, char *text, size_t size);
void signals_text(unsigned set, const char *empty, char *text, size_t size);
void flags_text(int flags, char *text, size_t size); /* of a stop */
void events_text(unsigned events, char *text, size_t size);
unsigned event_of_word(const char *word); /* 0: none of this name */

/* ---- the kernel of this machine (linux.c, freebsd.c) */

enum state { STATE_GONE, STATE_RUNS, STATE_WAITS, STATE_JOB_STOP, STATE_TRACE_STOP, STATE_ZOMBIE };

static inline bool is_stopped(enum state state) { return state == STATE_JOB_STOP || state == STATE_TRACE_STOP; }

struct process_facts {
    enum state state;
    long user, parent, tracer;
    int lwps;
    int status; /* of a zombie, as wait(2) has it; negative if it isn't shown */
    unsigned pending, ignored, caught; /* sets of the model's signals */
};

struct lwp_facts {
    enum state state;
    unsigned blocked, pending;
};

extern const char system_name[];
extern const unsigned system_most_rounds; /* of a wait; 0: only time limits it */
extern const bool system_is_reaper; /* the player is process 1 of its puppets */
extern const bool system_has_users; /* the super-user can play several */
extern const bool system_spawns_image; /* a new process has to become an image of its own */
extern const bool system_has_lwp_pending; /* pending signals of an LWP are told apart from those of its process */
int system_stage(size_t size); /* a descriptor of shared memory without a name */
int system_image(void); /* a descriptor of this program, which any user may execute */
pid_t system_fork_inner(void);
void system_end_with_parent(void); /* SIGTERM comes as the process ends that started this one */
void system_inner(void);
void system_become(long user);
void system_kill_all(void);
extern bool private_numbers; /* nobody else's process can be meant */
struct slot *system_self(void);
void system_set_self(struct slot *slot);
void system_newborn(struct slot *slot);
bool system_find_newborn(struct slot *slot, pid_t parent, bool is_thread);
void system_rest(bool silent);
int system_thread(int slot);
void system_thread_end(void) __attribute__((noreturn));
int system_raise(int signal);
bool system_has_other(long number);
int system_other(long number);
bool system_has_request(const char *name, int *request);
long system_ptrace(const struct command *command, struct answer *answer);
bool system_process(pid_t process, struct process_facts *facts);
bool system_lwp(pid_t process, long lwp, struct lwp_facts *facts);
enum state system_lwp_state(pid_t process, long lwp);
int system_list(long user, pid_t *found, int most);
int system_kills_on_debugger_exit(void); /* -1: it has no such setting */
void system_why_untraced(char *text, size_t size);

/* ---- sessions (sessions.c) */

enum op { OP_SPAWN, OP_PTRACE, OP_WAIT4, OP_KILL, OP_SIGACTION, OP_LIST, OP_INSTALL, OP_HANDLE, OP_TURN };
enum { MOST_WORDS = 48 };

struct line {
    int number;
    char *text; /* the whole line, or the step's words */
    char *reply; /* NULL: a row */
    long user;
    enum op op;
    long actor; /* the caller, or the LWP */
    int count;
    char *words[MOST_WORDS]; /* behind the actor; of a row the words behind `=` */
};

struct session {
    char *name;
    bool kills; /* kern.kill_on_debugger_exit */
    size_t count;
    struct line *lines;
};

enum reading { READ_SESSION, READ_END, READ_WRONG };
struct reader;
struct reader *reader_open(FILE *file, const char *name);
enum reading reader_next(struct reader *reader, struct session *session, char *why, size_t size);
void session_free(struct session *session);
void reader_close(struct reader *reader);

/* ---- the cast: which processes and LWPs of the kernel are those of the model (cast.c) */

struct cast_process {
    long number, user;
    pid_t native;
    bool gone;
};
struct cast_lwp { /* its index is its slot */
    long number;
    int process;
    bool gone, suspended;
};

extern struct cast {
    int processes, lwps;
    struct cast_process process[MOST_LWPS];
    struct cast_lwp lwp[MOST_LWPS];
} cast;
extern double time_limit;

int cast_process(long number); /* -1: none */
int cast_lwp(long number);
int cast_add_process(long number, long user);
int cast_add_lwp(long number, int process);
pid_t native_process(long number);
long native_target(long number); /* of a request: a process or an LWP */
long model_process(pid_t native);
long model_lwp(long native);
long native_user(long user);
long model_user(long native);

/* What became of a command. */
enum outcome { OUT_NONE, OUT_DONE, OUT_STOPPED, OUT_GONE, OUT_BORN, OUT_HELD };
void cast_spawn(int lwp, long user);
void cast_await_newborn(int lwp, int maker); /* the player itself is -1 */
enum outcome cast_ask(int lwp, const struct command *command);
enum outcome cast_await(int lwp);
bool cast_busy(int lwp); /* a command that it has begun isn't done */
enum state cast_state(int process);
enum state cast_lwp_state(int lwp);
bool cast_waits_for_child(int lwp);
void cast_collect(void);
void cast_settle(void);
void cast_clear(void);

/* ---- steps (steps.c) */

enum made { MADE, NOT_TRIED };

struct course {
    bool settles; /* the turns are those that follow a caller's step */
    bool stops_again; /* the model's LWP stops at a later one of them */
};

void steps_begin(void);
/* Makes the step: `text` gets the kernel's reply, or why it can't be made here. */
enum made step_make(const struct line *line, const struct course *course, char *text, size_t size);

/* ---- rows of the model, and of the kernel (rows.c) */

struct row_difference {
    bool is_lwp, same;
    long number;
    const char *field, *model, *kernel;
};
typedef void (*rows_difference)(const struct row_difference *, void *);

void rows_begin(void);
void rows_keep(void); /* what is stated from now on comes after the step */
void rows_state(const struct line *line);
void rows_field(bool after, bool is_lwp, long number, const char *field, char *text, size_t size);
long rows_stopped_tracee(long tracer); /* the one that is stated last; 0: none */
int rows_users(void); /* how many had processes before the step */
int rows_compare(rows_difference told, void *with); /* how many were compared */

/* ---- known differences (differences.c) */

struct known {
    char *name, *step, *condition, *model, *kernel;
    bool follows, candidate, here; /* here: in this session */
    long times, met; /* how often the kernel differed so, of how many times that it could have */
};

struct found {
    const struct line *line;
    bool kills, row_is_lwp;
    long row;
    const char *model, *kernel;
};

void differences_read(const char *name);
struct known *differences_find(const struct found *found); /* NULL: no difference, or one that isn't listed */
bool differences_sum(int place, long *times, long *met); /* of its name; false if an earlier line has that */
int differences_count(void);
struct known *differences_at(int place);

/* ---- playing (play.c) */

extern int kills_on_debugger_exit; /* what the user says of kern.kill_on_debugger_exit; -1: nothing */
void play_file(FILE *file, const char *name, FILE *results);
int play_summary(FILE *results); /* prints it; the status */

/* ---- the end (tracehost-play.c) */

enum { STATUS_SAME, STATUS_DIFFERS, STATUS_WRONG, STATUS_FAULT };
void fault(const char *format, ...) __attribute__((noreturn, format(printf, 1, 2)));
void finish(int status) __attribute__((noreturn));
double seconds_now(void);

#endif
