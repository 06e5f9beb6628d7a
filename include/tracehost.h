/*
 * The model of FreeBSD's ptrace(2), wait(2), sigaction(2) and kill(2) in the caller's process: libtracehost.
 *
 *     tracehost h = TRACEHOST_CLOSED;
 *     tracehost_reply debugger, target, reply;
 *     tracehost_open(true, &h);
 *     tracehost_spawn(&h, 1001, &debugger);
 *     tracehost_spawn(&h, 1001, &target);
 *     tracehost_ptrace(&h, 1001, debugger.pid, TRACEHOST_PT_ATTACH, target.pid, 0, &reply);
 *     tracehost_wait4(&h, 1001, debugger.pid, -1, 0, &reply);     // reply.status is 17 * 256 + 127
 *     tracehost_close(&h);
 *
 * A handle is a session: a host of its own, shared by the users 1001 to 1064, and each user's number of answers. A call
 * with a user makes one step of that user: the host's reply and its state afterwards are those of the tracing machine;
 * or, if a step needs memory and none is left, the reply is TRACEHOST_ERROR with ENOMEM, and the host is as it was.
 * Two handles share nothing. Every call returns one of the codes below.
 *
 * What the caller owes:
 *   - A handle is TRACEHOST_CLOSED or all zeros before it is opened. It may be moved, and is never copied byte by byte
 *     while it is open: tracehost_copy copies a session.
 *   - One call at a time on a handle, from any thread. Calls on different handles may be made at the same time.
 *   - No call from a signal handler, or from the forked child of a process with threads.
 *   - Pointers are not null, also where a size is 0, and the objects behind a call's pointers don't overlap.
 *   - malloc, realloc and free, which a session uses, are of one allocator.
 *
 * A call on a handle that was closed is NOT_OPEN. So is one on memory that was never a handle, unless its tag happens to be
 * that of an open one.
 */
#ifndef TRACEHOST_LIBRARY_H
#define TRACEHOST_LIBRARY_H

#include <stdbool.h>
#include <stddef.h>
#include <stdint.h>

#ifdef __cplusplus
extern "C" {
#endif

/* The tag is 0 while the handle is closed, and a number of the library's own while it is open. */
typedef struct tracehost { void *session; uint64_t tag; } tracehost;
#define TRACEHOST_CLOSED {NULL, 0}

/* tools/format version */
#define TRACEHOST_VERSION "0.24.0"
/* end */

/* What a call returns. After 1, 2, 3 and 5 the session, and all that the call's pointers lead to, are as before. */
enum {
    TRACEHOST_ANSWERED = 0,
    TRACEHOST_NOT_OPEN = 1,  /* the handle isn't open; or the handle that is to be opened is open already */
    TRACEHOST_NO_MEMORY = 2,
    TRACEHOST_INVALID = 3,   /* a number is not one of those that exist: a user, a request, an act, a rule, .. */
    TRACEHOST_NO_TEXT = 4,   /* the step was made, but memory ran out for its text: see tracehost_last_line */
    TRACEHOST_TOO_MANY = 5   /* the user has had 2^64 - 1 answers */
};

/* A reply: its kind, and the fields that the kind has. All others are 0. */
/* tools/format reply */
typedef struct tracehost_reply {
    uint32_t kind;
    uint32_t pid; /* the process */
    uint32_t lwp; /* the LWP */
    uint32_t number; /* how many LWPs a process has */
    uint32_t status; /* the word that wait(2) stores */
    uint32_t signal; /* 1 to 31 */
    uint32_t event; /* 0 PL_EVENT_NONE, 1 PL_EVENT_SIGNAL */
    uint32_t flags; /* TRACEHOST_PL_FLAG_ .. */
    uint32_t mask; /* blocked signals, signal n as bit n - 1; of the reply MASK events, TRACEHOST_PTRACE_ .. */
    uint32_t pending; /* pending signals */
    uint32_t child; /* the new process of a fork, or 0 */
    uint32_t code; /* the number of a system call, or 0 */
    uint32_t has_handler; /* 1 and the index, from 0, of the handler that decided; 0 and 0 if all declined */
    uint32_t handler;
    uint32_t decision; /* TRACEHOST_CONTINUE .., and the signal that is passed on, or 0 */
    uint32_t pass;
    uint32_t error; /* FreeBSD's number in errno(2) */
    uint32_t count; /* how many numbers the list has, for tracehost_numbers */
    uint32_t stop_pid; /* the process of the stop that a handler was shown */
} tracehost_reply;
/* end */

/* tools/format kinds of replies */
enum { /* kinds of replies, each with its members; docs/FORMAT.md has their meaning */
    TRACEHOST_OK = 0,
    TRACEHOST_NEW = 1,       /* pid lwp */
    TRACEHOST_NUMBER = 2,    /* number */
    TRACEHOST_STATUS = 3,    /* pid status */
    TRACEHOST_NOTHING = 4,
    TRACEHOST_INFO = 5,      /* lwp event flags mask pending child code */
    TRACEHOST_LWPS = 6,      /* count */
    TRACEHOST_PIDS = 7,      /* count */
    TRACEHOST_MASK = 8,      /* mask */
    TRACEHOST_HANDLED = 9,   /* pid status lwp signal flags child code has_handler handler decision pass stop_pid */
    TRACEHOST_STOPPED = 10,  /* lwp signal flags */
    TRACEHOST_CAUGHT = 11,   /* signal */
    TRACEHOST_ENDED = 12,    /* status */
    TRACEHOST_HELD = 13,
    TRACEHOST_ERROR = 14     /* error */
};
/* end */

/* tools/format names */
enum { /* requests of ptrace(2), by their numbers in <sys/ptrace.h> */
    TRACEHOST_PT_TRACE_ME = 0, TRACEHOST_PT_CONTINUE = 7, TRACEHOST_PT_KILL = 8, TRACEHOST_PT_STEP = 9,
    TRACEHOST_PT_ATTACH = 10, TRACEHOST_PT_DETACH = 11, TRACEHOST_PT_LWPINFO = 13, TRACEHOST_PT_GETNUMLWPS = 14,
    TRACEHOST_PT_GETLWPLIST = 15, TRACEHOST_PT_SUSPEND = 18, TRACEHOST_PT_RESUME = 19, TRACEHOST_PT_TO_SCE = 20,
    TRACEHOST_PT_TO_SCX = 21, TRACEHOST_PT_SYSCALL = 22, TRACEHOST_PT_FOLLOW_FORK = 23,
    TRACEHOST_PT_LWP_EVENTS = 24, TRACEHOST_PT_GET_EVENT_MASK = 25, TRACEHOST_PT_SET_EVENT_MASK = 26
};
enum { /* events: the data of PT_SET_EVENT_MASK */
    TRACEHOST_PTRACE_EXEC = 1, TRACEHOST_PTRACE_SCE = 2, TRACEHOST_PTRACE_SCX = 4, TRACEHOST_PTRACE_FORK = 8,
    TRACEHOST_PTRACE_LWP = 16, TRACEHOST_PTRACE_VFORK = 32
};
enum { /* flags of a stop: the model's own bits, and not those of pl_flags */
    TRACEHOST_PL_FLAG_SCE = 1, TRACEHOST_PL_FLAG_SCX = 2, TRACEHOST_PL_FLAG_EXEC = 4, TRACEHOST_PL_FLAG_FORKED = 8,
    TRACEHOST_PL_FLAG_CHILD = 16, TRACEHOST_PL_FLAG_BORN = 32, TRACEHOST_PL_FLAG_EXITED = 64,
    TRACEHOST_PL_FLAG_VFORKED = 128, TRACEHOST_PL_FLAG_VFORK_DONE = 256
};
enum { /* dispositions */
    TRACEHOST_DEFAULT = 0, TRACEHOST_IGNORE = 1, TRACEHOST_CATCH = 2
};
enum { /* options of wait4; no wait blocks */
    TRACEHOST_WNOHANG = 1, TRACEHOST_WUNTRACED = 2, TRACEHOST_WCONTINUED = 4
};
enum { /* decisions of a rule */
    TRACEHOST_DECLINE = 0, TRACEHOST_LEAVE = 1, TRACEHOST_CONTINUE = 2, TRACEHOST_DETACH = 3, TRACEHOST_KILL = 4
};
enum { /* limits, and first and last numbers */
    TRACEHOST_FIRST_USER = 1001, TRACEHOST_LAST_USER = 1064, TRACEHOST_LAST_SIGNAL = 31,
    TRACEHOST_MAX_PROCESSES = 250, TRACEHOST_MAX_LWPS = 1000, TRACEHOST_MAX_HANDLERS = 64,
    TRACEHOST_MAX_RULES = 16, TRACEHOST_FIRST_PROCESS = 1000, TRACEHOST_PROCESS_NUMBERS = 1000,
    TRACEHOST_LAST_PROCESS = 99999, TRACEHOST_FIRST_LWP = 100000, TRACEHOST_LWP_NUMBERS = 4000
};
/* end */

/* A rule of a stop handler. The first of its rules that fits a stop decides it. */
typedef struct tracehost_rule {
    uint32_t flags;    /* fits a stop that has all these flags, TRACEHOST_PL_FLAG_ .. */
    uint32_t signal;   /* and this signal; 0 is any signal */
    uint32_t decision; /* TRACEHOST_CONTINUE .. */
    uint32_t pass;     /* for CONTINUE and DETACH: a signal, or 0 for none; else without meaning */
} tracehost_rule;

/* tools/format acts */
enum { /* acts of an LWP; `argument` is RAISE's signal, and BLOCK's signals, signal n as bit n - 1 */
    TRACEHOST_COMPUTE = 0, TRACEHOST_RAISE = 1, TRACEHOST_BLOCK = 2, TRACEHOST_ENTER = 3, TRACEHOST_LEAVE_CALL = 4
};
enum { /* calls that TRACEHOST_ENTER enters; `argument` is EXIT's status, 0 to 255, and OTHER's number */
    TRACEHOST_FORK = 0, TRACEHOST_VFORK = 1, TRACEHOST_EXEC = 2, TRACEHOST_THR_NEW = 3, TRACEHOST_THR_EXIT = 4,
    TRACEHOST_EXIT = 5, TRACEHOST_OTHER = 6
};
/* end */

/* The version of the library that the program runs with: that of the header is TRACEHOST_VERSION. */
const char *tracehost_version(void);

/* What a code that a call returned says, in English. For any other number it says that no call returns it. */
const char *tracehost_strerror(uint32_t code);

/*
 * Opens a session with an unused host. Closes one, and frees it. Copies one at its present state into a closed handle, or over
 * another open one (itself is TRACEHOST_NOT_OPEN). From the first copy over another one on, the copied handle keeps the memory
 * of two sessions.
 * tracehost_copy_user copies what one user has: the processes, and the number of answers. All other users of `to` keep theirs,
 * and no answer is its last one. It takes the time and memory of only this user. TRACEHOST_NOT_OPEN: also if both are the same
 * session. TRACEHOST_INVALID: there is no such user, or debuggers' ends kill in one of the sessions and not in the other. After
 * any other code than 0 `to` is as it was.
 */
uint32_t tracehost_open(bool kill_on_debugger_exit, tracehost *out);
uint32_t tracehost_close(tracehost *h);
uint32_t tracehost_copy(tracehost *from, tracehost *to);
uint32_t tracehost_copy_over(tracehost *from, tracehost *to);
uint32_t tracehost_copy_user(tracehost *from, tracehost *to, uint32_t user);

/*
 * Makes the step that the line is (docs/FORMAT.md, section 11), and stores the line of its answer, in words or as a JSON object:
 * the front that fits into `out`, and in `length` the length of the whole line, with its line feed and without a NUL.
 * A line that is no step is answered by a refusal. tracehost_last_line stores the line of the session's last answer
 * again, also after TRACEHOST_NO_TEXT and after the calls below, and makes no step. Its length is 0 before any answer.
 */
uint32_t tracehost_line(tracehost *h, bool json, const uint8_t *line, size_t line_length, uint8_t *out, size_t out_size,
                        size_t *length);
uint32_t tracehost_last_line(tracehost *h, bool json, uint8_t *out, size_t out_size, size_t *length);

/*
 * Stores the line of the step that was answered last, whatever call made it, as tracehost_line stores an answer, but
 * without a line feed. Given to tracehost_line, or as one of a scenario's steps, it is this step. So what a session was
 * asked can be kept and replayed. PT_TRACE_ME ignores `pid` and `data`, so its line has neither. INVALID before any answer,
 * after a line that was refused, and for a PT_SET_EVENT_MASK with bits that no event has, which no line is.
 */
uint32_t tracehost_last_step(tracehost *h, uint8_t *out, size_t out_size, size_t *length);

/*
 * Stores why a line isn't a step, as `tracehost --lines --explain` prints it: lines that name the first mistakes, and what
 * was likely meant. They call the line by `number`. Its length is 0 if the line is a step. Makes no step, and needs no handle.
 */
uint32_t tracehost_explain(const uint8_t *line, size_t line_length, size_t number, uint8_t *out, size_t out_size,
                           size_t *length);

/* Steps. `caller`, `target`, `lwp`, `which` and `signal` may be any number: the reply has the error that they cause. `which` is a
 * process, or -1: any child, or every process of the user that kill(2) names. */
uint32_t tracehost_spawn(tracehost *h, uint32_t user, tracehost_reply *reply);
uint32_t tracehost_list(tracehost *h, uint32_t user, uint32_t caller, tracehost_reply *reply);
uint32_t tracehost_sigaction(tracehost *h, uint32_t user, uint32_t caller, uint32_t signal, uint32_t disposition,
                             tracehost_reply *reply);
uint32_t tracehost_kill(tracehost *h, uint32_t user, uint32_t caller, int64_t which, uint32_t signal,
                        tracehost_reply *reply);
uint32_t tracehost_wait4(tracehost *h, uint32_t user, uint32_t caller, int64_t which, uint32_t options,
                         tracehost_reply *reply);
uint32_t tracehost_install(tracehost *h, uint32_t user, uint32_t caller, const tracehost_rule *rules, size_t count,
                           tracehost_reply *reply);                         /* at most 16 rules, else INVALID */
uint32_t tracehost_handle(tracehost *h, uint32_t user, uint32_t caller, tracehost_reply *reply);
uint32_t tracehost_ptrace(tracehost *h, uint32_t user, uint32_t caller, uint32_t request, uint32_t target,
                          uint32_t data, tracehost_reply *reply);
uint32_t tracehost_turn(tracehost *h, uint32_t user, uint32_t lwp, uint32_t act, uint32_t call, uint32_t argument,
                        tracehost_reply *reply);                            /* `call` is for TRACEHOST_ENTER alone */

/* Stores the numbers of the last answer if it is a list, as many as fit, and in `length` how many there are; else 0. */
uint32_t tracehost_numbers(tracehost *h, uint32_t *out, size_t size, size_t *length);

/*
 * A user's rows: processes by rising number, LWPs in order of birth. tracehost_view stores as many of each as fit, and
 * how many there are. It makes no step and doesn't change the session.
 */
/* tools/format rows */
typedef struct tracehost_process {
    uint32_t pid;
    uint32_t parent;
    uint32_t tracer; /* 0 if there is none */
    uint32_t state; /* 0 runs, 1 trace stop, 2 job control stop, 3 zombie */
    uint32_t lwp; /* of a trace stop: its LWP */
    uint32_t signal; /* of a stop */
    uint32_t told; /* 1 once the stop was reported */
    uint32_t status; /* a zombie's word of wait(2) */
    uint32_t continued; /* 1 if a continuation is to be reported */
    uint32_t events; /* the event mask */
    uint32_t pending; /* a set of signals */
} tracehost_process;
typedef struct tracehost_lwp {
    uint32_t lwp;
    uint32_t pid;
    uint32_t mode; /* 0 runs; 1 is in a call, as in tracehost_turn; 2 waits for its vfork's child */
    uint32_t call;
    uint32_t argument;
    uint32_t vfork_child;
    uint32_t suspended;
    uint32_t stepping;
    uint32_t blocked; /* a set of signals */
    uint32_t pending; /* the same */
    uint32_t due; /* the stop at its next turn: 0 none, 1 born, 2 begun, 3 vfork done */
    uint32_t flags; /* of its last stop, as the next two */
    uint32_t child;
    uint32_t code;
} tracehost_lwp;
/* end */
uint32_t tracehost_view(tracehost *h, uint32_t user, tracehost_process *processes, size_t processes_size,
                        tracehost_lwp *lwps, size_t lwps_size, size_t *processes_length, size_t *lwps_length);

/*
 * Stores all rows of a user as a JSON object, as the member `rows` of `tracehost --json=trace+rows` has those that changed.
 */
uint32_t tracehost_rows(tracehost *h, uint32_t user, uint8_t *out, size_t out_size, size_t *length);

/*
 * Stores all that a user sees as numbers: the setting, both cursors, the rows with their dispositions, and the handlers.
 * Two sessions show the user the same if and only if these numbers are the same, and then they answer the user's next
 * steps alike. So a search needs to go on from one of them only.
 */
uint32_t tracehost_state(tracehost *h, uint32_t user, uint32_t *out, size_t size, size_t *length);

#ifdef __cplusplus
}
#endif
#endif
