/*
 * A client of the model of FreeBSD's ptrace(2), wait(2), sigaction(2) and kill(2): the library libtracehost answers its calls.
 *
 *     th_host *h = th_open(NULL);
 *     th_pid debugger, target;
 *     int status;
 *     th_spawn(h, 1001, &debugger, NULL);
 *     th_spawn(h, 1001, &target, NULL);
 *     th_caller self = {1001, debugger};
 *     th_ptrace(h, self, TH_PT_ATTACH, target, NULL, 0);
 *     th_wait4(h, self, -1, &status, 0);          // TH_WIFSTOPPED(status), TH_WSTOPSIG(status) == TH_SIGSTOP
 *     th_close(h);
 *
 * A call has the signature of its manual page, with the session and the caller before it. It returns -1 and sets errno if
 * it is refused:
 *
 *   - ESRCH, EPERM, ECHILD, EBUSY, EINVAL, EAGAIN, ENOMEM: as the model answers. These are the host system's numbers;
 *     th_freebsd_errno gives FreeBSD's.
 *   - TH_EHELD: the caller, or the LWP at its turn, doesn't run, and the call isn't made.
 *   - TH_EREFUSED: what was sent is no step (a user outside 1001 to 1064, a 17th rule). th_fault names the fault, th_reason
 *     has its reason.
 *   - TH_ERECORD: the step was made, and can't be recorded (th_record). The session has ended.
 *   - EPIPE: the session has ended: a step couldn't be recorded, or there was no memory for its line.
 *   - ETIMEDOUT: a wait was blocked for longer than its timeout.
 *
 * th_strerror has words for all of these; perror(3) and strerror(3) have wrong ones for those that begin with TH_.
 *
 * A call that a signal interrupts goes on (EINTR is never returned). Numbers are FreeBSD's, whatever the host's headers say;
 * the protocol goes by names.
 *
 * Several threads may use a session: every call may be made while other threads are in calls, but th_close, which is the
 * last one. Steps are made one after another, each under the session's lock. Compile with -pthread.
 *
 * After fork(2) the child has a copy of the session: fork while no thread is in a call of it. The child's steps aren't
 * recorded.
 */
#ifndef TRACEHOST_CLIENT_H
#define TRACEHOST_CLIENT_H

#include <errno.h>
#include <stddef.h>
#include <stdint.h>
#include <sys/types.h>

#ifdef __cplusplus
extern "C" {
#endif

typedef int32_t th_pid;
typedef int32_t th_lwpid;
typedef uint32_t th_sigset; /* signal n has bit n - 1 */
#define TH_SIGMASK(sig) ((th_sigset)1 << ((sig)-1))

/* requests of ptrace(2) */
/* tools/format requests */
#define TH_PT_TRACE_ME 0
#define TH_PT_CONTINUE 7
#define TH_PT_KILL 8
#define TH_PT_STEP 9
#define TH_PT_ATTACH 10
#define TH_PT_DETACH 11
#define TH_PT_LWPINFO 13
#define TH_PT_GETNUMLWPS 14
#define TH_PT_GETLWPLIST 15
#define TH_PT_SUSPEND 18
#define TH_PT_RESUME 19
#define TH_PT_TO_SCE 20
#define TH_PT_TO_SCX 21
#define TH_PT_SYSCALL 22
#define TH_PT_FOLLOW_FORK 23
#define TH_PT_LWP_EVENTS 24
#define TH_PT_GET_EVENT_MASK 25
#define TH_PT_SET_EVENT_MASK 26
/* end */

/* events, for PT_SET_EVENT_MASK */
/* tools/format events */
#define TH_PTRACE_EXEC 0x0001
#define TH_PTRACE_SCE 0x0002
#define TH_PTRACE_SCX 0x0004
#define TH_PTRACE_FORK 0x0008
#define TH_PTRACE_LWP 0x0010
#define TH_PTRACE_VFORK 0x0020
#define TH_PTRACE_SYSCALL (TH_PTRACE_SCE | TH_PTRACE_SCX)
/* end */

/* pl_event and pl_flags */
#define TH_PL_EVENT_NONE 0
#define TH_PL_EVENT_SIGNAL 1
/* tools/format stop flags */
#define TH_PL_FLAG_SCE 0x0004
#define TH_PL_FLAG_SCX 0x0008
#define TH_PL_FLAG_EXEC 0x0010
#define TH_PL_FLAG_FORKED 0x0040
#define TH_PL_FLAG_CHILD 0x0080
#define TH_PL_FLAG_BORN 0x0100
#define TH_PL_FLAG_EXITED 0x0200
#define TH_PL_FLAG_VFORKED 0x0400
#define TH_PL_FLAG_VFORK_DONE 0x0800
/* end */

/* the fields of FreeBSD's struct ptrace_lwpinfo that the model has */
/* tools/format lwpinfo */
struct th_lwpinfo {
    th_lwpid pl_lwpid;
    int pl_event;
    int pl_flags;
    th_sigset pl_sigmask;
    th_sigset pl_siglist;
    th_pid pl_child_pid;
    unsigned pl_syscall_code;
};
/* end */

/* wait(2): options, and what a status contains */
/* tools/format options */
#define TH_WNOHANG 1
#define TH_WUNTRACED 2
#define TH_WCONTINUED 4
/* end */
#define TH_WSTATUS_(status) ((status)&0177)
#define TH_WIFSTOPPED(status) (TH_WSTATUS_(status) == 0177)
#define TH_WSTOPSIG(status) ((status) >> 8)
#define TH_WIFCONTINUED(status) ((status) == 0x13)
#define TH_WIFSIGNALED(status) (!TH_WIFSTOPPED(status) && TH_WSTATUS_(status) != 0 && !TH_WIFCONTINUED(status))
#define TH_WTERMSIG(status) TH_WSTATUS_(status)
#define TH_WIFEXITED(status) (TH_WSTATUS_(status) == 0)
#define TH_WEXITSTATUS(status) ((status) >> 8)

/* signals */
/* tools/format signals */
#define TH_SIGHUP 1
#define TH_SIGINT 2
#define TH_SIGQUIT 3
#define TH_SIGILL 4
#define TH_SIGTRAP 5
#define TH_SIGABRT 6
#define TH_SIGEMT 7
#define TH_SIGFPE 8
#define TH_SIGKILL 9
#define TH_SIGBUS 10
#define TH_SIGSEGV 11
#define TH_SIGSYS 12
#define TH_SIGPIPE 13
#define TH_SIGALRM 14
#define TH_SIGTERM 15
#define TH_SIGURG 16
#define TH_SIGSTOP 17
#define TH_SIGTSTP 18
#define TH_SIGCONT 19
#define TH_SIGCHLD 20
#define TH_SIGTTIN 21
#define TH_SIGTTOU 22
#define TH_SIGIO 23
#define TH_SIGXCPU 24
#define TH_SIGXFSZ 25
#define TH_SIGVTALRM 26
#define TH_SIGPROF 27
#define TH_SIGWINCH 28
#define TH_SIGINFO 29
#define TH_SIGUSR1 30
#define TH_SIGUSR2 31
/* end */

/* the name of a signal, as "SIGHUP"; NULL if there is none */
const char *th_signame(int sig);

/*
 * The names of a stop's flags (PL_FLAG_SCE+PL_FLAG_EXEC), or of an event mask (PTRACE_EXEC+PTRACE_FORK), as the program prints
 * them: `none` for 0, other bits in hexadecimal. As snprintf(3), they store at most size - 1 bytes and a NUL, and return
 * the length of the whole text.
 */
int th_flagnames(int flags, char *text, size_t size);
int th_eventnames(int mask, char *text, size_t size);

/* FreeBSD's errno numbers */
/* tools/format errors */
#define TH_EPERM 1
#define TH_ESRCH 3
#define TH_ECHILD 10
#define TH_ENOMEM 12
#define TH_EBUSY 16
#define TH_EINVAL 22
#define TH_EAGAIN 35
/* end */

/* FreeBSD's number of a host system's errno that a call has set; 0 for one that isn't the model's */
int th_freebsd_errno(int error);

/* own errno values; the model answers none of them */
#define TH_EHELD EINPROGRESS
#define TH_EREFUSED EBADMSG
#define TH_ERECORD ENOTRECOVERABLE

/* The words for an errno that a call has set: FreeBSD's for the model's, strerror(3)'s for one that is none of the client's. */
const char *th_strerror(int error);

/* ---- a session */

typedef struct th_host th_host;

struct th_settings {
    int kill_on_debugger_exit; /* the sysctl kern.kill_on_debugger_exit: 0 or 1 */
};

/*
 * Opens a session with a new host. `settings` may be NULL: then the end of a debugger kills the processes that it traces. NULL
 * and ENOMEM if memory runs out.
 */
th_host *th_open(const struct th_settings *settings);

/* Ends the session, frees it, and returns 0. For NULL it does nothing else. */
int th_close(th_host *h);

/*
 * Why the calling thread's last step was refused: the fault as docs/FORMAT.md names it, "BadUser" as an example, and the words of
 * --explain, "line 3, user: 1065 is out of range; .." for the session's third step. Both are "" if it wasn't, and stay until the
 * thread's next call.
 */
const char *th_fault(const th_host *h);
const char *th_reason(const th_host *h);

/*
 * Why the calling thread's last call was refused, in words: by an errno of the model or TH_EHELD the call, the errno and the
 * condition that held,
 *
 *     ptrace(PT_CONTINUE, 1001) by 1000: EBUSY, no wait has reported the stop of 1001
 *
 * and by TH_EREFUSED th_reason. "" if the call was answered, or if what refused it isn't the model. The rows that decide are looked
 * at now: after another thread's step that may have changed them, each condition that is possible is named. The text stays until
 * the thread's next call.
 */
const char *th_explain(th_host *h);

/*
 * Records the session from its beginning: all steps that were answered as a scenario, and their lines in a second file, unless
 * `lines` is NULL. Both are whole after each step, also if the test ends by abort(3). `tracehost SCENARIO --expect LINES`
 * then makes the session again. EBUSY after the first step.
 *
 * A step that can't be written, as on a full disk, is answered TH_ERECORD, and ends the session. Both files are then those of
 * the steps before. A program that is killed may leave one line more than steps.
 */
int th_record(th_host *h, const char *scenario, const char *lines);

/* The errno of the file after TH_ERECORD, ENOSPC as an example; 0 before. */
int th_record_error(const th_host *h);

/*
 * A test, before the first step of its session, -1 with EBUSY after it. If the test fails it leaves PROGRAM.NAME-DIGEST.json, a
 * scenario with the steps, with .out their lines, and with .html a page ($TRACEHOST names the program that it is made by, else
 * tracehost, and $TRACEHOST_VIEW the viewer, else tracehost-view). They are in the folder that $TRACEHOST_ARTIFACTS names, else in a
 * new one below $TMPDIR, and standard error says where. A further test of the name in this process gets a number. A test that passes
 * leaves nothing, and removes what it left in an earlier run; a forked child does neither. If $TRACEHOST_TRACES names a folder, a
 * test that ends leaves a copy of its scenario there, whether it passes or fails, as PROGRAM.NAME-DIGEST.PROCESS.json. What can't be
 * recorded is told on standard error, and changes neither a call nor the test.
 *
 * A signal that ends the program while the test is open, as by abort(3), assert(3) and Ctrl-C, is a failure too. If the program
 * handles the signal itself, or by SIGKILL, the files keep the names that they have while the test runs, with the process's number
 * at the end: PROGRAM.NAME-DIGEST.json.1234. The first are named before the program's handler is called, the others by the test's
 * next run.
 */
int th_test_begin(th_host *h, const char *name);

/* The test has failed, with this message and th_explain: it is printed, and the first one and its step are on the page. */
void th_test_fail(th_host *h, const char *file, int line, const char *message);

/* 1 if the condition is true. Else 0, and the test has failed; it goes on. */
#define TH_EXPECT(h, condition) ((condition) ? 1 : (th_test_fail((h), __FILE__, __LINE__, #condition), 0))

/* Ends the test, before th_close. Returns 0 if it `passed`, and nothing else has failed; else 1. */
int th_test_end(th_host *h, int passed);

/*
 * Sends a line as it is (a step as in docs/FORMAT.md, without a line feed), and stores the line of its answer, without
 * its line feed, of at most size - 1 bytes. Returns the length of the whole answer.
 */
ssize_t th_step_text(th_host *h, const char *line, char *answer, size_t size);

/* ---- steps of a caller */

/* Who calls: a process of a user. The user is 1001 to 1064. */
typedef struct th_caller {
    unsigned user;
    th_pid pid;
} th_caller;

/*
 * ptrace(2). Returns 0, or what PT_GETNUMLWPS and PT_GETLWPLIST count. `addr` and `data` as the manual page has them:
 *
 *   PT_LWPINFO          a struct th_lwpinfo and its size; a smaller size stores the front of it
 *   PT_GET_EVENT_MASK   an int and its size; PT_SET_EVENT_MASK the same
 *   PT_GETLWPLIST       an array of th_lwpid and its length
 *   PT_FOLLOW_FORK, PT_LWP_EVENTS: `data` not 0 sets the event, 0 clears it
 *   PT_CONTINUE, PT_STEP, PT_TO_SCE, PT_TO_SCX, PT_SYSCALL, PT_DETACH: `data` is a signal or 0
 *
 * Elsewhere they count for nothing: there is no memory, and no program counter to set.
 */
int th_ptrace(th_host *h, th_caller caller, int request, th_pid pid, void *addr, int data);

/* wait4(2) without its rusage. It doesn't block: 0 if there is nothing to collect, with every option. `status` may be NULL. */
th_pid th_wait4(th_host *h, th_caller caller, th_pid wpid, int *status, int options);

/*
 * wait4(2) that blocks, for a session of several threads. If there is nothing to collect, and without TH_WNOHANG, it sleeps
 * until a step of another thread was answered, and is then asked again before any other step is made. A step that is refused,
 * held, or answered by an errno or by nothing doesn't count: it changes nothing. Blocked waits are asked in the order in
 * which they began to block. After `timeout` milliseconds it returns -1 with ETIMEDOUT; -1 is no timeout.
 */
th_pid th_wait4_block(th_host *h, th_caller caller, th_pid wpid, int *status, int options, int timeout);

/*
 * Sleeps until `count` waits are blocked: all debuggers have done what they could, and the next step is the caller's. Returns 0;
 * -1 with ETIMEDOUT after `timeout` milliseconds (-1: none), or with EPIPE if the program has ended.
 */
int th_until_blocked(th_host *h, size_t count, int timeout);

/* kill(2); -1 names all other processes of the user */
int th_kill(th_host *h, th_caller caller, th_pid pid, int sig);

/* sigaction(2), as far as the model has it: what the caller does with a signal from now on */
enum th_action { TH_SIG_DFL, TH_SIG_IGN, TH_SIG_CATCH };
int th_sigaction(th_host *h, th_caller caller, int sig, enum th_action action);

/* Stores the numbers of the user's processes, zombies too, rising, at most `size`; returns how many there are. */
ssize_t th_list(th_host *h, th_caller caller, th_pid *pids, size_t size);

/* ---- stop handlers */

enum th_decision { TH_DECLINE, TH_LEAVE, TH_CONTINUE, TH_DETACH, TH_KILL };

/* fits a stop with this signal (0: any) that shows all these flags; only TH_CONTINUE and TH_DETACH pass a signal on */
struct th_rule {
    int signal;
    int flags;
    enum th_decision decision;
    int pass;
};

/* Adds a stop handler with these rules, at most 16, after the caller's others. */
int th_install(th_host *h, th_caller caller, const struct th_rule *rules, size_t count);

/* What a trace stop shows, and what the caller's handlers decided. */
/* tools/format handled */
struct th_handled {
    int stopped; /* 1: a trace stop, and all that follows holds; 0: only a status */
    int status;
    th_lwpid lwp;
    int signal;
    int flags;
    th_pid child;
    unsigned code;
    int handler; /* which of the caller's handlers decided, from 0; -1 if all declined */
    enum th_decision decision;
    int pass;
};
/* end */

/* Waits for any child, and gives a trace stop to the caller's handlers. Returns the process, or 0 for nothing. */
th_pid th_handle(th_host *h, th_caller caller, struct th_handled *handled);

/* the same, blocking as th_wait4_block */
th_pid th_handle_block(th_host *h, th_caller caller, struct th_handled *handled, int timeout);

/* ---- steps without a caller */

/* A new process with one LWP, whose parent is process 1. `pid` and `lwp` may be NULL. */
int th_spawn(th_host *h, unsigned user, th_pid *pid, th_lwpid *lwp);

enum th_call { TH_CALL_EXIT, TH_CALL_FORK, TH_CALL_VFORK, TH_CALL_EXEC, TH_CALL_THR_NEW, TH_CALL_THR_EXIT, TH_CALL_OTHER };

/* What came of an LWP's turn, and the fields that go with it. */
enum th_outcome { TH_DONE, TH_NEW, TH_STOPPED, TH_CAUGHT, TH_ENDED };
struct th_turned {
    enum th_outcome what;
    th_pid pid; /* TH_NEW: the new process, or the LWP's own if an LWP was made */
    th_lwpid lwp; /* TH_NEW: the new LWP; TH_STOPPED: the LWP that stopped */
    int signal; /* TH_STOPPED, TH_CAUGHT */
    int flags; /* TH_STOPPED */
    int status; /* TH_ENDED */
};

/*
 * The turn of an LWP, with its act: it runs in user mode, has a signal posted to it, sets its blocked signals, enters a system
 * call (`code` is the exit code of TH_CALL_EXIT, the number of TH_CALL_OTHER, else it counts for nothing), or leaves the one
 * that it is in. A stop that is due and a pending signal come first, in place of the act. `turned` may be NULL.
 */
int th_turn_compute(th_host *h, unsigned user, th_lwpid lwp, struct th_turned *turned);
int th_turn_raise(th_host *h, unsigned user, th_lwpid lwp, int sig, struct th_turned *turned);
int th_turn_block(th_host *h, unsigned user, th_lwpid lwp, th_sigset set, struct th_turned *turned);
int th_turn_enter(th_host *h, unsigned user, th_lwpid lwp, enum th_call call, unsigned code, struct th_turned *turned);
int th_turn_leave(th_host *h, unsigned user, th_lwpid lwp, struct th_turned *turned);

#ifdef __cplusplus
}
#endif

#endif
