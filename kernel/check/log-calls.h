/* Who asks, the calls behind the wrappers, and the file. */
#ifndef LOG_CALLS_H
#define LOG_CALLS_H

#include "log-words.h"
#include <sys/types.h>
#include <sys/ptrace.h>
#include <sys/wait.h>
#include <pthread.h>
#include <signal.h>
#include <stdlib.h>
#include <unistd.h>

#pragma GCC visibility push(hidden)

/* The system's own functions are next_NAME. */
// clang-format off
#ifdef __FreeBSD__
#define CALLS_OF_SYSTEM(CALL) CALL(wait6)
#else
#define CALLS_OF_SYSTEM(CALL) CALL(execvpe)
#endif
#define CALLS(CALL) \
    CALL(ptrace) CALL(wait4) CALL(waitid) CALL(kill) CALL(raise) CALL(abort) CALL(sigaction) CALL(signal) CALL(sigprocmask) \
    CALL(pthread_sigmask) CALL(sigsuspend) CALL(sigwait) CALL(sigtimedwait) CALL(pthread_kill) CALL(fork) CALL(vfork) \
    CALL(pthread_create) CALL(pthread_exit) CALL(execve) CALL(execvp) CALL(fexecve) CALL(exit) CALL(_exit) CALL(quick_exit) \
    CALLS_OF_SYSTEM(CALL)
// clang-format on

#define DECLARE(name) extern __typeof__(name) *next_##name;
CALLS(DECLARE)

struct caller {
    pid_t pid;
    long lwp;
    unsigned long calls;
    unsigned long within; /* the innermost call that isn't done; 0 for none */
};

struct call {
    struct line line;
    struct caller *caller;
    unsigned long number, within;
    int saved; /* errno */
};

struct this_thread {
    struct caller self;
    struct caller child; /* by vfork: it has this memory, and its parent's thread sleeps */
    unsigned long vforked; /* the number of that call */
};

extern __thread struct this_thread this __attribute__((tls_model("initial-exec")));
extern int began;

/* Before any call: what is needed is found, and the program's first line is written. */
void begin(void);

/* At the program's end `ask_exit` is to be called. */
void log_exit_later(void);

void begin_caller(struct caller *caller);
void start_line(struct line *line, const struct caller *caller, unsigned long number, const char *what);
void put_origin(struct line *line, const char *name, const struct caller *caller, unsigned long number);
void send_line(struct line *line);

/* Begins the line of a call. Without a log there is none. */
int ask(struct call *call, const char *name);

/* The line is whole, and the call comes next. */
void asked(struct call *call);

/* Begins the line of what a call has returned; `told` ends it. */
int tell(struct call *call, long result);
void told(struct call *call);

/* A call that has no more to tell than its result, or that returns an error's number in place of errno. */
void tell_result(struct call *call, long result);
void tell_error(struct call *call, int error);

#pragma GCC visibility pop

#endif
