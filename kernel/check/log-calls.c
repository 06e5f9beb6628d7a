/* Who asks, the calls behind the wrappers, and the file. */
#ifdef __linux__
#define _GNU_SOURCE
#endif
#include "log-calls.h"
#include <sys/syscall.h>
#include <dlfcn.h>
#include <errno.h>
#include <fcntl.h>
#include <limits.h>
#include <string.h>
#include <time.h>
#ifdef __FreeBSD__
#include <sys/sysctl.h>
#include <sys/thr.h>
#endif

#define DEFINE(name) __typeof__(name) *next_##name;
CALLS(DEFINE)

static void resolve(void)
{
#define RESOLVE(name) next_##name = (__typeof__(name) *)dlsym(RTLD_NEXT, #name);
    CALLS(RESOLVE)
}

__thread struct this_thread this __attribute__((tls_model("initial-exec")));
static char log_name[PATH_MAX]; /* empty: there is no log */
int began;

static long own_lwp(void)
{
#ifdef __FreeBSD__
    long lwp;

    return (thr_self(&lwp) == 0 ? lwp : 0);
#else
    return (syscall(SYS_gettid));
#endif
}

/* A write that goes beyond a limit, or into a pipe that nobody reads, has posted a signal. */
static void take_back(int sig, const sigset_t *pending)
{
    static const struct timespec now;
    sigset_t set;

    if (sigismember(pending, sig) == 1)
        return;
    sigemptyset(&set);
    sigaddset(&set, sig);
    (void)next_sigtimedwait(&set, NULL, &now);
}

/* Not by the functions of these calls, which a thread may be cancelled in. */
static void append(const struct line *line)
{
    long file = syscall(SYS_openat, AT_FDCWD, log_name, O_WRONLY | O_APPEND | O_CLOEXEC | O_NONBLOCK | O_NOCTTY, 0);
    sigset_t pending;

    if (file == -1)
        return;
    sigpending(&pending);
    if (syscall(SYS_write, (int)file, line->text, line->length) == -1) {
        if (errno == EFBIG)
            take_back(SIGXFSZ, &pending);
        else if (errno == EPIPE)
            take_back(SIGPIPE, &pending);
    }
    syscall(SYS_close, (int)file);
}

void start_line(struct line *line, const struct caller *caller, unsigned long number, const char *what)
{
    line->length = 0;
    put_number(line, caller->pid);
    put(line, "/");
    put_number(line, caller->lwp);
    put(line, " ");
    put_number(line, (long)number);
    put(line, what);
}

void send_line(struct line *line)
{
    sigset_t all, old;

    line->text[line->length++] = '\n';
    sigfillset(&all);
    next_sigprocmask(SIG_BLOCK, &all, &old);
    append(line);
    next_sigprocmask(SIG_SETMASK, &old, NULL);
}

void put_origin(struct line *line, const char *name, const struct caller *caller, unsigned long number)
{
    number_word(line, name, caller->pid);
    put(line, "/");
    put_number(line, caller->lwp);
    put(line, ".");
    put_number(line, (long)number);
}

static void put_ignored(struct line *line)
{
    const struct name *signals;
    struct sigaction now;
    sigset_t set;

    sigemptyset(&set);
    for (signals = signal_names; signals->text != NULL; signals++)
        if (next_sigaction((int)signals->number, NULL, &now) == 0 && now.sa_handler == SIG_IGN)
            sigaddset(&set, (int)signals->number);
    signals_word(line, "ignored", &set);
}

/* The program's own name, and the system's settings that the model has. */
static void put_program(struct line *line)
{
#ifdef __FreeBSD__
    int kills;
    size_t length = sizeof(kills);

    if (sysctlbyname("kern.kill_on_debugger_exit", &kills, &length, NULL, 0) == 0)
        number_word(line, "kill_on_debugger_exit", kills);
    text_word(line, "program", getprogname());
#else
    text_word(line, "program", program_invocation_name);
#endif
}

void begin_caller(struct caller *caller)
{
    caller->pid = getpid();
    caller->lwp = own_lwp();
    caller->calls = caller->within = 0;
}

static void begin_program(void)
{
    struct line line;
    sigset_t blocked;

    began = 1;
    begin_caller(&this.self);
#ifdef __FreeBSD__
    start_line(&line, &this.self, 0, " begins log=1 system=FreeBSD");
#else
    start_line(&line, &this.self, 0, " begins log=1 system=Linux");
#endif
    number_word(&line, "parent", getppid());
    next_sigprocmask(SIG_BLOCK, NULL, &blocked);
    signals_word(&line, "blocked", &blocked);
    put_ignored(&line);
    put_program(&line);
    send_line(&line);
}

/* The file's name, whole: the program may go to another folder. */
static void find_file(void)
{
    const char *name = getenv("TRACEHOST_LOG");
    size_t length = 0;
    long file;

    if (name == NULL || *name == '\0' || strlen(name) >= sizeof(log_name))
        return;
    if (*name != '/') {
        if (getcwd(log_name, sizeof(log_name)) == NULL || (length = strlen(log_name)) + strlen(name) + 2 > sizeof(log_name)) {
            log_name[0] = '\0';
            return;
        }
        log_name[length++] = '/';
    }
    strcpy(log_name + length, name);
    file = syscall(SYS_openat, AT_FDCWD, log_name, O_WRONLY | O_APPEND | O_CREAT | O_CLOEXEC | O_NONBLOCK | O_NOCTTY, 0600);
    if (file != -1)
        syscall(SYS_close, (int)file);
}

__attribute__((constructor(101))) void begin(void)
{
    int saved = errno;

    if (!began) {
        resolve();
        find_file();
        if (log_name[0] != '\0') {
            begin_program();
            log_exit_later();
        }
        began = 1;
    }
    errno = saved;
}

static struct caller *this_caller(void)
{
    pid_t pid = getpid();
    struct line line;

    if (this.self.pid == pid) {
        this.vforked = 0; /* it has returned */
        return (&this.self);
    }
    if (this.self.pid == 0) {
        begin_caller(&this.self);
        start_line(&line, &this.self, 0, " begins thread");
        send_line(&line);
        return (&this.self);
    }
    if (this.child.pid != pid) {
        begin_caller(&this.child);
        start_line(&line, &this.child, 0, " begins");
        if (this.vforked != 0 && getppid() == this.self.pid)
            put_origin(&line, "vfork", &this.self, this.vforked);
        else
            number_word(&line, "parent", getppid());
        send_line(&line);
    }
    return (&this.child);
}

/* ---- a call */

int ask(struct call *call, const char *name)
{
    call->saved = errno;
    begin();
    call->caller = NULL;
    if (log_name[0] == '\0')
        return (0);
    call->caller = this_caller();
    call->number = ++call->caller->calls;
    call->within = call->caller->within;
    start_line(&call->line, call->caller, call->number, " asks ");
    put(&call->line, name);
    if (call->within != 0)
        number_word(&call->line, "within", (long)call->within);
    return (1);
}

void asked(struct call *call)
{
    if (call->caller != NULL) {
        send_line(&call->line);
        call->caller->within = call->number;
    }
    errno = call->saved;
}

int tell(struct call *call, long result)
{
    call->saved = errno;
    if (call->caller == NULL)
        return (0);
    call->caller->within = call->within;
    start_line(&call->line, call->caller, call->number, " told ");
    put_number(&call->line, result);
    if (result == -1) {
        word(&call->line, "errno");
        put_named(&call->line, errno_names, call->saved);
    }
    return (1);
}

void told(struct call *call)
{
    if (call->caller != NULL)
        send_line(&call->line);
    errno = call->saved;
}

void tell_result(struct call *call, long result)
{
    tell(call, result);
    told(call);
}

void tell_error(struct call *call, int error)
{
    int saved = errno;

    errno = error;
    tell_result(call, error == 0 ? 0 : -1);
    errno = saved;
}
