/* The requests of ptrace(2), with what they are given, and what they answer. */
#ifdef __linux__
#define _GNU_SOURCE
#endif
#include "log-requests.h"
#include <sys/types.h>
#include <sys/ptrace.h>

/* What `data` of a request is. */
enum given { NOTHING, SIGNAL, NUMBER, MASK };

struct request {
    int number;
    enum given given;
    const char *name;
};

#define REQUEST(name, given) \
    {                        \
        name, given, #name   \
    }

#ifdef __FreeBSD__
static const struct request requests[] = {REQUEST(PT_TRACE_ME, NOTHING), REQUEST(PT_CONTINUE, SIGNAL), REQUEST(PT_KILL, NOTHING),
    REQUEST(PT_STEP, SIGNAL), REQUEST(PT_ATTACH, NOTHING), REQUEST(PT_DETACH, SIGNAL), REQUEST(PT_LWPINFO, NOTHING),
    REQUEST(PT_GETNUMLWPS, NOTHING), REQUEST(PT_GETLWPLIST, NUMBER), REQUEST(PT_SUSPEND, NOTHING), REQUEST(PT_RESUME, NOTHING),
    REQUEST(PT_TO_SCE, SIGNAL), REQUEST(PT_TO_SCX, SIGNAL), REQUEST(PT_SYSCALL, SIGNAL), REQUEST(PT_FOLLOW_FORK, NUMBER),
    REQUEST(PT_LWP_EVENTS, NUMBER), REQUEST(PT_GET_EVENT_MASK, NOTHING), REQUEST(PT_SET_EVENT_MASK, MASK),
    REQUEST(PT_READ_I, NOTHING), REQUEST(PT_READ_D, NOTHING), REQUEST(PT_WRITE_I, NOTHING), REQUEST(PT_WRITE_D, NOTHING),
    REQUEST(PT_IO, NOTHING), REQUEST(PT_GETREGS, NOTHING), REQUEST(PT_SETREGS, NOTHING), REQUEST(PT_GETFPREGS, NOTHING),
    REQUEST(PT_SETFPREGS, NOTHING), REQUEST(PT_GETDBREGS, NOTHING), REQUEST(PT_SETDBREGS, NOTHING), REQUEST(PT_SETSTEP, NOTHING),
    REQUEST(PT_CLEARSTEP, NOTHING), {0, NOTHING, NULL}};

static const struct name event_names[] = {
    NAME(PTRACE_EXEC), NAME(PTRACE_SCE), NAME(PTRACE_SCX), NAME(PTRACE_FORK), NAME(PTRACE_LWP), NAME(PTRACE_VFORK), {0, NULL}};
static const struct name flag_names[] = {NAME(PL_FLAG_SCE), NAME(PL_FLAG_SCX), NAME(PL_FLAG_EXEC), NAME(PL_FLAG_FORKED),
    NAME(PL_FLAG_CHILD), NAME(PL_FLAG_BORN), NAME(PL_FLAG_EXITED), NAME(PL_FLAG_VFORKED), NAME(PL_FLAG_VFORK_DONE), {0, NULL}};
#else
/* FreeBSD's names for the same requests. */
static const struct request requests[] = {{PTRACE_TRACEME, NOTHING, "PT_TRACE_ME"}, {PTRACE_CONT, SIGNAL, "PT_CONTINUE"},
    {PTRACE_KILL, NOTHING, "PT_KILL"}, {PTRACE_SINGLESTEP, SIGNAL, "PT_STEP"}, {PTRACE_ATTACH, NOTHING, "PT_ATTACH"},
    {PTRACE_DETACH, SIGNAL, "PT_DETACH"}, {PTRACE_SYSCALL, SIGNAL, "PT_SYSCALL"}, REQUEST(PTRACE_PEEKTEXT, NOTHING),
    REQUEST(PTRACE_PEEKDATA, NOTHING), REQUEST(PTRACE_PEEKUSER, NOTHING), REQUEST(PTRACE_POKETEXT, NOTHING),
    REQUEST(PTRACE_POKEDATA, NOTHING), REQUEST(PTRACE_POKEUSER, NOTHING), REQUEST(PTRACE_SETOPTIONS, MASK),
    REQUEST(PTRACE_GETEVENTMSG, NOTHING), REQUEST(PTRACE_GETSIGINFO, NOTHING), REQUEST(PTRACE_SETSIGINFO, NOTHING),
    REQUEST(PTRACE_GETREGSET, NOTHING), REQUEST(PTRACE_SETREGSET, NOTHING), REQUEST(PTRACE_SEIZE, MASK),
    REQUEST(PTRACE_INTERRUPT, NOTHING), REQUEST(PTRACE_LISTEN, NOTHING), {0, NOTHING, NULL}};

static const struct name event_names[] = {NAME(PTRACE_O_TRACESYSGOOD), NAME(PTRACE_O_TRACEFORK), NAME(PTRACE_O_TRACEVFORK),
    NAME(PTRACE_O_TRACECLONE), NAME(PTRACE_O_TRACEEXEC), NAME(PTRACE_O_TRACEVFORKDONE), NAME(PTRACE_O_TRACEEXIT),
    NAME(PTRACE_O_EXITKILL), {0, NULL}};
static const struct name stop_names[] = {{PTRACE_EVENT_FORK, "fork"}, {PTRACE_EVENT_VFORK, "vfork"}, {PTRACE_EVENT_CLONE, "clone"},
    {PTRACE_EVENT_EXEC, "exec"}, {PTRACE_EVENT_VFORK_DONE, "vfork_done"}, {PTRACE_EVENT_EXIT, "exit"}, {PTRACE_EVENT_STOP, "stop"},
    {0, NULL}};
#endif

/* The signal of a stop, and what Linux adds: an event, and the mark of a system call's stop. */
void put_stop(struct line *line, int sig, int event)
{
#ifdef __linux__
    put_named(line, signal_names, sig & 0x7f);
    if (event != 0) {
        word(line, "event");
        put_named(line, stop_names, event);
    } else if ((sig & 0x80) != 0) {
        word(line, "event");
        put(line, "syscall");
    }
#else
    (void)event;
    put_named(line, signal_names, sig);
#endif
}

static const struct request *request_of(int number)
{
    const struct request *request = requests;

    while (request->name != NULL && request->number != number)
        request++;
    return (request);
}

static void put_data(struct line *line, enum given given, long data)
{
    if (given == SIGNAL)
        signal_word(line, "data", data);
    else if (given == NUMBER)
        number_word(line, "data", data);
    else if (given == MASK)
        bits_word(line, "events", event_names, (unsigned long)data);
}

void put_request(struct line *line, int number, pid_t pid, const void *addr, long data)
{
    const struct request *request = request_of(number);

    word(line, "request");
    if (request->name != NULL)
        put(line, request->name);
    else
        put_hex(line, (unsigned)number);
    number_word(line, "pid", pid);
#ifdef __FreeBSD__
    if (request->given == MASK)
        data = addr != NULL && data >= (long)sizeof(int) ? *(const int *)addr : 0;
#else
    (void)addr;
#endif
    put_data(line, request->given, data);
}

#ifdef __FreeBSD__
static void put_info(struct line *line, const struct ptrace_lwpinfo *info, size_t size)
{
    number_word(line, "lwp", info->pl_lwpid);
    word(line, "event");
    put(line, info->pl_event == PL_EVENT_SIGNAL ? "signal" : "none");
    if (size < sizeof(*info)) /* an older form of it */
        return;
    bits_word(line, "flags", flag_names, (unsigned)(info->pl_flags & ~PL_FLAG_SI));
    signals_word(line, "mask", &info->pl_sigmask);
    signals_word(line, "pending", &info->pl_siglist);
    number_word(line, "child", info->pl_child_pid);
    number_word(line, "code", (long)info->pl_syscall_code);
}

void put_answer(struct line *line, int request, const void *addr, int data, int result)
{
    const char *between = "";
    int i;

    if (request == PT_LWPINFO)
        put_info(line, addr, (size_t)data);
    else if (request == PT_GET_EVENT_MASK)
        bits_word(line, "events", event_names, *(const unsigned *)addr);
    else if (request == PT_GETLWPLIST) {
        word(line, "lwps");
        for (i = 0; i < result && line->length < sizeof(line->text) - 24; i++, between = ",") {
            put(line, between);
            put_number(line, ((const lwpid_t *)addr)[i]);
        }
        put(line, i < result ? ",.." : "");
    }
}
#else
int is_peek(int request) { return (request == PTRACE_PEEKTEXT || request == PTRACE_PEEKDATA || request == PTRACE_PEEKUSER); }

void put_answer(struct line *line, int request, const void *data)
{
    if (request == PTRACE_GETEVENTMSG)
        number_word(line, "message", *(const long *)data);
}
#endif
