/*
 * A fuzzer of a small debugger, which follows forks, and passes signals on. With -DWRONG it takes the stop at a vfork's end for a
 * signal, which then ends the target. The world around it is made of bytes: include/tracehost_fuzz.h.
 *
 *   clang -g -fsanitize=fuzzer,address -DWRONG fuzz_debugger.c $(pkg-config --cflags --libs tracehost) -o fuzz_debugger
 *   ./fuzz_debugger corpus                            # libFuzzer
 *
 *   afl-clang-fast -g -fsanitize=fuzzer -DWRONG ..    # AFL++: afl-fuzz -i corpus -o found ./fuzz_debugger
 */
#include <tracehost_fuzz.h>

enum { MOST = 256, EVENTS = TRACEHOST_PTRACE_EXEC | TRACEHOST_PTRACE_FORK | TRACEHOST_PTRACE_VFORK | TRACEHOST_PTRACE_LWP };

#ifdef WRONG
#define EVENT_FLAGS (TRACEHOST_PL_FLAG_SCE | TRACEHOST_PL_FLAG_SCX | TRACEHOST_PL_FLAG_EXITED)
#else
#define EVENT_FLAGS UINT32_MAX
#endif

/* A process that the debugger traces. */
struct tracee {
    uint32_t pid, flags; /* flags of its last stop */
};

struct debugger {
    tracehost *host;
    uint32_t user, pid;
    struct tracee tracees[MOST];
    size_t count;
    bool has_ended_one; /* by a signal that nobody has sent */
};

static struct tracee *tracee_of(struct debugger *d, uint32_t pid)
{
    for (size_t i = 0; i < d->count; i++)
        if (d->tracees[i].pid == pid)
            return &d->tracees[i];
    if (d->count == MOST)
        abort();
    d->tracees[d->count] = (struct tracee){pid, 0};
    return &d->tracees[d->count++];
}

static struct debugger start(tracehost *host, uint32_t user)
{
    struct debugger d = {.host = host, .user = user};
    tracehost_reply reply, target;

    tracehost_spawn(host, user, &reply);
    d.pid = reply.pid;
    tracehost_spawn(host, user, &target);
    tracehost_ptrace(host, user, d.pid, TRACEHOST_PT_ATTACH, target.pid, 0, &reply);
    tracehost_wait4(host, user, d.pid, -1, 0, &reply);
    tracehost_ptrace(host, user, d.pid, TRACEHOST_PT_SET_EVENT_MASK, target.pid, EVENTS, &reply);
    tracehost_ptrace(host, user, d.pid, TRACEHOST_PT_CONTINUE, target.pid, 0, &reply);
    return d;
}

/* Lets the tracee go on, with the signal that it has stopped for. An event's SIGTRAP is nobody's signal. */
static void go_on(struct debugger *d, struct tracee *t, uint32_t signal)
{
    tracehost_reply info, reply;

    tracehost_ptrace(d->host, d->user, d->pid, TRACEHOST_PT_LWPINFO, t->pid, 0, &info);
    t->flags = info.kind == TRACEHOST_INFO ? info.flags : 0;
    tracehost_ptrace(d->host, d->user, d->pid, TRACEHOST_PT_CONTINUE, t->pid, t->flags & EVENT_FLAGS ? 0 : signal, &reply);
}

/* Collects all that there is to collect. */
static void collect(struct debugger *d)
{
    tracehost_reply reply;

    while (tracehost_wait4(d->host, d->user, d->pid, -1, TRACEHOST_WNOHANG, &reply) == TRACEHOST_ANSWERED &&
           reply.kind == TRACEHOST_STATUS) {
        struct tracee *t = tracee_of(d, reply.pid);

        if ((reply.status & 0177) == 0177) {
            go_on(d, t, reply.status >> 8);
        } else {
            d->has_ended_one |= reply.status == 5 && t->flags != 0;
            *t = d->tracees[--d->count];
        }
    }
}

int LLVMFuzzerTestOneInput(const uint8_t *data, size_t size)
{
    tracehost_fuzz world;

    tracehost_fuzz_open(&world, true, data, size);
    struct debugger d = start(&world.host, world.user);
    world.debugger = d.pid;
    while (tracehost_fuzz_step(&world)) {
        collect(&d);
        TRACEHOST_FUZZ_CHECK(!d.has_ended_one);
    }
    tracehost_fuzz_close(&world);
    return 0;
}
