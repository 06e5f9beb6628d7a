/* The calls: tracehost_client.h describes each of them. */
#define _POSIX_C_SOURCE 200809L

#include "internal.h"

#include <string.h>

static struct thp_step step_of(enum thp_op op, th_caller caller)
{
    struct thp_step step = {.op = op, .user = caller.user, .caller = caller.pid};
    return step;
}

/* Makes a step that is answered by `ok`. */
static int call_done(th_host *h, const struct thp_step *step)
{
    struct thp_reply reply;
    return thp_call(h, step, &reply, NULL);
}

/* The client itself refuses an argument. */
static int invalid(const th_host *h, int error)
{
    thp_note_refusal(h, NULL, 0);
    errno = error;
    return -1;
}

/* ---------------------------------------------------------------- ptrace(2) */

static int lwp_info(th_host *h, const struct thp_step *step, void *addr, size_t size)
{
    struct thp_reply reply;
    if (thp_call(h, step, &reply, NULL) != 0)
        return -1;
    /* tools/format lwpinfo */
    /* clang-format off */
    struct th_lwpinfo info = {
        reply.lwp, reply.event, reply.flags, (th_sigset)reply.mask, (th_sigset)reply.pending, reply.child,
        reply.code
    };
    /* clang-format on */
    /* end */
    memcpy(addr, &info, size);
    return 0;
}

static int get_event_mask(th_host *h, const struct thp_step *step, int *mask)
{
    struct thp_reply reply;
    if (thp_call(h, step, &reply, NULL) != 0)
        return -1;
    *mask = reply.events;
    return 0;
}

static int set_event_mask(th_host *h, struct thp_step *step, int mask)
{
    if (mask & ~thp_all_of(&thp_events)) {
        /* bits without a name: the model is asked for what it refuses first, and EINVAL comes last */
        struct thp_step asked = *step;
        asked.data = (unsigned)mask;
        step->request = TH_PT_GET_EVENT_MASK;
        if (get_event_mask(h, step, &mask) != 0)
            return -1;
        thp_note_refusal(h, &asked, EINVAL);
        errno = EINVAL;
        return -1;
    }
    step->data = (unsigned)mask;
    return call_done(h, step);
}

static int lwp_list(th_host *h, struct thp_step *step, th_lwpid *lwps, int size)
{
    struct thp_reply reply;
    step->data = size > 0 ? (unsigned)size : 0;
    step->numbers = lwps;
    step->size = step->data;
    return thp_call(h, step, &reply, NULL) == 0 ? (int)reply.count : -1;
}

/* What the kernel answers by looking only at `addr` and `data`, before the model is asked; an errno or 0. */
static int bad_arguments(int request, const void *addr, int data)
{
    switch (request) {
    case TH_PT_LWPINFO:
        if (data <= 0 || (size_t)data > sizeof(struct th_lwpinfo))
            return EINVAL;
        return addr == NULL ? EFAULT : 0;
    case TH_PT_GET_EVENT_MASK:
    case TH_PT_SET_EVENT_MASK:
        if (data != (int)sizeof(int))
            return EINVAL;
        return addr == NULL ? EFAULT : 0;
    case TH_PT_GETLWPLIST: return addr == NULL && data > 0 ? EFAULT : 0;
    default: return thp_name_of(&thp_requests, request) == NULL ? EINVAL : 0;
    }
}

int th_ptrace(th_host *h, th_caller caller, int request, th_pid pid, void *addr, int data)
{
    struct thp_step step = step_of(THP_PTRACE, caller);
    struct thp_reply reply;
    int error = bad_arguments(request, addr, data);
    if (error != 0)
        return invalid(h, error);
    step.request = request;
    step.target = pid;
    switch (request) {
    case TH_PT_TRACE_ME: return call_done(h, &step);
    case TH_PT_LWPINFO: return lwp_info(h, &step, addr, (size_t)data);
    case TH_PT_GET_EVENT_MASK: return get_event_mask(h, &step, addr);
    case TH_PT_SET_EVENT_MASK: return set_event_mask(h, &step, *(const int *)addr);
    /* tools/format requests for a number */
    case TH_PT_GETNUMLWPS:
        /* end */
        return thp_call(h, &step, &reply, NULL) == 0 ? reply.number : -1;
    case TH_PT_GETLWPLIST: return lwp_list(h, &step, addr, data);
    default: step.data = (unsigned)data; return call_done(h, &step);
    }
}

/* ---------------------------------------------------------------- other calls */

static th_pid wait4_call(th_host *h, th_caller caller, th_pid wpid, int *status, int options, const int *timeout)
{
    struct thp_step step = step_of(THP_WAIT4, caller);
    struct thp_reply reply;
    if (options & ~thp_all_of(&thp_options))
        return invalid(h, EINVAL);
    step.target = wpid;
    step.options = options;
    if (thp_call(h, &step, &reply, options & TH_WNOHANG ? NULL : timeout) != 0)
        return -1;
    if (status != NULL && reply.kind == THP_STATUS)
        *status = reply.status;
    return reply.pid;
}

th_pid th_wait4(th_host *h, th_caller caller, th_pid wpid, int *status, int options)
{
    return wait4_call(h, caller, wpid, status, options, NULL);
}

th_pid th_wait4_block(th_host *h, th_caller caller, th_pid wpid, int *status, int options, int timeout)
{
    return wait4_call(h, caller, wpid, status, options, &timeout);
}

int th_kill(th_host *h, th_caller caller, th_pid pid, int sig)
{
    struct thp_step step = step_of(THP_KILL, caller);
    step.target = pid;
    step.signal = sig;
    return call_done(h, &step);
}

int th_sigaction(th_host *h, th_caller caller, int sig, enum th_action action)
{
    struct thp_step step = step_of(THP_SIGACTION, caller);
    if (thp_name_of(&thp_actions, (int)action) == NULL)
        return invalid(h, EINVAL);
    step.signal = sig;
    step.action = (int)action;
    return call_done(h, &step);
}

ssize_t th_list(th_host *h, th_caller caller, th_pid *pids, size_t size)
{
    struct thp_step step = step_of(THP_LIST, caller);
    struct thp_reply reply;
    step.numbers = pids;
    step.size = size;
    return thp_call(h, &step, &reply, NULL) == 0 ? (ssize_t)reply.count : -1;
}

/* ---------------------------------------------------------------- stop handlers */

int th_install(th_host *h, th_caller caller, const struct th_rule *rules, size_t count)
{
    struct thp_step step = step_of(THP_INSTALL, caller);
    for (size_t i = 0; i < count; i++)
        if (thp_name_of(&thp_decisions, (int)rules[i].decision) == NULL || rules[i].flags & ~thp_all_of(&thp_stop_flags))
            return invalid(h, EINVAL);
    step.rules = rules;
    step.rule_count = count;
    return call_done(h, &step);
}

static th_pid handle_call(th_host *h, th_caller caller, struct th_handled *handled, const int *timeout)
{
    struct thp_step step = step_of(THP_HANDLE, caller);
    struct thp_reply reply;
    if (thp_call(h, &step, &reply, timeout) != 0)
        return -1;
    if (handled != NULL && reply.kind != THP_NOTHING) {
        /* tools/format handled */
        /* clang-format off */
        struct th_handled told = {
            .stopped = reply.kind == THP_HANDLED, .status = reply.status, .lwp = reply.lwp, .signal = reply.signal,
            .flags = reply.flags, .child = reply.child, .code = reply.code, .handler = reply.handler,
            .decision = (enum th_decision)reply.decision, .pass = reply.pass
        };
        /* clang-format on */
        /* end */
        *handled = told;
    }
    return reply.pid;
}

th_pid th_handle(th_host *h, th_caller caller, struct th_handled *handled) { return handle_call(h, caller, handled, NULL); }

th_pid th_handle_block(th_host *h, th_caller caller, struct th_handled *handled, int timeout)
{
    return handle_call(h, caller, handled, &timeout);
}

/* ---------------------------------------------------------------- steps without a caller */

int th_spawn(th_host *h, unsigned user, th_pid *pid, th_lwpid *lwp)
{
    struct thp_step step = {.op = THP_SPAWN, .user = user};
    struct thp_reply reply;
    if (thp_call(h, &step, &reply, NULL) != 0)
        return -1;
    if (pid != NULL)
        *pid = reply.pid;
    if (lwp != NULL)
        *lwp = reply.lwp;
    return 0;
}

static int turn(th_host *h, const struct thp_step *step, struct th_turned *turned)
{
    static const enum th_outcome outcomes[] = {
        [THP_DONE] = TH_DONE, [THP_NEW] = TH_NEW, [THP_STOPPED] = TH_STOPPED, [THP_CAUGHT] = TH_CAUGHT, [THP_ENDED] = TH_ENDED};
    struct thp_reply reply;
    if (thp_call(h, step, &reply, NULL) != 0)
        return -1;
    if (turned != NULL) {
        struct th_turned told = {outcomes[reply.kind], reply.pid, reply.lwp, reply.signal, reply.flags, reply.status};
        *turned = told;
    }
    return 0;
}

int th_turn_compute(th_host *h, unsigned user, th_lwpid lwp, struct th_turned *turned)
{
    struct thp_step step = {.op = THP_TURN, .user = user, .lwp = lwp, .act = THP_COMPUTE};
    return turn(h, &step, turned);
}

int th_turn_raise(th_host *h, unsigned user, th_lwpid lwp, int sig, struct th_turned *turned)
{
    struct thp_step step = {.op = THP_TURN, .user = user, .lwp = lwp, .act = THP_RAISE, .signal = sig};
    return turn(h, &step, turned);
}

int th_turn_block(th_host *h, unsigned user, th_lwpid lwp, th_sigset set, struct th_turned *turned)
{
    struct thp_step step = {.op = THP_TURN, .user = user, .lwp = lwp, .act = THP_BLOCK, .data = set & ~TH_SIGMASK(32)};
    return turn(h, &step, turned);
}

int th_turn_enter(th_host *h, unsigned user, th_lwpid lwp, enum th_call call, unsigned code, struct th_turned *turned)
{
    struct thp_step step = {.op = THP_TURN, .user = user, .lwp = lwp, .act = THP_ENTER, .call = (int)call, .data = code};
    if (thp_name_of(&thp_calls, (int)call) == NULL)
        return invalid(h, EINVAL);
    return turn(h, &step, turned);
}

int th_turn_leave(th_host *h, unsigned user, th_lwpid lwp, struct th_turned *turned)
{
    struct thp_step step = {.op = THP_TURN, .user = user, .lwp = lwp, .act = THP_LEAVE};
    return turn(h, &step, turned);
}
