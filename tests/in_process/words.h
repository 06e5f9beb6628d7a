/* Replies in the words of docs/FORMAT.md, section 7, made only of the struct. */
#ifndef WORDS_H
#define WORDS_H

#include "check.h"

/* A text that grows to the right, in a fixed room. */
struct text {
    char bytes[ROOM];
    size_t length;
};

#define ADD(to, ...) ((to)->length += (size_t)snprintf((to)->bytes + (to)->length, ROOM - (to)->length, __VA_ARGS__))

static inline bool same(const struct text *one, const struct text *other)
{
    return one->length == other->length && memcmp(one->bytes, other->bytes, one->length) == 0;
}

static inline void add_names(struct text *to, uint32_t bits, const char *const *names, size_t count)
{
    const char *between = "";
    for (size_t i = 0; i < count; i++)
        if (bits >> i & 1) {
            ADD(to, "%s%s", between, names[i]);
            between = "+";
        }
    if (bits == 0)
        ADD(to, "none");
}

static inline void add_flags(struct text *to, uint32_t bits)
{
    static const char *const names[] = {"PL_FLAG_SCE",    "PL_FLAG_SCX",  "PL_FLAG_EXEC",
                                        "PL_FLAG_FORKED", "PL_FLAG_CHILD", "PL_FLAG_BORN",
                                        "PL_FLAG_EXITED", "PL_FLAG_VFORKED", "PL_FLAG_VFORK_DONE"};
    add_names(to, bits, names, 9);
}

static inline void add_signals(struct text *to, uint32_t set)
{
    const char *between = "";
    for (unsigned n = 1; n <= 31; n++)
        if (set >> (n - 1) & 1) {
            ADD(to, "%s%u", between, n);
            between = ",";
        }
    if (set == 0)
        ADD(to, "none");
}

static inline void add_error(struct text *to, uint32_t number)
{
    static const struct { uint32_t number; const char *name; } errors[] = {
        {1, "EPERM"}, {3, "ESRCH"}, {10, "ECHILD"}, {12, "ENOMEM"}, {16, "EBUSY"}, {22, "EINVAL"}, {35, "EAGAIN"}};
    for (size_t i = 0; i < sizeof errors / sizeof *errors; i++)
        if (errors[i].number == number)
            ADD(to, "error %s %" PRIu32, errors[i].name, number);
}

static inline void add_list(struct text *to, tracehost *h, const tracehost_reply *r, const char *word)
{
    static uint32_t numbers[1024];
    size_t length;
    ADD(to, "%s", word);
    CHECK(tracehost_numbers(h, numbers, 1024, &length) == TRACEHOST_ANSWERED && length == r->count);
    for (size_t i = 0; i < length; i++)
        ADD(to, " %" PRIu32, numbers[i]);
}

static inline void add_info(struct text *to, const tracehost_reply *r)
{
    ADD(to, "info %" PRIu32 " %s flags=", r->lwp, r->event ? "SIGNAL" : "NONE");
    add_flags(to, r->flags);
    ADD(to, " mask=");
    add_signals(to, r->mask);
    ADD(to, " pending=");
    add_signals(to, r->pending);
    ADD(to, " child=%" PRIu32 " code=%" PRIu32, r->child, r->code);
}

static inline void add_handled(struct text *to, const tracehost_reply *r)
{
    static const char *const decisions[] = {"decline", "leave", "continue", "detach", "kill"};
    ADD(to, "handled %" PRIu32 " %" PRIu32 " at %" PRIu32 " signal=%" PRIu32 " flags=", r->pid, r->status, r->lwp,
        r->signal);
    add_flags(to, r->flags);
    ADD(to, " child=%" PRIu32 " code=%" PRIu32 " by ", r->child, r->code);
    if (r->has_handler)
        ADD(to, "%" PRIu32, r->handler);
    else
        ADD(to, "none");
    ADD(to, " %s", decisions[r->decision]);
    if (r->decision == TRACEHOST_CONTINUE || r->decision == TRACEHOST_DETACH)
        ADD(to, " %" PRIu32, r->pass);
}

/* Adds the reply in words, without user and number. `h` has the list, if it has one. */
static inline void add_reply(struct text *to, tracehost *h, const tracehost_reply *r)
{
    static const char *const events[] = {"PTRACE_EXEC", "PTRACE_SCE", "PTRACE_SCX",
                                         "PTRACE_FORK", "PTRACE_LWP", "PTRACE_VFORK"};
    switch (r->kind) {
    case TRACEHOST_OK: ADD(to, "ok"); break;
    case TRACEHOST_NEW: ADD(to, "new %" PRIu32 " %" PRIu32, r->pid, r->lwp); break;
    case TRACEHOST_NUMBER: ADD(to, "number %" PRIu32, r->number); break;
    case TRACEHOST_STATUS: ADD(to, "status %" PRIu32 " %" PRIu32, r->pid, r->status); break;
    case TRACEHOST_NOTHING: ADD(to, "nothing"); break;
    case TRACEHOST_INFO: add_info(to, r); break;
    case TRACEHOST_LWPS: add_list(to, h, r, "lwps"); break;
    case TRACEHOST_PIDS: add_list(to, h, r, "pids"); break;
    case TRACEHOST_MASK:
        ADD(to, "mask ");
        add_names(to, r->mask, events, 6);
        break;
    case TRACEHOST_HANDLED: add_handled(to, r); break;
    case TRACEHOST_STOPPED:
        ADD(to, "stopped %" PRIu32 " %" PRIu32 " flags=", r->lwp, r->signal);
        add_flags(to, r->flags);
        break;
    case TRACEHOST_CAUGHT: ADD(to, "caught %" PRIu32, r->signal); break;
    case TRACEHOST_ENDED: ADD(to, "ended %" PRIu32, r->status); break;
    case TRACEHOST_HELD: ADD(to, "held"); break;
    case TRACEHOST_ERROR: add_error(to, r->error); break;
    default: ADD(to, "kind %" PRIu32, r->kind);
    }
}

#endif
