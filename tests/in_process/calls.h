/*
 * Calls by chance: each as a typed call and as the line that docs/FORMAT.md has for it. Numbers are mostly those of a
 * user's first processes and LWPs, and sometimes another user's, none, or one that is no word's.
 */
#ifndef CALLS_H
#define CALLS_H

#include "words.h"

struct call {
    enum { SPAWN, PTRACE, WAIT4, KILL, SIGACTION, LIST, INSTALL, HANDLE, TURN } op;
    uint32_t user, caller;
    int64_t which;
    uint32_t numbers[4];
    tracehost_rule rules[4];
    size_t count;
};

static uint64_t dice = 1;

/* A number below `most` (splitmix64). */
static inline uint32_t roll(uint32_t most)
{
    uint64_t x = dice += 0x9e3779b97f4a7c15;
    x = (x ^ (x >> 30)) * 0xbf58476d1ce4e5b9;
    x = (x ^ (x >> 27)) * 0x94d049bb133111eb;
    return (uint32_t)((x ^ (x >> 31)) % most);
}

static const struct { uint32_t number; const char *name; } requests[] = {
    {0, "PT_TRACE_ME"}, {7, "PT_CONTINUE"}, {8, "PT_KILL"}, {9, "PT_STEP"}, {10, "PT_ATTACH"}, {11, "PT_DETACH"},
    {13, "PT_LWPINFO"}, {14, "PT_GETNUMLWPS"}, {15, "PT_GETLWPLIST"}, {18, "PT_SUSPEND"}, {19, "PT_RESUME"},
    {20, "PT_TO_SCE"}, {21, "PT_TO_SCX"}, {22, "PT_SYSCALL"}, {23, "PT_FOLLOW_FORK"}, {24, "PT_LWP_EVENTS"},
    {25, "PT_GET_EVENT_MASK"}, {26, "PT_SET_EVENT_MASK"}};
static const char *const actions[] = {"default", "ignore", "catch"};
static const char *const decisions[] = {"decline", "leave", "continue", "detach", "kill"};
static const char *const acts[] = {"compute", "raise", "block", "enter", "leave"};
static const char *const call_names[] = {"fork", "vfork", "exec", "thr_new", "thr_exit", "exit", "other"};

/* Mostly the user's first process, which is often a debugger, or one of the next four. */
static inline uint32_t some_caller(uint32_t user)
{
    uint32_t of = roll(30) ? user : FIRST_USER + roll(2);
    return 1000 * (of - 1000) + (roll(10) < 7 ? 0 : roll(5));
}

static inline uint32_t some_process(uint32_t user)
{
    return roll(40) ? some_caller(user) - (roll(8) ? 0 : 1) + 1 + roll(3) : roll(2) ? roll(3) : UINT32_MAX - roll(3);
}

static inline uint32_t some_lwp(uint32_t user)
{
    return roll(30) ? 100000 + 4000 * (user - FIRST_USER) + roll(6) : some_process(user);
}

/* Mostly 0, seldom one that ends a process. */
static inline uint32_t some_signal(void)
{
    static const uint32_t often[] = {0, 0, 0, 0, 0, 0, 5, 17, 19, 20, 28, 18};
    return roll(40) ? often[roll(12)] : roll(3) ? roll(33) : UINT32_MAX;
}

static inline void choose_rules(struct call *c)
{
    c->count = roll(4);
    for (size_t i = 0; i < c->count; i++) {
        c->rules[i].flags = roll(3) ? 0 : 1u << roll(9);
        c->rules[i].signal = roll(3) ? 0 : 1 + roll(31);
        c->rules[i].decision = roll(5);
        c->rules[i].pass = roll(32);
    }
}

static inline void choose_act(struct call *c)
{
    static const uint32_t often[] = {0, 0, 0, 1, 2, 3, 3, 4, 4, 4}, calls[] = {0, 0, 1, 2, 3, 3, 4, 5, 6, 6, 6};
    uint32_t act = c->numbers[1] = often[roll(10)], call = c->numbers[2] = calls[roll(11)];
    c->numbers[0] = some_lwp(c->user);
    c->numbers[3] = act == 1 ? some_signal() : act == 2 ? roll(1u << 31) & roll(1u << 31) & roll(1u << 31) : 0;
    if (act == 3)
        c->numbers[3] = call == 5 ? roll(256) : call == 6 ? roll(600) : 0;
    else
        c->numbers[2] = 0;
}

static inline uint32_t some_request(void)
{
    static const uint32_t often[] = {7, 7, 7, 9, 10, 10, 10, 13, 14, 15, 20, 21, 22, 25};
    return roll(3) ? often[roll(14)] : requests[roll(18)].number;
}

static inline struct call choose(void)
{
    static const int often[] = {SPAWN, PTRACE, PTRACE, PTRACE, PTRACE, WAIT4, WAIT4, KILL, SIGACTION, LIST, INSTALL,
                                HANDLE, HANDLE, TURN, TURN, TURN, TURN, TURN, TURN};
    struct call c = {0};
    c.op = often[roll(sizeof often / sizeof *often)];
    if (c.op == INSTALL && roll(3))
        c.op = TURN;
    c.user = FIRST_USER + roll(2);
    c.caller = roll(40) ? some_caller(c.user) : some_process(c.user);
    c.which = roll(4) ? -1 : roll(20) ? (int64_t)some_process(c.user) : (int64_t)roll(5) - 3 - ((int64_t)roll(2) << 40);
    switch (c.op) {
    case PTRACE:
        c.numbers[0] = some_request();
        c.numbers[1] = roll(4) ? some_process(c.user) : some_lwp(c.user);
        c.numbers[2] = c.numbers[0] == 26 ? roll(64) : c.numbers[0] == 15 ? roll(9) : some_signal();
        break;
    case WAIT4: c.numbers[0] = roll(8); break;
    case KILL: c.numbers[0] = some_signal(); break;
    case SIGACTION:
        c.numbers[0] = some_signal();
        c.numbers[1] = roll(3);
        break;
    case INSTALL: choose_rules(&c); break;
    case TURN: choose_act(&c); break;
    default: break;
    }
    return c;
}

/* Makes the typed call, and returns its code. */
static inline uint32_t make(tracehost *h, const struct call *c, tracehost_reply *r)
{
    const uint32_t *n = c->numbers;
    switch (c->op) {
    case SPAWN: return tracehost_spawn(h, c->user, r);
    case PTRACE: return tracehost_ptrace(h, c->user, c->caller, n[0], n[1], n[2], r);
    case WAIT4: return tracehost_wait4(h, c->user, c->caller, c->which, n[0], r);
    case KILL: return tracehost_kill(h, c->user, c->caller, c->which, n[0], r);
    case SIGACTION: return tracehost_sigaction(h, c->user, c->caller, n[0], n[1], r);
    case LIST: return tracehost_list(h, c->user, c->caller, r);
    case INSTALL: return tracehost_install(h, c->user, c->caller, c->rules, c->count, r);
    case HANDLE: return tracehost_handle(h, c->user, c->caller, r);
    case TURN: return tracehost_turn(h, c->user, n[0], n[1], n[2], n[3], r);
    }
    return UINT32_MAX;
}

/* An array of the names of these bits. */
static inline void add_array(struct text *to, uint32_t bits, const char *const *names, size_t count)
{
    const char *between = "";
    ADD(to, "[");
    for (size_t i = 0; i < count; i++)
        if (bits >> i & 1) {
            ADD(to, "%s\"%s\"", between, names[i]);
            between = ",";
        }
    ADD(to, "]");
}

static inline void add_request(struct text *to, const uint32_t *n)
{
    static const char *const events[] = {"PTRACE_EXEC", "PTRACE_SCE", "PTRACE_SCX",
                                         "PTRACE_FORK", "PTRACE_LWP", "PTRACE_VFORK"};
    size_t i = 0;
    while (requests[i].number != n[0])
        i++;
    ADD(to, ",\"request\":\"%s\"", requests[i].name);
    if (n[0] == 0)
        return;
    ADD(to, ",\"target\":%" PRIu32, n[1]);
    if (n[0] == 26) {
        ADD(to, ",\"mask\":");
        add_array(to, n[2], events, 6);
    } else {
        ADD(to, ",\"data\":%" PRIu32, n[2]);
    }
}

static inline void add_rules(struct text *to, const struct call *c)
{
    static const char *const flags[] = {"PL_FLAG_SCE",    "PL_FLAG_SCX",  "PL_FLAG_EXEC",
                                        "PL_FLAG_FORKED", "PL_FLAG_CHILD", "PL_FLAG_BORN",
                                        "PL_FLAG_EXITED", "PL_FLAG_VFORKED", "PL_FLAG_VFORK_DONE"};
    ADD(to, ",\"rules\":[");
    for (size_t i = 0; i < c->count; i++) {
        uint32_t decision = c->rules[i].decision;
        ADD(to, "%s{\"decision\":\"%s\",\"flags\":", i ? "," : "", decisions[decision]);
        add_array(to, c->rules[i].flags, flags, 9);
        if (c->rules[i].signal)
            ADD(to, ",\"signal\":%" PRIu32, c->rules[i].signal);
        if (decision == 2 || decision == 3)
            ADD(to, ",\"pass\":%" PRIu32, c->rules[i].pass);
        ADD(to, "}");
    }
    ADD(to, "]");
}

static inline void add_act(struct text *to, const uint32_t *n)
{
    ADD(to, ",\"op\":\"turn\",\"lwp\":%" PRIu32 ",\"act\":\"%s\"", n[0], acts[n[1]]);
    if (n[1] == 1)
        ADD(to, ",\"signal\":%" PRIu32, n[3]);
    if (n[1] == 2) {
        const char *between = "";
        ADD(to, ",\"set\":[");
        for (unsigned signal = 1; signal <= 31; signal++)
            if (n[3] >> (signal - 1) & 1) {
                ADD(to, "%s%u", between, signal);
                between = ",";
            }
        ADD(to, "]");
    }
    if (n[1] == 3)
        ADD(to, ",\"call\":\"%s\"", call_names[n[2]]);
    if (n[1] == 3 && n[2] >= 5)
        ADD(to, ",\"code\":%" PRIu32, n[3]);
}

/* The call as a line. */
static inline void add_line(struct text *to, const struct call *c)
{
    static const char *const ops[] = {"spawn", "ptrace", "wait4", "kill", "sigaction", "list", "install", "handle"};
    static const char *const options[] = {"WNOHANG", "WUNTRACED", "WCONTINUED"};
    const uint32_t *n = c->numbers;
    ADD(to, "{\"user\":%" PRIu32, c->user);
    if (c->op == TURN) {
        add_act(to, n);
    } else {
        ADD(to, ",\"op\":\"%s\"", ops[c->op]);
        if (c->op != SPAWN)
            ADD(to, ",\"caller\":%" PRIu32, c->caller);
    }
    if (c->op == WAIT4 || c->op == KILL)
        ADD(to, ",\"which\":%" PRId64, c->which);
    if (c->op == WAIT4) {
        ADD(to, ",\"options\":");
        add_array(to, n[0], options, 3);
    }
    if (c->op == KILL || c->op == SIGACTION)
        ADD(to, ",\"signal\":%" PRIu32, n[0]);
    if (c->op == SIGACTION)
        ADD(to, ",\"action\":\"%s\"", actions[n[1]]);
    if (c->op == PTRACE)
        add_request(to, n);
    if (c->op == INSTALL)
        add_rules(to, c);
    ADD(to, "}");
}

#endif
