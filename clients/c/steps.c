/* A step as a line, for records, and for what the library refuses: only a line names the fault. Names and numbers need no escape. */
#define _POSIX_C_SOURCE 200809L

#include "internal.h"

#include <stdarg.h>
#include <stdio.h>
#include <string.h>

/* Adds at most 127 bytes. */
static void add(struct thp_text *text, const char *format, ...)
{
    enum { MOST = 128 };
    va_list values;
    if (thp_room_for(text, MOST) != 0)
        return;
    va_start(values, format);
    text->length += (size_t)vsnprintf(text->bytes + text->length, MOST, format, values);
    va_end(values);
}

static void add_names(struct thp_text *text, const char *key, const struct thp_table *table, int flags)
{
    const char *between = "";
    add(text, ",\"%s\":[", key);
    for (size_t i = 0; i < table->count; i++)
        if (flags & table->names[i].value) {
            add(text, "%s\"%s\"", between, table->names[i].name);
            between = ",";
        }
    add(text, "]");
}

static void add_set(struct thp_text *text, th_sigset set)
{
    const char *between = "";
    add(text, ",\"set\":[");
    for (int sig = 1; th_signame(sig) != NULL; sig++)
        if (set & TH_SIGMASK(sig)) {
            add(text, "%s%d", between, sig);
            between = ",";
        }
    add(text, "]");
}

static void add_rules(struct thp_text *text, const struct th_rule *rules, size_t count)
{
    add(text, ",\"rules\":[");
    for (size_t i = 0; i < count; i++) {
        add(text, "%s{\"decision\":\"%s\"", i == 0 ? "" : ",", thp_name_of(&thp_decisions, (int)rules[i].decision));
        if (rules[i].signal != 0)
            add(text, ",\"signal\":%d", rules[i].signal);
        add_names(text, "flags", &thp_stop_flags, rules[i].flags);
        if (rules[i].pass != 0)
            add(text, ",\"pass\":%d", rules[i].pass);
        add(text, "}");
    }
    add(text, "]");
}

static void add_request(struct thp_text *text, const struct thp_step *step)
{
    add(text, ",\"request\":\"%s\"", thp_name_of(&thp_requests, step->request));
    if (step->request == TH_PT_TRACE_ME)
        return;
    add(text, ",\"target\":%u", (unsigned)step->target);
    switch (step->request) {
    /* tools/format requests without data */
    case TH_PT_LWPINFO:
    case TH_PT_GETNUMLWPS:
    case TH_PT_GET_EVENT_MASK:
        /* end */
        break;
    case TH_PT_SET_EVENT_MASK: add_names(text, "mask", &thp_events, (int)step->data); break;
    default: add(text, ",\"data\":%u", step->data);
    }
}

static void add_turn(struct thp_text *text, const struct thp_step *step)
{
    static const char *const acts[] = {"compute", "raise", "block", "enter", "leave"};
    add(text, ",\"lwp\":%u,\"act\":\"%s\"", (unsigned)step->lwp, acts[step->act]);
    if (step->act == THP_RAISE)
        add(text, ",\"signal\":%u", (unsigned)step->signal);
    if (step->act == THP_BLOCK)
        add_set(text, step->data);
    if (step->act == THP_ENTER)
        add(text, ",\"call\":\"%s\"", thp_name_of(&thp_calls, step->call));
    if (step->act == THP_ENTER && (step->call == TH_CALL_EXIT || step->call == TH_CALL_OTHER))
        add(text, ",\"code\":%u", step->data);
}

static void add_call(struct thp_text *text, const struct thp_step *step)
{
    static const char *const ops[] = {"spawn", "list", "sigaction", "kill", "wait4", "install", "handle", "ptrace", "turn"};
    const char *action = thp_name_of(&thp_actions, step->action);
    add(text, "{\"user\":%u,\"op\":\"%s\"", step->user, ops[step->op]);
    if (step->op != THP_SPAWN && step->op != THP_TURN)
        add(text, ",\"caller\":%u", (unsigned)step->caller);
    if (step->op == THP_KILL || step->op == THP_WAIT4)
        add(text, ",\"which\":%d", step->target);
    switch (step->op) {
    case THP_SIGACTION: add(text, ",\"signal\":%u,\"action\":\"%s\"", (unsigned)step->signal, action); break;
    case THP_KILL: add(text, ",\"signal\":%u", (unsigned)step->signal); break;
    case THP_WAIT4: add_names(text, "options", &thp_options, step->options); break;
    case THP_INSTALL: add_rules(text, step->rules, step->rule_count); break;
    case THP_PTRACE: add_request(text, step); break;
    case THP_TURN: add_turn(text, step); break;
    default: break;
    }
    add(text, "}");
}

int thp_write_step(th_host *h, const struct thp_step *step)
{
    struct thp_text *text = &h->step;
    text->length = 0;
    text->failed = 0;
    if (step->op == THP_LINE)
        thp_add_bytes(text, step->line, strlen(step->line));
    else
        add_call(text, step);
    thp_add_bytes(text, "\n", 1);
    if (!text->failed)
        return 0;
    errno = ENOMEM;
    return -1;
}
