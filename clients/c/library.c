/* How the library libtracehost makes a step: by a typed call, or by a line. */
#include "internal.h"

#include <stdlib.h>
#include <string.h>

enum { ANSWER = 4096 }; /* room for most answers */

/* the enums of internal.h are the library's */
typedef char same_kinds[(int)THP_ERROR == TRACEHOST_ERROR && (int)THP_HANDLED == TRACEHOST_HANDLED ? 1 : -1];
typedef char same_acts[(int)THP_LEAVE == TRACEHOST_LEAVE_CALL && (int)THP_BLOCK == TRACEHOST_BLOCK ? 1 : -1];

/* ---------------------------------------------------------------- a step as a typed call */

/* The library numbers the flags of a stop from bit 0 on, in the order of their table. */
static uint32_t bits_of(int flags)
{
    uint32_t bits = 0;
    for (size_t i = 0; i < thp_stop_flags.count; i++)
        if (flags & thp_stop_flags.names[i].value)
            bits |= (uint32_t)1 << i;
    return bits;
}

static int flags_of(uint32_t bits)
{
    int flags = 0;
    for (size_t i = 0; bits >> i != 0; i++)
        if (bits >> i & 1)
            flags |= thp_stop_flags.names[i].value;
    return flags;
}

static uint32_t install(tracehost *library, const struct thp_step *step, tracehost_reply *reply)
{
    tracehost_rule rules[TRACEHOST_MAX_RULES];
    if (step->rule_count > TRACEHOST_MAX_RULES)
        return TRACEHOST_INVALID;
    for (size_t i = 0; i < step->rule_count; i++) {
        const struct th_rule *rule = &step->rules[i];
        if (rule->pass != 0 && rule->decision != TH_CONTINUE && rule->decision != TH_DETACH)
            return TRACEHOST_INVALID; /* the library ignores it, and a line is refused */
        rules[i].flags = bits_of(rule->flags);
        rules[i].signal = (uint32_t)rule->signal;
        rules[i].decision = (uint32_t)rule->decision;
        rules[i].pass = (uint32_t)rule->pass;
    }
    return tracehost_install(library, step->user, (uint32_t)step->caller, rules, step->rule_count, reply);
}

static uint32_t turn_lwp(tracehost *library, const struct thp_step *step, tracehost_reply *reply)
{
    static const uint32_t calls[] = {[TH_CALL_EXIT] = TRACEHOST_EXIT,
        [TH_CALL_FORK] = TRACEHOST_FORK,
        [TH_CALL_VFORK] = TRACEHOST_VFORK,
        [TH_CALL_EXEC] = TRACEHOST_EXEC,
        [TH_CALL_THR_NEW] = TRACEHOST_THR_NEW,
        [TH_CALL_THR_EXIT] = TRACEHOST_THR_EXIT,
        [TH_CALL_OTHER] = TRACEHOST_OTHER};
    uint32_t argument = step->act == THP_RAISE ? (uint32_t)step->signal : step->data;
    return tracehost_turn(library, step->user, (uint32_t)step->lwp, step->act, calls[step->call], argument, reply);
}

static uint32_t call_library(tracehost *library, const struct thp_step *step, tracehost_reply *reply)
{
    uint32_t caller = (uint32_t)step->caller, signal = (uint32_t)step->signal;
    switch (step->op) {
    case THP_SPAWN: return tracehost_spawn(library, step->user, reply);
    case THP_LIST: return tracehost_list(library, step->user, caller, reply);
    case THP_SIGACTION: return tracehost_sigaction(library, step->user, caller, signal, (uint32_t)step->action, reply);
    case THP_KILL: return tracehost_kill(library, step->user, caller, step->target, signal, reply);
    case THP_WAIT4: return tracehost_wait4(library, step->user, caller, step->target, (uint32_t)step->options, reply);
    case THP_INSTALL: return install(library, step, reply);
    case THP_HANDLE: return tracehost_handle(library, step->user, caller, reply);
    case THP_PTRACE:
        return tracehost_ptrace(library, step->user, caller, (uint32_t)step->request, (uint32_t)step->target, step->data, reply);
    case THP_TURN: return turn_lwp(library, step, reply);
    default: return TRACEHOST_INVALID;
    }
}

/* Stores the reply, and the numbers of a list as far as there is room. */
static void take_reply(tracehost *library, const tracehost_reply *told, const struct thp_step *step, struct thp_reply *reply)
{
    reply->kind = (enum thp_kind)told->kind;
    /* tools/format reply */
    reply->pid = (int)told->pid;
    reply->lwp = (int)told->lwp;
    reply->number = (int)told->number;
    reply->status = (int)told->status;
    reply->signal = (int)told->signal;
    reply->event = (int)told->event;
    reply->flags = flags_of(told->flags);
    reply->mask = (int)told->mask;
    reply->pending = (int)told->pending;
    reply->child = (int)told->child;
    reply->code = told->code;
    reply->handler = told->has_handler ? (int)told->handler : -1;
    reply->decision = (int)told->decision;
    reply->pass = (int)told->pass;
    reply->error = thp_errno_numbered(told->error);
    reply->events = (int)told->mask;
    reply->count = told->count;
    /* end */
    size_t length, kept = step->size < reply->count ? step->size : reply->count;
    if (kept > 0)
        tracehost_numbers(library, (uint32_t *)step->numbers, kept, &length);
}

/* ---------------------------------------------------------------- lines */

/* What was returned with a line in `answer`, which loses its line feed. */
static uint32_t end_line(th_host *h, uint32_t code, size_t length)
{
    if (code == TRACEHOST_ANSWERED) {
        h->answer.bytes[length - 1] = '\0';
        h->answer.length = length;
    }
    return code;
}

/* The line of the last answer, into room for at least `length` bytes. If there is no memory for it, the session is broken. */
static uint32_t last_line(th_host *h, size_t length)
{
    struct thp_text *answer = &h->answer;
    uint32_t code = TRACEHOST_NO_MEMORY;
    answer->length = 0;
    while (thp_room_for(answer, length) == 0) {
        code = tracehost_last_line(&h->library, false, (uint8_t *)answer->bytes, answer->size, &length);
        if (code != TRACEHOST_ANSWERED || length <= answer->size)
            break;
        code = TRACEHOST_NO_MEMORY;
    }
    if (code != TRACEHOST_ANSWERED)
        thp_break_off(h);
    return end_line(h, code, length);
}

/* Makes the step of the line in `step`, and stores the line of its answer. */
static uint32_t make_line(th_host *h)
{
    struct thp_text *step = &h->step, *answer = &h->answer;
    size_t length = ANSWER;
    answer->length = 0;
    if (thp_room_for(answer, ANSWER) != 0)
        return TRACEHOST_NO_MEMORY;
    uint8_t *room = (uint8_t *)answer->bytes;
    uint32_t code = tracehost_line(&h->library, false, (uint8_t *)step->bytes, step->length - 1, room, answer->size, &length);
    if (code == TRACEHOST_NO_TEXT || (code == TRACEHOST_ANSWERED && length > answer->size))
        return last_line(h, length);
    return end_line(h, code, length);
}

static int result_of(uint32_t code)
{
    if (code == TRACEHOST_ANSWERED)
        return 0;
    errno = code == TRACEHOST_TOO_MANY ? EPIPE : ENOMEM;
    return -1;
}

/* What the line of an answer says: whether it was refused, has changed nothing, or memory ran out. */
static void read_answer(const char *answer, struct thp_reply *reply)
{
    const char *step = strchr(answer, ' '), *words = step == NULL ? NULL : strchr(step + 1, ' ');
    memset(reply, 0, sizeof *reply);
    reply->kind = THP_DONE;
    if (strncmp(answer, "refused ", 8) == 0)
        reply->kind = THP_REFUSED;
    else if (words != NULL && strcmp(words, " held") == 0)
        reply->kind = THP_HELD;
    else if (words != NULL && strcmp(words, " nothing") == 0)
        reply->kind = THP_NOTHING;
    else if (words != NULL && strncmp(words, " error ", 7) == 0)
        reply->kind = THP_ERROR;
    if (reply->kind == THP_ERROR)
        reply->error = thp_errno_numbered((unsigned)atoi(strrchr(answer, ' ')));
}

static int make_by_line(th_host *h, const struct thp_step *step, struct thp_reply *reply)
{
    if (thp_write_step(h, step) != 0 || result_of(make_line(h)) != 0)
        return -1;
    read_answer(h->answer.bytes, reply);
    return 0;
}

int thp_make(th_host *h, const struct thp_step *step, struct thp_reply *reply)
{
    tracehost_reply told;
    int records = h->scenario.number >= 0;
    if (records && thp_write_step(h, step) != 0)
        return -1;
    uint32_t code = call_library(&h->library, step, &told);
    if (code == TRACEHOST_INVALID)
        return make_by_line(h, step, reply); /* a line of th_step_text, or one that is refused with the name of its fault */
    if (code == TRACEHOST_ANSWERED) {
        take_reply(&h->library, &told, step, reply);
        if (records)
            code = last_line(h, ANSWER);
    }
    return result_of(code);
}

void thp_read_reason(const th_host *h, char *reason, size_t size)
{
    size_t length = 0;
    const uint8_t *line = (const uint8_t *)h->step.bytes;
    reason[0] = '\0';
    if (tracehost_explain(line, h->step.length - 1, h->asked, (uint8_t *)reason, size - 1, &length) == TRACEHOST_ANSWERED)
        reason[length < size ? length : size - 1] = '\0';
}
