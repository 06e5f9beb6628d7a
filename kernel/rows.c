/* The rows of the model, as a session states them, and what the kernel says of the same processes and LWPs. */
#include <stdlib.h>
#include <string.h>
#include "play.h"

enum { MOST_ROWS = 2 * MOST_LWPS };

struct rows {
    int count;
    struct row {
        bool is_lwp, gone, seen; /* seen: the kernel was asked once since it is gone */
        long number;
        const struct line *line; /* its words behind kind and number are FIELD=VALUE */
    } row[MOST_ROWS];
};

static struct rows now, before;

void rows_begin(void) { now.count = before.count = 0; }
void rows_keep(void) { before = now; }

static struct row *find(struct rows *rows, bool is_lwp, long number)
{
    for (int i = 0; i < rows->count; i++)
        if (rows->row[i].number == number && rows->row[i].is_lwp == is_lwp)
            return &rows->row[i];
    return NULL;
}

void rows_state(const struct line *line)
{
    bool gone = strcmp(line->words[0], "gone") == 0;
    bool is_lwp = strcmp(line->words[gone ? 1 : 0], "lwp") == 0;
    struct row *row = find(&now, is_lwp, line->actor);
    if (row == NULL) {
        if (now.count == MOST_ROWS)
            fault("more rows than there is room for");
        row = &now.row[now.count++];
    }
    *row = (struct row){.is_lwp = is_lwp, .gone = gone, .number = line->actor, .line = line};
}

/* The value of a field; "none" without such a row or field. */
static void value_of(const struct row *row, const char *field, char *text, size_t size)
{
    size_t length = strlen(field);
    snprintf(text, size, "none");
    for (int i = 2; row != NULL && !row->gone && i < row->line->count; i++)
        if (strncmp(row->line->words[i], field, length) == 0 && row->line->words[i][length] == '=')
            snprintf(text, size, "%s", row->line->words[i] + length + 1);
}

void rows_field(bool after, bool is_lwp, long number, const char *field, char *text, size_t size)
{
    value_of(find(after ? &now : &before, is_lwp, number), field, text, size);
}

long rows_stopped_tracee(long tracer)
{
    char value[32];
    const struct row *last = NULL;
    for (int i = 0; i < now.count; i++) {
        const struct row *row = &now.row[i];
        value_of(row, "tracer", value, sizeof value);
        bool is_tracee = !row->is_lwp && !row->gone && atol(value) == tracer;
        value_of(row, "state", value, sizeof value);
        if (is_tracee && strcmp(value, "trace_stop") == 0 && (last == NULL || row->line->number > last->line->number))
            last = row;
    }
    return last == NULL ? 0 : last->number;
}

int rows_users(void)
{
    char text[32];
    bool has[USERS] = {false};
    int count = 0;
    for (int i = 0; i < before.count; i++) {
        value_of(&before.row[i], "user", text, sizeof text);
        long user = atol(text) - FIRST_USER;
        if (user >= 0 && user < USERS && !has[user])
            has[user] = true, count++;
    }
    return count;
}

/* ---- the kernel's */

static const char *state_name(enum state state)
{
    static const char *const names[] = {[STATE_GONE] = "gone",
        [STATE_RUNS] = "runs",
        [STATE_WAITS] = "runs",
        [STATE_JOB_STOP] = "job_stop",
        [STATE_TRACE_STOP] = "trace_stop",
        [STATE_ZOMBIE] = "zombie"};
    return names[state];
}

static unsigned set_of_text(const char *text)
{
    unsigned set = 0;
    for (const char *at = text; *at >= '0' && *at <= '9';) {
        char *end;
        long number = strtol(at, &end, 10);
        set |= number < MODEL_SIGNALS ? 1U << number : 0;
        at = *end == ',' ? end + 1 : end;
    }
    return set;
}

/* The pending signals that the model has for the process and all of its LWPs. */
static void model_pending(const struct row *process, char *text, size_t size)
{
    char value[128], owner[32];
    value_of(process, "pending", value, sizeof value);
    unsigned set = set_of_text(value);
    for (int i = 0; i < now.count; i++) {
        value_of(&now.row[i], "process", owner, sizeof owner);
        if (!now.row[i].is_lwp || atol(owner) != process->number)
            continue;
        value_of(&now.row[i], "pending", value, sizeof value);
        set |= set_of_text(value);
    }
    signals_text(set, "-", text, size);
}

struct comparing {
    const struct row *row;
    rows_difference told;
    void *with;
    int differences;
};

static void compare(struct comparing *comparing, const char *field, const char *kernel)
{
    char model[128];
    const struct row *row = comparing->row;
    if (strcmp(field, "pending") == 0 && !row->is_lwp && !system_has_lwp_pending)
        model_pending(row, model, sizeof model);
    else
        value_of(row, field, model, sizeof model);
    if (strcmp(model, "none") == 0 && strcmp(field, "state") != 0)
        return;
    if (row->gone)
        snprintf(model, sizeof model, row->line == NULL ? "none" : "gone");
    struct row_difference difference = {.is_lwp = row->is_lwp,
        .number = row->number,
        .field = field,
        .model = model,
        .kernel = kernel,
        .same = strcmp(model, kernel) == 0};
    comparing->told(&difference, comparing->with);
}

static void compare_number(struct comparing *comparing, const char *field, long kernel)
{
    char text[32];
    snprintf(text, sizeof text, "%ld", kernel);
    compare(comparing, field, text);
}

static void compare_set(struct comparing *comparing, const char *field, unsigned kernel)
{
    char text[128];
    signals_text(kernel, "-", text, sizeof text);
    compare(comparing, field, text);
}

static void compare_process(struct comparing *comparing)
{
    struct process_facts facts;
    int process = cast_process(comparing->row->number);
    pid_t native = process < 0 || cast.process[process].gone ? 0 : cast.process[process].native;
    if (native == 0 || !system_process(native, &facts)) {
        compare(comparing, "state", "gone");
        return;
    }
    compare(comparing, "state", state_name(facts.state));
    compare_number(comparing, "user", model_user(facts.user));
    compare_number(comparing, "parent", model_process((pid_t)facts.parent));
    compare_number(comparing, "tracer", facts.tracer == 0 ? 0 : model_process((pid_t)facts.tracer));
    compare_number(comparing, "lwps", facts.lwps);
    if (facts.state == STATE_ZOMBIE) { /* its signals concern nobody */
        if (facts.status >= 0)
            compare_number(comparing, "status", model_status(facts.status));
        return;
    }
    compare_set(comparing, "pending", facts.pending);
    compare_set(comparing, "ignored", facts.ignored);
    compare_set(comparing, "caught", facts.caught);
}

static void compare_lwp(struct comparing *comparing)
{
    struct lwp_facts facts;
    int lwp = cast_lwp(comparing->row->number);
    int process = lwp < 0 ? -1 : cast.lwp[lwp].process;
    bool lives = lwp >= 0 && !cast.lwp[lwp].gone && !cast.process[process].gone &&
                 system_lwp(cast.process[process].native, atomic_load(&stage->slots[lwp].lwp), &facts) &&
                 facts.state != STATE_ZOMBIE;
    if (!lives || comparing->row->gone) {
        compare(comparing, "state", lives ? "runs" : "gone");
        return;
    }
    compare_number(comparing, "process", cast.process[process].number);
    compare_set(comparing, "blocked", facts.blocked);
    if (system_has_lwp_pending)
        compare_set(comparing, "pending", facts.pending);
}

/* A process that the model doesn't have. */
static void compare_unknown(struct comparing *comparing, int process)
{
    long number = cast.process[process].number;
    struct row none = {.number = number, .gone = true}; /* no line states it */
    comparing->row = &none;
    if (number != 0 && find(&now, false, number) == NULL && cast_state(process) != STATE_GONE)
        compare_process(comparing);
    comparing->row = NULL;
}

int rows_compare(rows_difference told, void *with)
{
    int compared = 0;
    struct comparing comparing = {.told = told, .with = with};
    for (int i = 0; i < now.count; i++) {
        struct row *row = &now.row[i];
        if (row->gone && row->seen)
            continue;
        row->seen = row->gone;
        comparing.row = row;
        if (row->is_lwp)
            compare_lwp(&comparing);
        else
            compare_process(&comparing);
        compared++;
    }
    for (int i = 0; i < cast.processes && now.count > 0; i++)
        compare_unknown(&comparing, i);
    return compared;
}
