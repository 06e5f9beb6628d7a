/* A user's rows, and the conditions that they decide (format/refusals.toml). */
#include "internal.h"

#include <stdlib.h>

enum { ZOMBIE = 3, IN_CALL = 1 };

struct rows {
    tracehost_process *processes;
    tracehost_lwp *lwps;
    size_t process_count, lwp_count;
};

/* ---------------------------------------------------------------- what conditions ask; 0 of a row that isn't there */

static const tracehost_process *process_row(const struct rows *r, int64_t pid)
{
    static const tracehost_process none;
    for (size_t i = 0; i < r->process_count; i++)
        if (r->processes[i].pid == pid)
            return &r->processes[i];
    return &none;
}

static const tracehost_lwp *lwp_row(const struct rows *r, int64_t lwp)
{
    static const tracehost_lwp none;
    for (size_t i = 0; i < r->lwp_count; i++)
        if (r->lwps[i].lwp == lwp)
            return &r->lwps[i];
    return &none;
}

static int64_t processes(const struct rows *r) { return (int64_t)r->process_count; }

static int64_t lwps(const struct rows *r) { return (int64_t)r->lwp_count; }

static int64_t owner(const struct rows *r, int64_t lwp) { return lwp_row(r, lwp)->pid; }

/* the process that a target of ptrace(2) names, by its number or an LWP's */
static int64_t process_of(const struct rows *r, int64_t number)
{
    return number <= TRACEHOST_LAST_PROCESS ? process_row(r, number)->pid : owner(r, number);
}

static int64_t state(const struct rows *r, int64_t pid) { return process_row(r, pid)->state; }

static int64_t parent(const struct rows *r, int64_t pid) { return process_row(r, pid)->parent; }

static int64_t tracer(const struct rows *r, int64_t pid) { return process_row(r, pid)->tracer; }

static int was_told(const struct rows *r, int64_t pid) { return process_row(r, pid)->told != 0; }

static int is_live(const struct rows *r, int64_t pid)
{
    const tracehost_process *row = process_row(r, pid);
    return row->pid != 0 && row->state != ZOMBIE;
}

/* whether the first process traces the second, directly or through others */
static int traces(const struct rows *r, int64_t by, int64_t pid)
{
    for (size_t i = 0; i < r->process_count; i++) {
        pid = tracer(r, pid);
        if (pid == 0 || pid == by)
            break;
    }
    return pid != 0 && pid == by;
}

static int has_child(const struct rows *r, int64_t caller, int64_t which)
{
    for (size_t i = 0; i < r->process_count; i++) {
        const tracehost_process *row = &r->processes[i];
        if ((which == -1 || row->pid == which) && (row->parent == caller || row->tracer == caller))
            return 1;
    }
    return 0;
}

static int64_t mode(const struct rows *r, int64_t lwp) { return lwp_row(r, lwp)->mode; }

/* the call that it is in; -1 for none */
static int64_t call_of(const struct rows *r, int64_t lwp)
{
    const tracehost_lwp *row = lwp_row(r, lwp);
    return row->mode == IN_CALL ? (int64_t)row->call : -1;
}

static int is_suspended(const struct rows *r, int64_t lwp) { return lwp_row(r, lwp)->suspended != 0; }

/* tools/format conditions */
/* clang-format off */
static int holds(enum thp_condition condition, const struct thp_asked *a, const struct rows *r)
{
    switch (condition) {
    case THP_CALLER_GONE: return !is_live(r, a->caller);
    case THP_CALLER_IN_TRACE_STOP: return state(r, a->caller) == 1;
    case THP_CALLER_IN_JOB_STOP: return state(r, a->caller) == 2;
    case THP_LWP_GONE: return owner(r, a->lwp) == 0;
    case THP_LWP_IN_TRACE_STOP: return state(r, owner(r, a->lwp)) == 1;
    case THP_LWP_IN_JOB_STOP: return state(r, owner(r, a->lwp)) == 2;
    case THP_LWP_SUSPENDED: return is_suspended(r, a->lwp);
    case THP_LWP_WAITS: return mode(r, a->lwp) == 2;
    case THP_NO_CHILD: return !has_child(r, a->caller, -1);
    case THP_NO_CHILD_OF_NUMBER: return !has_child(r, a->caller, a->which);
    case THP_NO_OTHER_PROCESS: return processes(r) == 1;
    case THP_PROCESS_GONE: return a->which > 99999 || process_of(r, a->which) == 0;
    case THP_IN_NO_CALL: return mode(r, a->lwp) != 1;
    case THP_IN_A_CALL: return mode(r, a->lwp) == 1;
    case THP_MOST_PROCESSES: return processes(r) >= 250 && (a->lwp == 0 || call_of(r, a->lwp) == 0 || call_of(r, a->lwp) == 1);
    case THP_MOST_LWPS: return lwps(r) >= 1000 && (a->lwp == 0 || call_of(r, a->lwp) == 0 || call_of(r, a->lwp) == 1 || call_of(r, a->lwp) == 3);
    case THP_CALLER_TRACED: return tracer(r, a->caller) != 0;
    case THP_PARENT_IS_1: return parent(r, a->caller) == 1;
    case THP_TRACES_ITS_PARENT: return traces(r, a->caller, parent(r, a->caller));
    case THP_TARGET_PROCESS_GONE: return process_of(r, a->target) == 0;
    case THP_TARGET_LWP_GONE: return process_of(r, a->target) == 0;
    case THP_TARGET_ENDED: return state(r, process_of(r, a->target)) == 3;
    case THP_TRACES_ITSELF: return process_of(r, a->target) == a->caller;
    case THP_TRACED_ALREADY: return tracer(r, process_of(r, a->target)) != 0;
    case THP_TRACES_THE_CALLER: return traces(r, process_of(r, a->target), a->caller);
    case THP_NOT_TRACED: return tracer(r, process_of(r, a->target)) == 0;
    case THP_TRACED_BY_ANOTHER: return tracer(r, process_of(r, a->target)) != a->caller;
    case THP_IN_NO_STOP: return state(r, process_of(r, a->target)) != 1;
    case THP_STOP_NOT_TOLD: return !was_told(r, process_of(r, a->target));
    default: return 1;
    }
}
/* clang-format on */
/* end */

/* ---------------------------------------------------------------- the rows of now */

/* Reads them; -1 if there is no memory, or no such user. */
static int read_rows(th_host *h, uint32_t user, struct rows *r)
{
    struct rows none = {NULL, NULL, 0, 0};
    size_t process_count, lwp_count;
    tracehost_process first_process;
    tracehost_lwp first_lwp;
    *r = none;
    if (tracehost_view(&h->library, user, &first_process, 0, &first_lwp, 0, &process_count, &lwp_count) != TRACEHOST_ANSWERED)
        return -1;
    r->processes = malloc((process_count + 1) * sizeof *r->processes);
    r->lwps = malloc((lwp_count + 1) * sizeof *r->lwps);
    if (r->processes == NULL || r->lwps == NULL)
        return -1;
    tracehost_view(&h->library, user, r->processes, process_count, r->lwps, lwp_count, &r->process_count, &r->lwp_count);
    return 0;
}

int thp_first_that_holds(th_host *h, const struct thp_asked *asked, const enum thp_condition *conditions, size_t count)
{
    struct rows rows;
    int found = -1;
    if (read_rows(h, (uint32_t)asked->user, &rows) == 0)
        for (size_t i = 0; i < count && found < 0; i++)
            if (holds(conditions[i], asked, &rows))
                found = (int)i;
    free(rows.processes);
    free(rows.lwps);
    return found;
}
