/* Why a step was answered by an errno, or held: the first of its call's conditions that holds, in words. */
#include "internal.h"

#include <inttypes.h>
#include <stdio.h>
#include <string.h>

enum { MOST_CONDITIONS = 32 };

struct condition {
    const char *answer, *words;
};

struct call {
    enum thp_op op;
    int request; /* -1 for any */
    const char *text;
    const enum thp_condition *order;
    size_t count;
};

/* tools/format conditions */
/* clang-format off */
static const struct condition CONDITIONS[] = {
    {"ESRCH", "{caller} isn't a live process of user {user}"},
    {"held", "{caller} is in a trace stop"},
    {"held", "a stop signal has stopped {caller}"},
    {"ESRCH", "{lwp} is no LWP, whose numbers begin at 100000"},
    {"ESRCH", "user {user} has no LWP {lwp}"},
    {"held", "the process of LWP {lwp} is in a trace stop"},
    {"held", "a stop signal has stopped the process of LWP {lwp}"},
    {"held", "PT_SUSPEND holds LWP {lwp}"},
    {"held", "LWP {lwp} waits for the child of its vfork"},
    {"EINVAL", "which is {which}, and there are no process groups"},
    {"ECHILD", "{caller} has no child and traces no process"},
    {"ECHILD", "{which} is neither a child of {caller} nor traced by it"},
    {"EINVAL", "{signal} is no signal"},
    {"ESRCH", "user {user} has no process except {caller}"},
    {"ESRCH", "user {user} has no process {which}"},
    {"EINVAL", "{signal} is no signal"},
    {"EINVAL", "{signal} can be neither caught nor ignored"},
    {"EAGAIN", "user {user} has 64 stop handlers"},
    {"EINVAL", "LWP {lwp} is in no system call"},
    {"EINVAL", "LWP {lwp} is in a system call, which it has to leave first"},
    {"EINVAL", "{signal} is no signal"},
    {"EAGAIN", "user {user} has 250 processes"},
    {"EAGAIN", "user {user} has 1000 LWPs"},
    {"ENOMEM", "no memory is left"},
    {"EBUSY", "{caller} is traced already"},
    {"EPERM", "the parent of {caller} is process 1"},
    {"EINVAL", "{caller} traces its parent, directly or through others"},
    {"ESRCH", "the target is 0, which is no process"},
    {"ESRCH", "user {user} has no process {target}"},
    {"ESRCH", "user {user} has no LWP {target}"},
    {"ESRCH", "{target} has ended"},
    {"EINVAL", "a process can't trace itself"},
    {"EBUSY", "{target} is traced already"},
    {"EINVAL", "{target} traces {caller}, directly or through others"},
    {"EPERM", "{target} isn't traced"},
    {"EBUSY", "another process traces {target}"},
    {"EBUSY", "{target} is in no trace stop"},
    {"EBUSY", "no wait has reported the stop of {target}"},
    {"EINVAL", "{signal} is no signal"},
    {"EINVAL", "data is 0, and has to be how many LWPs to list"},
    {"EINVAL", "the mask's {unnamed} is no event"},
};

static int is_possible(enum thp_condition condition, const struct thp_asked *a)
{
    switch (condition) {
    case THP_NO_NUMBER_OF_LWP: return a->lwp <= 99999;
    case THP_LWP_GONE: return a->lwp > 99999;
    case THP_NO_GROUPS: return a->which == 0 || a->which < -1;
    case THP_NO_CHILD: return a->which == -1;
    case THP_NO_CHILD_OF_NUMBER: return a->which != -1;
    case THP_NO_SIGNAL_TO_POST: return !(0 <= a->signal && a->signal <= 31);
    case THP_NO_OTHER_PROCESS: return a->which == -1;
    case THP_PROCESS_GONE: return a->which != -1;
    case THP_NO_SIGNAL: return !(1 <= a->signal && a->signal <= 31);
    case THP_FIXED_SIGNAL: return (a->signal == 9 || a->signal == 17) && a->action != 0;
    case THP_IN_NO_CALL: return a->act == 4;
    case THP_IN_A_CALL: return a->act != 4;
    case THP_NO_SIGNAL_TO_RAISE: return a->act == 1 && !(1 <= a->signal && a->signal <= 31);
    case THP_MOST_PROCESSES: return a->lwp == 0 || a->act == 4;
    case THP_MOST_LWPS: return a->lwp == 0 || a->act == 4;
    case THP_TARGET_IS_0: return a->target == 0;
    case THP_TARGET_PROCESS_GONE: return a->target != 0 && a->target <= 99999;
    case THP_TARGET_LWP_GONE: return a->target > 99999;
    case THP_NO_SIGNAL_TO_PASS: return (a->request == 7 || a->request == 9 || a->request == 20 || a->request == 21 || a->request == 22 || a->request == 11) && !(0 <= a->data && a->data <= 31);
    case THP_NO_COUNT: return a->request == 15 && a->data == 0;
    case THP_UNNAMED_EVENTS: return a->request == 26 && a->unnamed != 0;
    default: return 1;
    }
}
/* clang-format on */
/* end */

/* tools/format sets */
/* clang-format off */
static int passes_signal(int64_t request) { return request == 7 || request == 9 || request == 20 || request == 21 || request == 22 || request == 11; }
static int takes_data(int64_t request) { return request == 7 || request == 9 || request == 20 || request == 21 || request == 22 || request == 11 || request == 23 || request == 24 || request == 15; }
/* clang-format on */
/* end */

/* tools/format calls */
/* clang-format off */
static const enum thp_condition ORDER_0[] = {THP_MOST_PROCESSES, THP_MOST_LWPS, THP_NO_MEMORY};
static const enum thp_condition ORDER_1[] = {THP_CALLER_GONE, THP_CALLER_IN_TRACE_STOP, THP_CALLER_IN_JOB_STOP, THP_NO_MEMORY};
static const enum thp_condition ORDER_2[] = {THP_CALLER_GONE, THP_CALLER_IN_TRACE_STOP, THP_CALLER_IN_JOB_STOP, THP_NO_GROUPS, THP_NO_CHILD, THP_NO_CHILD_OF_NUMBER};
static const enum thp_condition ORDER_3[] = {THP_CALLER_GONE, THP_CALLER_IN_TRACE_STOP, THP_CALLER_IN_JOB_STOP, THP_NO_CHILD};
static const enum thp_condition ORDER_4[] = {THP_CALLER_GONE, THP_CALLER_IN_TRACE_STOP, THP_CALLER_IN_JOB_STOP, THP_NO_SIGNAL_TO_POST, THP_NO_GROUPS, THP_NO_OTHER_PROCESS, THP_PROCESS_GONE};
static const enum thp_condition ORDER_5[] = {THP_CALLER_GONE, THP_CALLER_IN_TRACE_STOP, THP_CALLER_IN_JOB_STOP, THP_NO_SIGNAL, THP_FIXED_SIGNAL};
static const enum thp_condition ORDER_6[] = {THP_CALLER_GONE, THP_CALLER_IN_TRACE_STOP, THP_CALLER_IN_JOB_STOP, THP_MOST_HANDLERS, THP_NO_MEMORY};
static const enum thp_condition ORDER_7[] = {THP_NO_NUMBER_OF_LWP, THP_LWP_GONE, THP_LWP_IN_TRACE_STOP, THP_LWP_IN_JOB_STOP, THP_LWP_SUSPENDED, THP_LWP_WAITS, THP_IN_NO_CALL, THP_IN_A_CALL, THP_NO_SIGNAL_TO_RAISE, THP_MOST_PROCESSES, THP_MOST_LWPS, THP_NO_MEMORY};
static const enum thp_condition ORDER_8[] = {THP_CALLER_GONE, THP_CALLER_IN_TRACE_STOP, THP_CALLER_IN_JOB_STOP, THP_CALLER_TRACED, THP_PARENT_IS_1, THP_TRACES_ITS_PARENT};
static const enum thp_condition ORDER_9[] = {THP_CALLER_GONE, THP_CALLER_IN_TRACE_STOP, THP_CALLER_IN_JOB_STOP, THP_TARGET_IS_0, THP_TARGET_PROCESS_GONE, THP_TARGET_LWP_GONE, THP_TARGET_ENDED, THP_TRACES_ITSELF, THP_TRACED_ALREADY, THP_TRACES_THE_CALLER};
static const enum thp_condition ORDER_10[] = {THP_CALLER_GONE, THP_CALLER_IN_TRACE_STOP, THP_CALLER_IN_JOB_STOP, THP_TARGET_IS_0, THP_TARGET_PROCESS_GONE, THP_TARGET_LWP_GONE, THP_TARGET_ENDED, THP_NOT_TRACED, THP_TRACED_BY_ANOTHER, THP_IN_NO_STOP, THP_STOP_NOT_TOLD, THP_NO_SIGNAL_TO_PASS, THP_NO_COUNT, THP_UNNAMED_EVENTS, THP_NO_MEMORY};
static const struct call ASKED_CALLS[] = {
    {THP_SPAWN, -1, "spawn() by user {user}", ORDER_0, COUNT(ORDER_0)},
    {THP_LIST, -1, "list() by {caller}", ORDER_1, COUNT(ORDER_1)},
    {THP_WAIT4, -1, "wait4({which}) by {caller}", ORDER_2, COUNT(ORDER_2)},
    {THP_HANDLE, -1, "handle() by {caller}", ORDER_3, COUNT(ORDER_3)},
    {THP_KILL, -1, "kill({which}, {signal}) by {caller}", ORDER_4, COUNT(ORDER_4)},
    {THP_SIGACTION, -1, "sigaction({signal}, {action}) by {caller}", ORDER_5, COUNT(ORDER_5)},
    {THP_INSTALL, -1, "install({rules}) by {caller}", ORDER_6, COUNT(ORDER_6)},
    {THP_TURN, -1, "turn({lwp}, {act}) by user {user}", ORDER_7, COUNT(ORDER_7)},
    {THP_PTRACE, 0, "ptrace(PT_TRACE_ME) by {caller}", ORDER_8, COUNT(ORDER_8)},
    {THP_PTRACE, 10, "ptrace({request}, {target}{data}) by {caller}", ORDER_9, COUNT(ORDER_9)},
    {THP_PTRACE, -1, "ptrace({request}, {target}{data}) by {caller}", ORDER_10, COUNT(ORDER_10)},
};
/* clang-format on */
/* end */

static struct thp_asked asked_of(const struct thp_step *step)
{
    struct thp_asked a = {.user = step->user,
        .caller = (uint32_t)step->caller,
        .which = step->op == THP_WAIT4 || step->op == THP_KILL ? step->target : -1,
        .lwp = (uint32_t)step->lwp,
        .signal = step->op == THP_PTRACE ? (int32_t)step->data : step->signal,
        .act = (int64_t)step->act,
        .action = step->action,
        .request = -1};
    if (step->op == THP_PTRACE) {
        a.request = step->request;
        a.target = (uint32_t)step->target;
        a.data = step->data;
        a.unnamed = a.data & ~(int64_t)thp_all_of(&thp_events);
    }
    return a;
}

/* ---------------------------------------------------------------- a call in words */

static void write_signal(char *text, size_t size, int64_t number)
{
    const char *name = number == (int)number ? th_signame((int)number) : NULL;
    if (name != NULL)
        snprintf(text, size, "%s", name);
    else
        snprintf(text, size, "%" PRId64, number);
}

static void write_act(char *text, size_t size, const struct thp_step *step)
{
    static const char *const acts[] = {"compute", "raise ", "block", "enter ", "leave"};
    size_t length = strlen(acts[step->act]);
    snprintf(text, size, "%s", acts[step->act]);
    if (step->act == THP_RAISE)
        write_signal(text + length, size - length, step->signal);
    else if (step->act == THP_ENTER)
        snprintf(text + length, size - length, "%s", thp_name_of(&thp_calls, step->call));
}

/* the data of a request, with a comma before it; nothing if it is 0, or has no use */
static void write_data(char *text, size_t size, const struct thp_asked *a)
{
    text[0] = '\0';
    if (a->data == 0 || !takes_data(a->request))
        return;
    snprintf(text, size, ", ");
    if (passes_signal(a->request))
        write_signal(text + 2, size - 2, a->signal);
    else
        snprintf(text + 2, size - 2, "%" PRId64, a->data);
}

/* the argument of this name, as a person writes it */
static void write_argument(char *text, size_t size, const char *name, const struct thp_step *step)
{
    const struct thp_asked a = asked_of(step);
    const struct {
        const char *name;
        int64_t value;
    } numbers[] = {{"user", a.user}, {"caller", a.caller}, {"target", a.target}, {"which", a.which}, {"lwp", a.lwp}};
    for (size_t i = 0; i < COUNT(numbers); i++)
        if (strcmp(name, numbers[i].name) == 0)
            snprintf(text, size, "%" PRId64, numbers[i].value);
    if (strcmp(name, "signal") == 0)
        write_signal(text, size, a.signal);
    else if (strcmp(name, "request") == 0)
        snprintf(text, size, "%s", thp_name_of(&thp_requests, step->request));
    else if (strcmp(name, "data") == 0)
        write_data(text, size, &a);
    else if (strcmp(name, "unnamed") == 0)
        snprintf(text, size, "0x%" PRIx64, (uint64_t)a.unnamed);
    else if (strcmp(name, "act") == 0)
        write_act(text, size, step);
    else if (strcmp(name, "action") == 0)
        snprintf(text, size, "%s", thp_name_of(&thp_actions, step->action));
    else if (strcmp(name, "rules") == 0)
        snprintf(text, size, "%zu %s", step->rule_count, step->rule_count == 1 ? "rule" : "rules");
}

/* Appends words, with arguments in place of their names in braces. */
static void append_words(char *text, size_t size, size_t *length, const char *words, const struct thp_step *step)
{
    char part[64], argument[64];
    while (*words != '\0') {
        size_t count = strcspn(words, *words == '{' ? "}" : "{");
        snprintf(part, sizeof part, "%.*s", (int)(count < sizeof part ? count : sizeof part - 1), words);
        if (*words == '{') {
            write_argument(argument, sizeof argument, part + 1, step);
            thp_append(text, size, length, argument);
            words += count + 1;
        } else {
            thp_append(text, size, length, part);
            words += strlen(part);
        }
    }
}

/* ---------------------------------------------------------------- the condition that held */

static const struct call *find_call(const struct thp_step *step)
{
    for (size_t i = 0; i < COUNT(ASKED_CALLS); i++)
        if (ASKED_CALLS[i].op == step->op && (ASKED_CALLS[i].request == -1 || ASKED_CALLS[i].request == step->request))
            return &ASKED_CALLS[i];
    return NULL;
}

/* The conditions of a call that give this answer, as far as the arguments say; how many. */
static size_t find_possible(const struct call *call, const char *answer, const struct thp_asked *a, enum thp_condition *found)
{
    size_t count = 0;
    for (size_t i = 0; i < call->count; i++)
        if (strcmp(CONDITIONS[call->order[i]].answer, answer) == 0 && is_possible(call->order[i], a))
            found[count++] = call->order[i];
    return count;
}

void thp_explain(th_host *h, const struct thp_step *step, int error, int has_rows, char *text, size_t size)
{
    const struct call *call = find_call(step);
    const struct thp_asked a = asked_of(step);
    const char *answer = error == TH_EHELD ? "held" : thp_error_name(error);
    enum thp_condition found[MOST_CONDITIONS];
    size_t length = 0, first = 0;
    text[0] = '\0';
    if (call == NULL || answer == NULL)
        return;
    size_t count = find_possible(call, answer, &a, found);
    if (count > 1 && has_rows) {
        int place = thp_first_that_holds(h, &a, found, count);
        if (place >= 0) {
            first = (size_t)place;
            count = first + 1;
        }
    }
    append_words(text, size, &length, call->text, step);
    thp_append(text, size, &length, ": ");
    thp_append(text, size, &length, answer);
    for (size_t i = first; i < count; i++) {
        thp_append(text, size, &length, i == first ? ", " : ", or ");
        append_words(text, size, &length, CONDITIONS[found[i]].words, step);
    }
}
