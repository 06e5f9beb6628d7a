/* Makes steps: the words of the model become calls of puppets, and the kernel's answers replies in the model's words. */
#include <errno.h>
#include <stdarg.h>
#include <stdlib.h>
#include <string.h>
#include <sys/wait.h>
#include <unistd.h>
#include "play.h"

struct reply {
    char *text;
    size_t size;
    const char *wanted; /* the model's reply */
    const struct course *course;
};

static long next_process[USERS], next_lwp[USERS];
static enum outcome entered[MOST_LWPS]; /* what became of the call that an LWP has entered */

void steps_begin(void)
{
    enum { PROCESSES = 1000, LWPS = 4000 };
    for (int user = 0; user < USERS; user++) {
        next_process[user] = PROCESSES + PROCESSES * user;
        next_lwp[user] = FIRST_LWP + LWPS * user;
    }
    memset(entered, 0, sizeof entered);
}

__attribute__((format(printf, 2, 3))) static enum made say(const struct reply *reply, const char *format, ...)
{
    va_list arguments;
    va_start(arguments, format);
    vsnprintf(reply->text, reply->size, format, arguments);
    va_end(arguments);
    return MADE;
}

static enum made cannot(const struct reply *reply, const char *why)
{
    say(reply, "%s", why);
    return NOT_TRIED;
}

static enum made refuse(const struct reply *reply, int error)
{
    error_reply(error, reply->text, reply->size);
    return MADE;
}

static bool wants(const struct reply *reply, const char *word) { return strncmp(reply->wanted, word, strlen(word)) == 0; }

/* The reply to a command that is done; an error, or `ok`. */
static enum made plain(const struct reply *reply, const struct answer *answer)
{
    return answer->error != 0 ? refuse(reply, answer->error) : say(reply, "ok");
}

/* An LWP that stops in a call: which stop it is, only its debugger can see. */
static enum made say_stopped(const struct reply *reply)
{
    return say(reply, "%s", wants(reply, "stopped ") ? reply->wanted : "stopped");
}

/* ---- who makes a step */

/* The caller's process; negative if the reply is given. */
static int caller_of(const struct line *line, const struct reply *reply)
{
    int process = cast_process(line->actor);
    enum state state = process < 0 || cast.process[process].user != line->user ? STATE_GONE : cast_state(process);
    if (state == STATE_GONE || state == STATE_ZOMBIE)
        refuse(reply, ESRCH);
    else if (is_stopped(state))
        say(reply, "held");
    else
        return process;
    return -1;
}

/* An LWP of the process that can make a call. */
static int free_lwp_of(int process)
{
    for (int lwp = 0; lwp < cast.lwps; lwp++)
        if (cast.lwp[lwp].process == process && !cast.lwp[lwp].gone && !cast.lwp[lwp].suspended && !cast_busy(lwp) &&
            cast_lwp_state(lwp) == STATE_RUNS)
            return lwp;
    return -1;
}

/* The LWP of a turn; negative if the reply is given. */
static int lwp_of(const struct line *line, const struct reply *reply)
{
    int lwp = cast_lwp(line->actor);
    int process = lwp < 0 ? -1 : cast.lwp[lwp].process;
    enum state state = lwp < 0 || cast.lwp[lwp].gone || cast.process[process].user != line->user ? STATE_GONE : cast_state(process);
    enum state own = state == STATE_GONE ? STATE_GONE : cast_lwp_state(lwp);
    bool waits = own != STATE_GONE && cast_waits_for_child(lwp);
    if (state == STATE_GONE || state == STATE_ZOMBIE || own == STATE_GONE || own == STATE_ZOMBIE)
        refuse(reply, ESRCH);
    else if (is_stopped(state) || is_stopped(own) || cast.lwp[lwp].suspended || waits)
        say(reply, "held");
    else
        return lwp;
    return -1;
}

/* Asks an LWP of the caller. False: the reply is given, and `made` says whether the call was made. */
static bool ask_caller(
    const struct line *line, const struct command *command, const struct reply *reply, struct answer *answer, enum made *made)
{
    int process = caller_of(line, reply), lwp = process < 0 ? -1 : free_lwp_of(process);
    *made = MADE;
    if (process >= 0 && lwp < 0)
        *made = cannot(reply, "no LWP of the process can make a call");
    if (lwp < 0)
        return false;
    enum outcome outcome = cast_ask(lwp, command);
    *answer = stage->slots[lwp].answer;
    if (outcome != OUT_DONE)
        say(reply, outcome == OUT_HELD ? "held" : "ok");
    return outcome == OUT_DONE;
}

/* ---- steps with a caller */

static enum made make_spawn(const struct line *line, const struct reply *reply)
{
    long user = line->user - FIRST_USER;
    if (!wants(reply, "new "))
        return cannot(reply, "the model's limits aren't the kernel's");
    if (user > 0 && native_user(line->user) == native_user(FIRST_USER))
        return cannot(reply, "several users: only the super-user can play them");
    int lwp = cast_add_lwp(next_lwp[user]++, cast_add_process(next_process[user]++, line->user));
    cast_spawn(lwp, line->user);
    return say(reply, "new %ld %ld", next_process[user] - 1, next_lwp[user] - 1);
}

static enum made make_wait4(const struct line *line, const struct reply *reply)
{
    struct answer answer;
    enum made made;
    struct command command = {.act = ACT_WAIT4, .number = -1};
    for (int i = 0; i < line->count; i++) {
        const char *word = line->words[i];
        if (strcmp(word, "WUNTRACED") == 0)
            command.option |= WUNTRACED;
        else if (strcmp(word, "WCONTINUED") == 0)
            command.option |= WCONTINUED;
        else if (strcmp(word, "WNOHANG") != 0)
            command.number = native_process(atol(word));
    }
    if (!ask_caller(line, &command, reply, &answer, &made))
        return made;
    if (answer.error != 0)
        return refuse(reply, answer.error);
    if (answer.result == 0)
        return say(reply, "nothing");
    return say(reply, "status %ld %ld", model_process((pid_t)answer.result), model_status(answer.status));
}

static bool names_process_1(const char *word) { return atol(word) == 1 && geteuid() != 0; }

static enum made make_kill(const struct line *line, const struct reply *reply)
{
    struct answer answer;
    enum made made;
    long number = atol(line->words[0]);
    struct command command = {.act = ACT_KILL, .signal = native_signal(signal_of_word(line->words[1]))};
    if (command.signal < 0)
        return cannot(reply, "the kernel has no such signal");
    if (names_process_1(line->words[0]))
        return cannot(reply, "process 1 is the player, of the same user");
    if (number == -1 && (!private_numbers || getpid() != 1))
        return cannot(reply, "a signal to all may reach others' processes");
    command.number = native_process(number);
    if (!ask_caller(line, &command, reply, &answer, &made))
        return made;
    return plain(reply, &answer);
}

static enum made make_sigaction(const struct line *line, const struct reply *reply)
{
    struct answer answer;
    enum made made;
    const char *action = line->words[1];
    struct command command = {.act = ACT_SIGACTION, .signal = native_signal(signal_of_word(line->words[0]))};
    command.option = strcmp(action, "ignore") == 0 ? ACTION_IGNORE : strcmp(action, "catch") == 0 ? ACTION_CATCH : ACTION_DEFAULT;
    if (command.signal < 0)
        return cannot(reply, "the kernel has no such signal");
    if (!ask_caller(line, &command, reply, &answer, &made))
        return made;
    return plain(reply, &answer);
}

static int rising(const void *a, const void *b)
{
    const long *first = a, *second = b;
    return (*first > *second) - (*first < *second);
}

/* What the kernel shows of the user's processes. */
static enum made make_list(const struct line *line, const struct reply *reply)
{
    pid_t found[MOST_LWPS];
    long numbers[MOST_LWPS];
    if (caller_of(line, reply) < 0)
        return MADE;
    int count = system_list(native_user(line->user), found, MOST_LWPS), known = 0;
    for (int i = 0; i < count; i++)
        if (found[i] != getpid() && model_process(found[i]) > 0)
            numbers[known++] = model_process(found[i]);
    qsort(numbers, (size_t)known, sizeof *numbers, rising);
    size_t used = (size_t)snprintf(reply->text, reply->size, "pids");
    for (int i = 0; i < known && used < reply->size; i++)
        used += (size_t)snprintf(reply->text + used, reply->size - used, " %ld", numbers[i]);
    return MADE;
}

/* The data of a request: a signal, a count or a switch, or the events of a mask. */
static void read_data(const struct line *line, struct command *command)
{
    static const char *const plain[] = {"PT_GETLWPLIST", "PT_FOLLOW_FORK", "PT_LWP_EVENTS"};
    const char *request = line->words[0];
    command->signal = line->count > 2 ? native_signal(signal_of_word(line->words[2])) : 0;
    for (size_t i = 0; i < sizeof plain / sizeof *plain; i++)
        if (strcmp(request, plain[i]) == 0)
            command->signal = line->count > 2 ? (int)atol(line->words[2]) : 0;
    if (strcmp(request, "PT_SET_EVENT_MASK") != 0)
        return;
    command->signal = 0;
    for (int i = 2; i < line->count; i++)
        command->set |= event_of_word(line->words[i]);
}

/* Which LWP a request means that names a process: the one that has reported the stop. */
static int lwp_meant(long target)
{
    char reporting[32];
    if (target >= FIRST_LWP)
        return cast_lwp(target);
    rows_field(false, false, target, "lwp", reporting, sizeof reporting);
    return cast_lwp(atol(reporting));
}

/* A suspended LWP isn't waited for. */
static void note_suspension(const struct line *line)
{
    const char *request = line->words[0];
    int lwp = lwp_meant(line->count > 1 ? atol(line->words[1]) : 0);
    if (lwp >= 0 && (strcmp(request, "PT_SUSPEND") == 0 || strcmp(request, "PT_RESUME") == 0))
        cast.lwp[lwp].suspended = strcmp(request, "PT_SUSPEND") == 0;
}

static enum made say_info(const struct reply *reply, const struct lwp_info *info)
{
    char flags[128], blocked[128], pending[128];
    flags_text(info->reports ? info->flags : 0, flags, sizeof flags);
    signals_text(info->blocked, "none", blocked, sizeof blocked);
    signals_text(info->pending, "none", pending, sizeof pending);
    return say(reply, "info %ld %s flags=%s mask=%s pending=%s child=%ld code=%u", model_lwp(info->lwp),
        info->reports ? "SIGNAL" : "NONE", flags, blocked, pending,
        info->reports && info->child != 0 ? model_process(info->child) : 0, info->reports ? info->code : 0);
}

static enum made say_answer(const struct line *line, const struct reply *reply, const struct answer *answer)
{
    const char *request = line->words[0];
    char events[128];
    if (strcmp(request, "PT_LWPINFO") == 0)
        return say_info(reply, &answer->info);
    if (strcmp(request, "PT_GETNUMLWPS") == 0)
        return say(reply, "number %ld", answer->result);
    if (strcmp(request, "PT_GET_EVENT_MASK") == 0) {
        events_text((unsigned)answer->status, events, sizeof events);
        return say(reply, "mask %s", events);
    }
    if (strcmp(request, "PT_GETLWPLIST") != 0)
        return say(reply, "ok");
    size_t used = (size_t)snprintf(reply->text, reply->size, "lwps");
    for (long i = 0; i < answer->result && i < MOST_LWPS && used < reply->size; i++)
        used += (size_t)snprintf(reply->text + used, reply->size - used, " %ld", model_lwp(answer->lwps[i]));
    return MADE;
}

static enum made make_ptrace(const struct line *line, const struct reply *reply)
{
    struct answer answer;
    enum made made;
    struct command command = {.act = ACT_PTRACE};
    const char *request = line->words[0];
    if (!system_has_request(request, &command.option))
        return cannot(reply, "the kernel has no such request");
    if (line->count > 1 && names_process_1(line->words[1]))
        return cannot(reply, "process 1 is the player, of the same user");
    command.number = line->count > 1 ? native_target(atol(line->words[1])) : 0;
    read_data(line, &command);
    if (command.signal < 0)
        return cannot(reply, "the kernel has no such signal");
    if (!ask_caller(line, &command, reply, &answer, &made))
        return made;
    if (answer.error != 0)
        return refuse(reply, answer.error);
    note_suspension(line);
    return say_answer(line, reply, &answer);
}

/* ---- turns */

static enum made make_raise(int lwp, const struct line *line, const struct reply *reply)
{
    long number = signal_of_word(line->words[1]);
    struct command command = {.act = ACT_RAISE, .signal = native_signal(number)};
    if (command.signal < 0)
        return cannot(reply, "the kernel has no such signal");
    enum outcome outcome = cast_ask(lwp, &command);
    if (outcome == OUT_DONE)
        return plain(reply, &stage->slots[lwp].answer);
    bool ended = outcome == OUT_GONE && strcmp(line->words[1], "9") == 0;
    return say(reply, ended ? "ended 9" : outcome == OUT_HELD ? "held" : "ok");
}

static enum made make_block(int lwp, const struct line *line, const struct reply *reply)
{
    struct command command = {.act = ACT_BLOCK};
    for (int i = 1; i < line->count; i++) {
        long number = signal_of_word(line->words[i]);
        if (number > 0 && number < MODEL_SIGNALS)
            command.set |= 1U << number;
    }
    enum outcome outcome = cast_ask(lwp, &command);
    if (outcome == OUT_DONE)
        return plain(reply, &stage->slots[lwp].answer);
    return say(reply, outcome == OUT_HELD ? "held" : "ok");
}

static enum act call_of(const char *name)
{
    static const struct {
        const char *name;
        enum act act;
    } calls[] = {{"fork", ACT_FORK}, {"vfork", ACT_VFORK}, {"exec", ACT_EXEC}, {"exit", ACT_EXIT}, {"thr_new", ACT_THR_NEW},
        {"thr_exit", ACT_THR_EXIT}, {"other", ACT_OTHER}};
    for (size_t i = 0; i < sizeof calls / sizeof *calls; i++)
        if (strcmp(calls[i].name, name) == 0)
            return calls[i].act;
    return ACT_NONE;
}

/* A slot for the LWP that the call makes. It has no number until it is born. */
static int slot_of_child(int lwp, enum act act)
{
    int process = cast.lwp[lwp].process;
    if (act == ACT_FORK || act == ACT_VFORK)
        process = cast_add_process(0, cast.process[process].user);
    int child = cast_add_lwp(0, process);
    cast.lwp[child].gone = true;
    return child;
}

/* The kernel makes the whole call. Its result is looked at when the model's LWP leaves it. */
static enum made make_enter(int lwp, const struct line *line, const struct reply *reply)
{
    struct command command = {.act = line->count > 1 ? call_of(line->words[1]) : ACT_NONE};
    command.number = line->count > 2 ? atol(line->words[2]) : 0;
    if (command.act == ACT_NONE || (command.act == ACT_OTHER && !system_has_other(command.number)))
        return cannot(reply, "no such call");
    if (cast_busy(lwp))
        return cannot(reply, "an LWP in a call makes no other one");
    if (command.act == ACT_FORK || command.act == ACT_VFORK || command.act == ACT_THR_NEW)
        command.child = slot_of_child(lwp, command.act);
    entered[lwp] = cast_ask(lwp, &command);
    if (entered[lwp] == OUT_HELD)
        return say(reply, "held");
    return entered[lwp] == OUT_STOPPED && wants(reply, "stopped ") ? say_stopped(reply) : say(reply, "ok");
}

/* Numbers rise by one. */
static void give_numbers(int lwp, enum act act)
{
    struct cast_process *process = &cast.process[cast.lwp[lwp].process];
    if (act != ACT_THR_NEW)
        process->number = next_process[process->user - FIRST_USER]++;
    cast.lwp[lwp].number = next_lwp[process->user - FIRST_USER]++;
    cast.lwp[lwp].gone = false;
}

/* Whether the LWP has made another one, whose stop keeps it in the call. */
static bool bears(int lwp)
{
    const struct slot *slot = &stage->slots[lwp];
    return slot->command.act == ACT_THR_NEW &&
           system_find_newborn(&stage->slots[slot->command.child], atomic_load(&slot->process), true);
}

static enum made leave_birth(int lwp, enum outcome outcome, const struct reply *reply)
{
    struct slot *slot = &stage->slots[lwp];
    int child = slot->command.child;
    if (outcome == OUT_DONE && slot->answer.error != 0) {
        if (!wants(reply, "error "))
            fault("the host refuses a new process or thread: %s", strerror(slot->answer.error));
        return refuse(reply, slot->answer.error);
    }
    /* by the new LWP, or once the call was done */
    bool born_stopped = outcome == OUT_STOPPED && wants(reply, "new ") && (reply->course->stops_again || bears(lwp));
    if (outcome != OUT_GONE && (outcome != OUT_STOPPED || born_stopped || strstr(reply->wanted, "PL_FLAG_SCX") != NULL)) {
        cast_await_newborn(child, lwp);
        give_numbers(child, slot->command.act);
    }
    if (outcome == OUT_STOPPED && !born_stopped)
        return say_stopped(reply);
    return say(reply, "new %ld %ld", cast.process[cast.lwp[child].process].number, cast.lwp[child].number);
}

static enum made make_leave(int lwp, const struct reply *reply)
{
    struct slot *slot = &stage->slots[lwp];
    const struct command *command = &slot->command;
    enum outcome outcome = entered[lwp];
    if (outcome == OUT_NONE || outcome == OUT_HELD)
        return cannot(reply, "the LWP is in no call");
    if (outcome == OUT_STOPPED)
        outcome = cast_await(lwp);
    bool in_call = outcome == OUT_STOPPED && wants(reply, "stopped ") && strstr(reply->wanted, "PL_FLAG_SCX") == NULL;
    entered[lwp] = in_call ? OUT_STOPPED : OUT_NONE;
    if (command->act == ACT_FORK || command->act == ACT_VFORK || command->act == ACT_THR_NEW)
        return leave_birth(lwp, outcome, reply);
    if (outcome == OUT_STOPPED) /* before it could say that the call is done, as after PT_STEP */
        return reply->course->stops_again && wants(reply, "ok") ? say(reply, "ok") : say_stopped(reply);
    if (outcome == OUT_DONE && command->act == ACT_EXEC && slot->answer.error != 0 && !wants(reply, "error "))
        fault("the host refuses a new image: %s", strerror(slot->answer.error));
    if (outcome == OUT_DONE)
        return plain(reply, &slot->answer);
    if (command->act == ACT_EXIT)
        return say(reply, "ended %ld", command->number * 256);
    enum state state = cast_state(cast.lwp[lwp].process);
    return say(reply, state == STATE_GONE || state == STATE_ZOMBIE ? "ended 0" : "ok");
}

/* Whether the LWP is in a call whose end is to be looked at: it is through, has ended in it, waits for its vfork child, goes on, has
 * stopped at its exit, or behind it. */
static bool leaves(int lwp, const struct reply *reply)
{
    if (entered[lwp] == OUT_GONE || entered[lwp] == OUT_BORN || entered[lwp] == OUT_DONE)
        return true;
    return entered[lwp] == OUT_STOPPED && !cast.lwp[lwp].gone &&
           (wants(reply, "stopped ") || bears(lwp) || reply->course->settles || !is_stopped(cast_state(cast.lwp[lwp].process)));
}

static enum made make_turn(const struct line *line, const struct reply *reply)
{
    const char *act = line->words[0];
    if (strcmp(act, "compute") == 0)
        return say(reply, "%s", reply->wanted);
    if (wants(reply, "caught "))
        return cannot(reply, "the LWP has a signal to meet: the session isn't settled");
    /* what an LWP that has ended has begun is told as well */
    int known = cast_lwp(line->actor);
    if (strcmp(act, "leave") == 0 && known >= 0 && leaves(known, reply))
        return make_leave(known, reply);
    int lwp = lwp_of(line, reply);
    if (lwp < 0)
        return MADE;
    if (strcmp(act, "raise") == 0 && line->count > 1)
        return make_raise(lwp, line, reply);
    if (strcmp(act, "block") == 0)
        return make_block(lwp, line, reply);
    if (strcmp(act, "enter") == 0)
        return make_enter(lwp, line, reply);
    if (strcmp(act, "leave") == 0)
        return make_leave(lwp, reply);
    return cannot(reply, "no such act");
}

static enum made make_none(const struct line *line, const struct reply *reply)
{
    (void)line;
    return cannot(reply, "stop handlers aren't the kernel's");
}

enum made step_make(const struct line *line, const struct course *course, char *text, size_t size)
{
    static enum made (*const makers[])(const struct line *, const struct reply *) = {[OP_SPAWN] = make_spawn,
        [OP_PTRACE] = make_ptrace,
        [OP_WAIT4] = make_wait4,
        [OP_KILL] = make_kill,
        [OP_SIGACTION] = make_sigaction,
        [OP_LIST] = make_list,
        [OP_INSTALL] = make_none,
        [OP_HANDLE] = make_none,
        [OP_TURN] = make_turn};
    struct reply reply = {.text = text, .size = size, .wanted = line->reply, .course = course};
    if (cast.lwps >= MOST_LWPS - 1)
        return cannot(&reply, "more LWPs than there is room for");
    return makers[line->op](line, &reply);
}
