/* The cast of a session: its processes and LWPs, asking them, and waiting until the kernel has nothing left to do. */
#include <errno.h>
#include <sched.h>
#include <signal.h>
#include <string.h>
#include <sys/wait.h>
#include <unistd.h>
#include "play.h"

enum { FIRST_NATIVE_USER = 60000, UNUSED_PROCESS = 99998, UNUSED_LWP = 2000000000 };

struct cast cast;
double time_limit = 20;

/* ---- numbers */

int cast_process(long number)
{
    for (int i = cast.processes - 1; i >= 0; i--)
        if (cast.process[i].number == number)
            return i;
    return -1;
}

int cast_lwp(long number)
{
    for (int i = cast.lwps - 1; i >= 0; i--)
        if (cast.lwp[i].number == number)
            return i;
    return -1;
}

int cast_add_process(long number, long user)
{
    cast.process[cast.processes] = (struct cast_process){.number = number, .user = user};
    return cast.processes++;
}

int cast_add_lwp(long number, int process)
{
    cast.lwp[cast.lwps] = (struct cast_lwp){.number = number, .process = process};
    return cast.lwps++;
}

/* Of the puppets. */
static pid_t process_1(void) { return system_is_reaper ? getpid() : 1; }

static bool is_used(pid_t number) { return kill(number, 0) == 0 || errno == EPERM; }

static pid_t unused_process(void)
{
    pid_t number = UNUSED_PROCESS;
    while (is_used(number))
        number--;
    return number;
}

pid_t native_process(long number)
{
    int process = cast_process(number);
    if (number == 0 || number == -1)
        return (pid_t)number;
    if (number < -1)
        return -unused_process();
    if (number == 1)
        return process_1();
    if (number >= FIRST_LWP)
        return (pid_t)native_target(number);
    if (process < 0 || (cast.process[process].gone && is_used(cast.process[process].native)))
        return unused_process();
    return cast.process[process].native;
}

long native_target(long number)
{
    int lwp = cast_lwp(number);
    if (number < FIRST_LWP)
        return native_process(number);
    return lwp < 0 || cast.lwp[lwp].gone ? UNUSED_LWP : atomic_load(&stage->slots[lwp].lwp);
}

/* A process of the kernel in the model's numbers; 0 for none of the session's. */
long model_process(pid_t native)
{
    if (native == process_1())
        return 1;
    for (int i = cast.processes - 1; i >= 0; i--)
        if (cast.process[i].native == native)
            return cast.process[i].number;
    return 0;
}

long model_lwp(long native)
{
    for (int i = cast.lwps - 1; i >= 0; i--)
        if (atomic_load(&stage->slots[i].lwp) == native)
            return cast.lwp[i].number;
    return 0;
}

/* The super-user plays each user of the model by another one of the kernel, anybody else one user by themselves. */
static bool plays_users(void) { return system_has_users && geteuid() == 0; }

/* Users of the system in place of the model's. If others can be met, players that run side by side take others. */
static long first_native_user(void)
{
    enum { BLOCKS = 62 };
    static long first;
    if (first == 0)
        first = FIRST_NATIVE_USER + (private_numbers ? 0 : USERS * (1 + getpid() % BLOCKS));
    return first;
}

long native_user(long user) { return plays_users() ? first_native_user() + user - FIRST_USER : (long)geteuid(); }

long model_user(long native)
{
    if (plays_users())
        return native - first_native_user() + FIRST_USER;
    return native == (long)geteuid() ? FIRST_USER : 0;
}

/* ---- waiting */

struct wait {
    unsigned rounds;
    double end;
};

static const char *state_word(enum state state)
{
    static const char *const words[] = {"gone", "runs", "waits", "job_stop", "trace_stop", "zombie"};
    return words[state];
}

/* Lets others go on. After the time limit the LWP hangs. */
static void give_way(struct wait *wait, int lwp)
{
    enum { ROUNDS = 256 };
    sched_yield();
    if (++wait->rounds % ROUNDS != 0)
        return;
    if (atomic_load(&stage->interrupted) != 0)
        fault("ended by signal %d", atomic_load(&stage->interrupted));
    if (wait->end == 0)
        wait->end = seconds_now() + time_limit;
    bool over = system_most_rounds != 0 ? wait->rounds >= system_most_rounds : seconds_now() >= wait->end;
    if (!over)
        return;
    const struct slot *slot = &stage->slots[lwp];
    int process = atomic_load(&slot->process);
    long native = atomic_load(&slot->lwp);
    fault("LWP %ld hangs: it does nothing for too long; the kernel says that thread %ld of process %d is `%s`",
        cast.lwp[lwp].number, native, process, state_word(system_lwp_state(process, native)));
}

enum state cast_lwp_state(int lwp)
{
    const struct slot *slot = &stage->slots[lwp];
    return system_lwp_state(atomic_load(&slot->process), atomic_load(&slot->lwp));
}

bool cast_busy(int lwp)
{
    const struct slot *slot = &stage->slots[lwp];
    return atomic_load(&slot->asked) != atomic_load(&slot->done);
}

enum state cast_state(int process)
{
    struct process_facts facts;
    struct cast_process *row = &cast.process[process];
    bool is_born = row->native != 0; /* else it is a child of a call that stops at its entry */
    row->gone = row->gone || (is_born && !system_process(row->native, &facts));
    return row->gone || !is_born ? STATE_GONE : facts.state;
}

/* A new LWP has begun to live; the one that made it is negative for the player. */
void cast_await_newborn(int lwp, int maker)
{
    struct wait wait = {0};
    struct slot *slot = &stage->slots[lwp];
    bool is_thread = maker >= 0 && stage->slots[maker].command.act == ACT_THR_NEW;
    pid_t parent = maker < 0 ? process_1() : atomic_load(&stage->slots[maker].process);
    while (!system_find_newborn(slot, parent, is_thread))
        give_way(&wait, lwp);
    cast.process[cast.lwp[lwp].process].native = atomic_load(&slot->process);
}

enum outcome cast_await(int lwp)
{
    enum { LOOK = 4 };
    struct wait wait = {0};
    struct slot *slot = &stage->slots[lwp];
    unsigned number = atomic_load(&slot->asked);
    while (atomic_load(&slot->done) != number) {
        give_way(&wait, lwp);
        if (wait.rounds % LOOK != 0)
            continue;
        enum state state = cast_lwp_state(lwp);
        if (state == STATE_WAITS && slot->command.act == ACT_VFORK &&
            system_find_newborn(&stage->slots[slot->command.child], atomic_load(&slot->process), false))
            return OUT_BORN;
        if (state == STATE_GONE || state == STATE_ZOMBIE) {
            if (slot->command.act != ACT_EXEC || cast_state(cast.lwp[lwp].process) != STATE_RUNS)
                return OUT_GONE;
        } else if (is_stopped(state) && atomic_load(&slot->done) != number) {
            if (atomic_load(&slot->begun) == number)
                return OUT_STOPPED;
            atomic_store(&slot->asked, atomic_load(&slot->begun));
            return OUT_HELD;
        }
    }
    return OUT_DONE;
}

enum outcome cast_ask(int lwp, const struct command *command)
{
    struct slot *slot = &stage->slots[lwp];
    slot->command = *command;
    slot->answer = (struct answer){0};
    atomic_fetch_add(&slot->asked, 1);
    return cast_await(lwp);
}

/* Without private numbers a signal to all of a user, and the host's limits, concern whoever else is that user. */
static void claim_user(long user)
{
    pid_t found[MOST_LWPS];
    if (private_numbers || !plays_users())
        return;
    for (int i = 0; i < cast.processes; i++)
        if (cast.process[i].user == user && cast.process[i].native != 0)
            return;
    if (system_list(native_user(user), found, MOST_LWPS) > 0)
        fault("user %ld of the system has processes of their own", native_user(user));
}

/* Makes the first LWP of a new process: a child of the player, or of process 1 if that is another one. */
void cast_spawn(int lwp, long user)
{
    claim_user(user);
    pid_t child = fork();
    if (child < 0)
        fault("the host refuses a new process: %s", strerror(errno));
    if (child == 0) {
        pid_t own = system_is_reaper ? 0 : fork();
        if (own != 0)
            _exit(own < 0);
        signal(SIGPIPE, SIG_DFL);
        signal(SIGXFSZ, SIG_DFL);
        signal(SIGTERM, SIG_DFL);
        system_become(plays_users() ? native_user(user) : -1);
        for (int descriptor = 0; descriptor < STAGE_DESCRIPTOR; descriptor++)
            close(descriptor);
        closefrom(IMAGE_DESCRIPTOR + 1);
        if (system_spawns_image && plays_users())
            _exit(puppet_become_image(lwp) < 0);
        puppet_begin(lwp);
    }
    int status = 0;
    if (!system_is_reaper && (waitpid(child, &status, 0) != child || status != 0))
        fault("the host refuses a new process");
    cast_await_newborn(lwp, -1);
}

/* ---- settling */

/* Process 1 collects its ended children at once. */
void cast_collect(void)
{
    while (system_is_reaper && waitpid(-1, NULL, WNOHANG) > 0)
        ;
}

/* Whether it is in vfork(2), and the child has neither ended nor become another image. */
bool cast_waits_for_child(int lwp)
{
    const struct command *command = &stage->slots[lwp].command;
    if (!cast_busy(lwp) || command->act != ACT_VFORK)
        return false;
    int process = cast.lwp[command->child].process;
    enum state state = cast_state(process);
    for (int i = 0; i < cast.lwps; i++)
        if (cast.lwp[i].process == process && atomic_load(&stage->slots[i].is_image))
            return false;
    return state != STATE_GONE && state != STATE_ZOMBIE;
}

/* The end of tracing lifts suspensions, whether the debugger detaches or ends. */
static void lift_suspension(int lwp)
{
    struct process_facts facts;
    if (cast.lwp[lwp].suspended && system_process(cast.process[cast.lwp[lwp].process].native, &facts))
        cast.lwp[lwp].suspended = facts.tracer != 0;
}

/* Until the LWP has gone through user mode, or doesn't run. */
static enum state settle_lwp(int lwp)
{
    enum { LOOK = 4, BEATS = 2 };
    struct wait wait = {0};
    const struct slot *slot = &stage->slots[lwp];
    unsigned long first = atomic_load(&slot->beat);
    while (atomic_load(&slot->beat) - first < BEATS) {
        give_way(&wait, lwp);
        if (wait.rounds % LOOK != 0)
            continue;
        enum state state = cast_lwp_state(lwp);
        if (state == STATE_WAITS && cast_waits_for_child(lwp))
            return state;
        if (state != STATE_RUNS && state != STATE_WAITS)
            return state;
        if (cast.lwp[lwp].suspended)
            return state;
    }
    return STATE_RUNS;
}

/* A number that differs if anything has changed. */
static unsigned long settle_once(void)
{
    unsigned long changes = 1;
    for (int i = 0; i < cast.lwps; i++) {
        if (cast.lwp[i].gone)
            continue;
        lift_suspension(i);
        enum state state = settle_lwp(i);
        cast_collect();
        cast.lwp[i].gone = state == STATE_GONE;
        changes = changes * 31 + (unsigned long)state;
        for (int number = 1; number < MODEL_SIGNALS; number++)
            changes = changes * 31 + atomic_load(&stage->slots[i].caught[number]);
    }
    return changes;
}

/* What has happened to one LWP may concern another, so until a round has changed nothing. */
void cast_settle(void)
{
    unsigned long before = 0;
    for (unsigned long after; (after = settle_once()) != before;)
        before = after;
}

/* ---- the end of a session */

void cast_clear(void)
{
    enum { ROUNDS = 64 };
    struct wait wait = {0};
    atomic_fetch_add(&stage->session, 1); /* a child that isn't known yet sees it */
    for (int i = 0; i < ROUNDS && !system_is_reaper; i++)
        sched_yield();
    for (;;) {
        system_kill_all();
        pid_t ended = waitpid(-1, NULL, WNOHANG);
        if (ended < 0 && errno == ECHILD)
            break;
        if (ended == 0)
            give_way(&wait, 0);
    }
    for (int i = 0; i < cast.lwps; i++)
        memset(&stage->slots[i], 0, sizeof stage->slots[i]);
    cast = (struct cast){0};
    atomic_store(&stage->silent, false);
}
