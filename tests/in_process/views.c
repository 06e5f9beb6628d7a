/* The fields of a view's rows, each with the values that docs/FORMAT.md and docs/internals/MACHINE.md give the steps before. */
#include "check.h"

enum { DEBUGGER = 1000, FIRST = 100000, RUNS = 0, TRACE_STOP = 1, JOB_STOP = 2, ZOMBIE = 3 };
enum { SIGKILL_ = 9, SIGTERM_ = 15, SIGSTOP_ = 17, SIGCONT_ = 19, SIGTRAP_ = 5, SIGUSR1_ = 30 };
enum { IN_CALL = 1, WAITS = 2, BORN = 1, BEGUN = 2, VFORK_DONE = 3 };
#define SET(signal) (UINT32_C(1) << ((signal) - 1))

static tracehost h = TRACEHOST_CLOSED;
static tracehost_reply reply;
static tracehost_process processes[8];
static tracehost_lwp lwps[8];
static size_t counts[2];

#define ANSWERS(wanted, call) CHECK((call) == TRACEHOST_ANSWERED && reply.kind == TRACEHOST_##wanted)
#define TRACE(wanted, request, data) \
    ANSWERS(wanted, tracehost_ptrace(&h, 1001, DEBUGGER, TRACEHOST_PT_##request, 1001, data, &reply))
#define TURN(wanted, lwp, act, argument) ANSWERS(wanted, tracehost_turn(&h, 1001, lwp, TRACEHOST_##act, 0, argument, &reply))
#define ENTER(lwp, call, argument) \
    ANSWERS(OK, tracehost_turn(&h, 1001, lwp, TRACEHOST_ENTER, TRACEHOST_##call, argument, &reply))
#define WAIT(wanted, options) ANSWERS(wanted, tracehost_wait4(&h, 1001, DEBUGGER, 1001, options, &reply))
#define SIGNAL(signal) ANSWERS(OK, tracehost_kill(&h, 1001, DEBUGGER, 1001, signal, &reply))

/* What the rows are at this place: of a process, and of an LWP. A field that isn't named is 0. */
#define IS_PROCESS(place, ...)                                                                                  \
    do {                                                                                                        \
        const tracehost_process wanted = {__VA_ARGS__};                                                         \
        CHECK(tracehost_view(&h, 1001, processes, 8, lwps, 8, &counts[0], &counts[1]) == TRACEHOST_ANSWERED);   \
        CHECK(counts[0] > (place) && memcmp(&processes[place], &wanted, sizeof wanted) == 0);                   \
    } while (0)
#define IS_LWP(place, ...)                                                                                      \
    do {                                                                                                        \
        const tracehost_lwp wanted = {__VA_ARGS__};                                                             \
        CHECK(tracehost_view(&h, 1001, processes, 8, lwps, 8, &counts[0], &counts[1]) == TRACEHOST_ANSWERED);   \
        CHECK(counts[1] > (place) && memcmp(&lwps[place], &wanted, sizeof wanted) == 0);                        \
    } while (0)

/* The debugger makes its target by a fork. */
static void a_fork(void)
{
    ANSWERS(NEW, tracehost_spawn(&h, 1001, &reply));
    IS_PROCESS(0, .pid = DEBUGGER, .parent = 1);
    IS_LWP(0, .lwp = FIRST, .pid = DEBUGGER);
    ENTER(FIRST, FORK, 0);
    IS_LWP(0, .lwp = FIRST, .pid = DEBUGGER, .mode = IN_CALL, .call = TRACEHOST_FORK);
    TURN(NEW, FIRST, LEAVE_CALL, 0);
    IS_PROCESS(1, .pid = 1001, .parent = DEBUGGER);
    IS_LWP(1, .lwp = FIRST + 1, .pid = 1001);
    CHECK(counts[0] == 2 && counts[1] == 2);
}

static void job_control(void)
{
    SIGNAL(SIGSTOP_);
    IS_PROCESS(1, .pid = 1001, .parent = DEBUGGER, .pending = SET(SIGSTOP_));
    TURN(STOPPED, FIRST + 1, COMPUTE, 0);
    IS_PROCESS(1, .pid = 1001, .parent = DEBUGGER, .state = JOB_STOP, .signal = SIGSTOP_);
    WAIT(STATUS, TRACEHOST_WUNTRACED);
    IS_PROCESS(1, .pid = 1001, .parent = DEBUGGER, .state = JOB_STOP, .signal = SIGSTOP_, .told = 1);
    SIGNAL(SIGCONT_);
    IS_PROCESS(1, .pid = 1001, .parent = DEBUGGER, .continued = 1);
    WAIT(STATUS, TRACEHOST_WCONTINUED);
    IS_PROCESS(1, .pid = 1001, .parent = DEBUGGER);
}

static void a_trace_stop(void)
{
    const uint32_t events = TRACEHOST_PTRACE_FORK | TRACEHOST_PTRACE_LWP | TRACEHOST_PTRACE_VFORK;
    TRACE(OK, ATTACH, 0);
    IS_PROCESS(1, .pid = 1001, .parent = DEBUGGER, .tracer = DEBUGGER, .state = TRACE_STOP, .lwp = FIRST + 1,
               .signal = SIGSTOP_, .events = TRACEHOST_PTRACE_EXEC);
    WAIT(STATUS, 0);
    IS_PROCESS(1, .pid = 1001, .parent = DEBUGGER, .tracer = DEBUGGER, .state = TRACE_STOP, .lwp = FIRST + 1,
               .signal = SIGSTOP_, .told = 1, .events = TRACEHOST_PTRACE_EXEC);
    TRACE(OK, SUSPEND, 0);
    IS_LWP(1, .lwp = FIRST + 1, .pid = 1001, .suspended = 1);
    TRACE(OK, RESUME, 0);
    TRACE(OK, STEP, 0);
    IS_LWP(1, .lwp = FIRST + 1, .pid = 1001, .stepping = 1);
    TURN(STOPPED, FIRST + 1, COMPUTE, 0);
    IS_PROCESS(1, .pid = 1001, .parent = DEBUGGER, .tracer = DEBUGGER, .state = TRACE_STOP, .lwp = FIRST + 1,
               .signal = SIGTRAP_, .events = TRACEHOST_PTRACE_EXEC);
    IS_LWP(1, .lwp = FIRST + 1, .pid = 1001);
    WAIT(STATUS, 0);
    TRACE(OK, SET_EVENT_MASK, events);
    TRACE(OK, CONTINUE, 0);
    IS_PROCESS(1, .pid = 1001, .parent = DEBUGGER, .tracer = DEBUGGER, .events = events);
}

static void signals(void)
{
    const uint32_t events = TRACEHOST_PTRACE_FORK | TRACEHOST_PTRACE_LWP | TRACEHOST_PTRACE_VFORK;
    TURN(OK, FIRST + 1, BLOCK, SET(SIGTERM_) | SET(SIGKILL_) | SET(SIGSTOP_)); /* the last two can't be blocked */
    TURN(OK, FIRST + 1, RAISE, SIGTERM_);
    SIGNAL(SIGUSR1_);
    IS_PROCESS(1, .pid = 1001, .parent = DEBUGGER, .tracer = DEBUGGER, .events = events, .pending = SET(SIGUSR1_));
    IS_LWP(1, .lwp = FIRST + 1, .pid = 1001, .blocked = SET(SIGTERM_), .pending = SET(SIGTERM_));
    TURN(STOPPED, FIRST + 1, COMPUTE, 0);
    IS_PROCESS(1, .pid = 1001, .parent = DEBUGGER, .tracer = DEBUGGER, .state = TRACE_STOP, .lwp = FIRST + 1,
               .signal = SIGUSR1_, .events = events);
    WAIT(STATUS, 0);
    TRACE(OK, CONTINUE, 0);
}

/* New LWPs, whose first stop is due; the stops of forks; and a vfork, whose LWP waits. */
static void due_stops(void)
{
    const uint32_t blocked = SET(SIGTERM_);
    ENTER(FIRST + 1, THR_NEW, 0);
    TURN(NEW, FIRST + 1, LEAVE_CALL, 0);
    IS_LWP(2, .lwp = FIRST + 2, .pid = 1001, .blocked = blocked, .due = BORN);
    TURN(STOPPED, FIRST + 2, COMPUTE, 0);
    IS_LWP(2, .lwp = FIRST + 2, .pid = 1001, .blocked = blocked,
           .flags = TRACEHOST_PL_FLAG_SCX | TRACEHOST_PL_FLAG_BORN, .code = 455);
    WAIT(STATUS, 0);
    TRACE(OK, SET_EVENT_MASK, TRACEHOST_PTRACE_SCX);
    TRACE(OK, CONTINUE, 0);
    IS_LWP(2, .lwp = FIRST + 2, .pid = 1001, .blocked = blocked);
    ENTER(FIRST + 2, THR_NEW, 0);
    TURN(STOPPED, FIRST + 2, LEAVE_CALL, 0);
    IS_LWP(3, .lwp = FIRST + 3, .pid = 1001, .blocked = blocked, .due = BEGUN);
    IS_LWP(2, .lwp = FIRST + 2, .pid = 1001, .blocked = blocked, .flags = TRACEHOST_PL_FLAG_SCX, .code = 455);
    WAIT(STATUS, 0);
    TRACE(OK, SET_EVENT_MASK, TRACEHOST_PTRACE_FORK);
    TRACE(OK, CONTINUE, 0);
}

static void children(void)
{
    const uint32_t blocked = SET(SIGTERM_);
    ENTER(FIRST + 2, FORK, 0);
    TURN(STOPPED, FIRST + 2, LEAVE_CALL, 0);
    IS_LWP(2, .lwp = FIRST + 2, .pid = 1001, .blocked = blocked,
           .flags = TRACEHOST_PL_FLAG_SCX | TRACEHOST_PL_FLAG_FORKED, .child = 1002, .code = 2);
    IS_PROCESS(2, .pid = 1002, .parent = 1001, .tracer = DEBUGGER, .state = TRACE_STOP, .lwp = FIRST + 4,
               .signal = SIGSTOP_, .events = TRACEHOST_PTRACE_EXEC);
    IS_LWP(4, .lwp = FIRST + 4, .pid = 1002, .blocked = blocked,
           .flags = TRACEHOST_PL_FLAG_SCX | TRACEHOST_PL_FLAG_CHILD, .code = 2);
    WAIT(STATUS, 0);
    TRACE(OK, SET_EVENT_MASK, TRACEHOST_PTRACE_VFORK);
    TRACE(OK, CONTINUE, 0);
    ENTER(FIRST + 2, VFORK, 0);
    TURN(NEW, FIRST + 2, LEAVE_CALL, 0);
    IS_LWP(2, .lwp = FIRST + 2, .pid = 1001, .mode = WAITS, .vfork_child = 1003, .blocked = blocked);
    ENTER(FIRST + 5, EXIT, 3);
    IS_LWP(5, .lwp = FIRST + 5, .pid = 1003, .mode = IN_CALL, .call = TRACEHOST_EXIT, .argument = 3, .blocked = blocked);
    TURN(ENDED, FIRST + 5, LEAVE_CALL, 0);
    IS_PROCESS(3, .pid = 1003, .parent = 1001, .state = ZOMBIE, .status = 3 * 256);
    CHECK(counts[0] == 4 && counts[1] == 5);
    IS_LWP(2, .lwp = FIRST + 2, .pid = 1001, .blocked = blocked, .due = VFORK_DONE);
}

int main(void)
{
    CHECK(tracehost_open(true, &h) == TRACEHOST_ANSWERED);
    a_fork();
    job_control();
    a_trace_stop();
    signals();
    due_stops();
    children();
    CHECK(tracehost_close(&h) == TRACEHOST_ANSWERED);
    printf("%lu checks\n", checks);
    return 0;
}
