/* The player's view of FreeBSD: sysctl(3), reapers of procctl(2), threads of thr_new(2). With tracehost-cc also of the model itself,
 * which has its own process 1, one user, and no groups of processes. */
/* With the stand-in of a test FreeBSD's part is compiled there, and not run. */
#if defined TRACEHOST_POSIX_H && !defined FREEBSD_STAND_IN_H
#define ON_MODEL 1
#else
#define ON_MODEL 0
#endif
#include <sys/param.h>
#include <sys/types.h>
#include <sys/mman.h>
#include <sys/procctl.h>
#include <sys/sysctl.h>
#include <sys/thr.h>
#include <sys/user.h>
#include <sys/wait.h>
#include <errno.h>
#include <fcntl.h>
#include <grp.h>
#include <sched.h>
#include <signal.h>
#include <stdlib.h>
#include <string.h>
#include <unistd.h>
#include "play.h"
#include "requests.c"

enum { FIRST_THREAD = 100000, ANY_PROCESS = 1 };

/* ---- memory and image, which are inherited and have no name */

int system_stage(size_t size)
{
#ifdef SHM_ANON
    int descriptor = shm_open(SHM_ANON, O_RDWR, 0);
    if (descriptor >= 0)
        fcntl(descriptor, F_SETFD, 0);
#else
    int descriptor = memfd_create("stage", 0);
#endif
    return descriptor >= 0 && ftruncate(descriptor, (off_t)size) == 0 ? descriptor : -1;
}

int system_image(void)
{
    char path[MAXPATHLEN];
    size_t size = sizeof path;
    const int name[4] = {CTL_KERN, KERN_PROC, KERN_PROC_PATHNAME, -1};
    return sysctl(name, 4, path, &size, NULL, 0) == 0 ? open(path, O_RDONLY) : -1;
}

/* ---- the processes that play */

bool private_numbers = false;
#if ON_MODEL
const char system_name[] = "the model";
const unsigned system_most_rounds = 20000; /* its clock stands still while it computes */
const bool system_is_reaper = false, system_has_users = false, system_spawns_image = false;

pid_t system_fork_inner(void) { return 0; }
void system_end_with_parent(void) {}
void system_inner(void) {}
void system_become(long user) { (void)user; }

int system_kills_on_debugger_exit(void) { return -1; }

void system_kill_all(void)
{
    for (int i = 0; i < cast.processes; i++)
        if (cast.process[i].native > 1 && !cast.process[i].gone)
            kill(cast.process[i].native, SIGKILL);
}
#else
const char system_name[] = "FreeBSD";
const unsigned system_most_rounds = 0;
const bool system_is_reaper = true, system_has_users = true;
const bool system_spawns_image = true; /* a process that has changed its user can't be traced until it has an image of its own */

pid_t system_fork_inner(void)
{
    procctl(P_PID, getpid(), PROC_REAP_ACQUIRE, NULL);
    return fork();
}

void system_end_with_parent(void)
{
    int signal = SIGTERM;
    procctl(P_PID, getpid(), PROC_PDEATHSIG_CTL, &signal);
}

void system_inner(void)
{
    setsid();
    system_end_with_parent();
    procctl(P_PID, getpid(), PROC_REAP_ACQUIRE, NULL);
}

/* A group of its own: a stop of job control is dropped unless the parent is of another one, in the same session. */
void system_become(long user)
{
    const gid_t group = (gid_t)user;
    setpgid(0, 0);
    if (user >= 0 &&
        (setgroups(1, &group) < 0 || setresgid(group, group, group) < 0 || setresuid((uid_t)user, (uid_t)user, (uid_t)user) < 0))
        _exit(1);
}

int system_kills_on_debugger_exit(void)
{
    int kills = -1;
    size_t size = sizeof kills;
    return sysctlbyname("kern.kill_on_debugger_exit", &kills, &size, NULL, 0) < 0 ? -1 : kills;
}

void system_kill_all(void)
{
    struct procctl_reaper_kill all = {.rk_sig = SIGKILL};
    procctl(P_PID, getpid(), PROC_REAP_KILL, &all);
}
#endif

void system_why_untraced(char *text, size_t size) { snprintf(text, size, "security.bsd.unprivileged_proc_debug may be 0"); }

/* ---- threads: under PT_SYSCALL they make no call but those of the steps */

#if ON_MODEL
void system_thread_end(void) { pthread_exit(NULL); }

void system_rest(bool silent)
{
    if (silent)
        tracehost_compute();
    else
        sched_yield();
}
#else
enum { STACK = 65536 };
static char stacks[MOST_LWPS][STACK] __attribute__((aligned(16)));
static struct slot *selves[MOST_LWPS + 1]; /* by the stack; the last one is of the process's own stack */

/* Threads have no storage of their own: theirs is that of the first one. */
static size_t stack_here(void)
{
    const char *here = __builtin_frame_address(0);
    return here >= stacks[0] && here < stacks[0] + sizeof stacks ? (size_t)(here - stacks[0]) / STACK : MOST_LWPS;
}

struct slot *system_self(void) { return selves[stack_here()]; }
void system_set_self(struct slot *slot) { selves[stack_here()] = slot; }

static void *thread_base(void)
{
    void *base = NULL;
#if defined __amd64__
    __asm__("movq %%fs:0, %0" : "=r"(base));
#elif defined __aarch64__
    __asm__("mrs %0, tpidr_el0" : "=r"(base));
#elif defined __i386__
    __asm__("movl %%gs:0, %0" : "=r"(base));
#endif
    return base;
}

static void run_thread(void *slot) { puppet_live((int)((struct slot *)slot - stage->slots)); }

int system_thread(int slot)
{
    long child, parent;
    struct thr_param made = {.start_func = run_thread,
        .arg = &stage->slots[slot],
        .stack_base = stacks[slot],
        .stack_size = STACK,
        .tls_base = thread_base(),
        .child_tid = &child,
        .parent_tid = &parent};
    return thr_new(&made, sizeof made);
}

/* thr_exit(2) of the last thread returns. */
void system_thread_end(void)
{
    thr_exit(NULL);
    _exit(0);
}

void system_rest(bool silent)
{
    enum { ROUND = 2000 };
    if (!silent)
        sched_yield();
    else
        for (int i = 0; i < ROUND; i++)
            __asm__ volatile("" ::: "memory");
}
#endif

int system_raise(int signal) { return thr_kill(atomic_load(&system_self()->lwp), signal); }

/* Calls that do no harm. */
bool system_has_other(long number)
{
    enum { GETPID = 20, GETPPID = 39 };
    return number == GETPID || number == GETPPID;
}

int system_other(long number)
{
    enum { GETPPID = 39 };
    return number == GETPPID ? getppid() < 0 : getpid() < 0;
}

/* ---- what sysctl(3) says */

/* Of one process, or of all if `what` has no number. */
static int look(int what, pid_t number, struct kinfo_proc *found, int most)
{
    const int name[4] = {CTL_KERN, KERN_PROC, what, number};
    size_t size = (size_t)most * sizeof *found;
    if (sysctl(name, number == 0 ? 3 : 4, found, &size, NULL, 0) < 0 && errno != ENOMEM) {
        if (errno != ESRCH) /* what can't be looked at isn't gone */
            fault("the host refuses to show process %d: %s", number, strerror(errno));
        return 0;
    }
    return (int)(size / sizeof *found) < most ? (int)(size / sizeof *found) : most;
}

static enum state state_of(const struct kinfo_proc *row)
{
    if (row->ki_stat == SZOMB)
        return STATE_ZOMBIE;
    if (row->ki_stat == SSTOP)
        return (row->ki_flag & P_STOPPED_TRACE) != 0 ? STATE_TRACE_STOP : STATE_JOB_STOP;
    return row->ki_stat == SRUN ? STATE_RUNS : STATE_WAITS;
}

bool system_process(pid_t process, struct process_facts *facts)
{
    struct kinfo_proc row;
    *facts = (struct process_facts){.state = STATE_GONE};
    if (look(KERN_PROC_PID, process, &row, 1) != 1 || row.ki_pid != process)
        return false;
    *facts = (struct process_facts){.state = state_of(&row),
        .user = row.ki_ruid,
        .parent = row.ki_ppid,
        .tracer = row.ki_tracer,
        .lwps = row.ki_stat == SZOMB ? 0 : row.ki_numthreads,
        .status = -1,
        .pending = bits_of(&row.ki_siglist),
        .ignored = bits_of(&row.ki_sigignore),
        .caught = bits_of(&row.ki_sigcatch)};
    return true;
}

static struct kinfo_proc threads[MOST_LWPS];

bool system_lwp(pid_t process, long lwp, struct lwp_facts *facts)
{
    int count = look(KERN_PROC_PID | KERN_PROC_INC_THREAD, process, threads, MOST_LWPS);
    *facts = (struct lwp_facts){.state = STATE_GONE};
    for (int i = 0; i < count; i++)
        if (threads[i].ki_tid == lwp)
            *facts = (struct lwp_facts){.state = state_of(&threads[i]),
                .blocked = bits_of(&threads[i].ki_sigmask),
                .pending = bits_of(&threads[i].ki_siglist)};
    return facts->state != STATE_GONE;
}

enum state system_lwp_state(pid_t process, long lwp)
{
    struct lwp_facts facts;
    system_lwp(process, lwp, &facts);
    return facts.state;
}

#if ON_MODEL
const bool system_has_lwp_pending = true;
enum { FIRST_PROCESS = 1000, PROCESSES = 1000 };

/* The model gives out numbers in turn. */
static pid_t new_child(pid_t parent)
{
    static pid_t last = FIRST_PROCESS;
    struct kinfo_proc row;
    for (int i = 1; i < PROCESSES; i++) {
        pid_t number = FIRST_PROCESS + (last - FIRST_PROCESS + i) % PROCESSES;
        if (look(KERN_PROC_PID, number, &row, 1) != 1)
            continue;
        if (row.ki_ppid != parent || row.ki_stat == SZOMB || number == getpid() || model_process(number) != 0)
            continue;
        return last = number;
    }
    return 0;
}

int system_list(long user, pid_t *found, int most)
{
    struct kinfo_proc row;
    int count = 0;
    (void)user;
    for (int i = 0; i < cast.processes && count < most; i++)
        if (cast.process[i].native != 0 && look(KERN_PROC_PID, cast.process[i].native, &row, 1) == 1 && row.ki_pid != 0)
            found[count++] = cast.process[i].native;
    return count;
}
#else
const bool system_has_lwp_pending = false; /* a signal to the process may be given to a thread at once */
enum { MOST_PROCESSES = 65536 };

static const struct kinfo_proc *all_processes(int *count)
{
    static struct kinfo_proc all[MOST_PROCESSES];
    *count = look(KERN_PROC_PROC, 0, all, MOST_PROCESSES);
    return all;
}

static pid_t new_child(pid_t parent)
{
    int count;
    const struct kinfo_proc *all = all_processes(&count);
    for (int i = 0; i < count; i++)
        if (all[i].ki_ppid == parent && all[i].ki_stat != SZOMB && model_process(all[i].ki_pid) == 0)
            return all[i].ki_pid;
    return 0;
}

int system_list(long user, pid_t *found, int most)
{
    int count, known = 0;
    const struct kinfo_proc *all = all_processes(&count);
    for (int i = 0; i < count && known < most; i++)
        if ((long)all[i].ki_ruid == user)
            found[known++] = all[i].ki_pid;
    return known;
}
#endif

/* ---- the newborn are found from outside */

void system_newborn(struct slot *slot) { (void)slot; }

bool system_find_newborn(struct slot *slot, pid_t parent, bool is_thread)
{
    if (atomic_load(&slot->process) != 0)
        return true;
    pid_t process = is_thread ? parent : new_child(parent);
    int count = process == 0 ? 0 : look(KERN_PROC_PID | KERN_PROC_INC_THREAD, process, threads, MOST_LWPS);
    for (int i = 0; i < count; i++)
        if (threads[i].ki_tid != 0 && model_lwp(threads[i].ki_tid) == 0) {
            atomic_store(&slot->lwp, threads[i].ki_tid);
            atomic_store(&slot->process, process);
            return true;
        }
    return false;
}
