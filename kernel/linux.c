/* The player's view of Linux: /proc, private numbers of processes, the requests of ptrace(2) that FreeBSD has too. */
#include <ctype.h>
#include <dirent.h>
#include <errno.h>
#include <fcntl.h>
#include <grp.h>
#include <linux/capability.h>
#include <poll.h>
#include <pthread.h>
#include <sched.h>
#include <signal.h>
#include <stdlib.h>
#include <string.h>
#include <sys/mman.h>
#include <sys/mount.h>
#include <sys/prctl.h>
#include <sys/ptrace.h>
#include <sys/sendfile.h>
#include <sys/stat.h>
#include <sys/syscall.h>
#include <sys/wait.h>
#include <unistd.h>
#include "play.h"

const char system_name[] = "Linux";
const bool system_has_lwp_pending = true;
const unsigned system_most_rounds = 0;
const bool system_is_reaper = true, system_has_users = true, system_spawns_image = false;
bool private_numbers;

/* ---- memory and image, which are inherited and have no name */

int system_stage(size_t size)
{
    int descriptor = memfd_create("stage", 0);
    if (descriptor >= 0 && ftruncate(descriptor, (off_t)size) < 0)
        return -1;
    return descriptor;
}

/* A copy: the file itself may be closed to the users that the puppets are. */
int system_image(void)
{
    int from = open("/proc/self/exe", O_RDONLY | O_CLOEXEC), to = memfd_create("image", 0);
    ssize_t copied = 1;
    while (from >= 0 && to >= 0 && copied > 0)
        copied = sendfile(to, from, NULL, 1 << 20);
    if (from >= 0)
        close(from);
    return copied < 0 || from < 0 || to < 0 || fchmod(to, 0555) < 0 ? -1 : to;
}

/* ---- the inner process, which plays */

static bool write_file(const char *path, const char *text)
{
    int descriptor = open(path, O_WRONLY | O_CLOEXEC);
    bool written = descriptor >= 0 && write(descriptor, text, strlen(text)) == (ssize_t)strlen(text);
    if (descriptor >= 0)
        close(descriptor);
    return written;
}

static bool map_user(uid_t user, gid_t group)
{
    char text[64];
    snprintf(text, sizeof text, "%u %u 1", user, user);
    if (!write_file("/proc/self/setgroups", "deny") || !write_file("/proc/self/uid_map", text))
        return false;
    snprintf(text, sizeof text, "%u %u 1", group, group);
    return write_file("/proc/self/gid_map", text);
}

static bool show_own_processes(void)
{
    return mount("none", "/", NULL, MS_REC | MS_PRIVATE, NULL) == 0 &&
           mount("proc", "/proc", "proc", MS_NOSUID | MS_NODEV | MS_NOEXEC, NULL) == 0;
}

/* A child that is process 1 of its own numbers: all its processes end with it. It says by a byte whether it is. */
static pid_t fork_private(int flags, int ready[2])
{
    uid_t user = geteuid();
    gid_t group = getegid();
    pid_t inner = (pid_t)syscall(SYS_clone, flags | SIGCHLD, NULL, NULL, NULL, NULL);
    if (inner == 0) {
        char fit = ((flags & CLONE_NEWUSER) == 0 || map_user(user, group)) && show_own_processes();
        if (write(ready[1], &fit, 1) != 1 || !fit)
            _exit(1);
    }
    return inner;
}

static bool is_ready(pid_t inner, int ready[2])
{
    char fit = 0;
    close(ready[1]);
    bool is = inner > 0 && read(ready[0], &fit, 1) == 1 && fit;
    close(ready[0]);
    if (!is && inner > 0)
        waitpid(inner, NULL, 0);
    return is;
}

pid_t system_fork_inner(void)
{
    static const int ways[] = {CLONE_NEWPID | CLONE_NEWNS, CLONE_NEWPID | CLONE_NEWNS | CLONE_NEWUSER};
    private_numbers = true;
    for (size_t way = 0; way < sizeof ways / sizeof *ways; way++) {
        int ready[2];
        if (pipe2(ready, O_CLOEXEC) < 0)
            return -1;
        pid_t inner = fork_private(ways[way], ready);
        if (inner == 0) {
            close(ready[0]), close(ready[1]);
            return 0;
        }
        if (is_ready(inner, ready))
            return inner;
    }
    private_numbers = false;
    prctl(PR_SET_CHILD_SUBREAPER, 1);
    return fork();
}

void system_end_with_parent(void) { prctl(PR_SET_PDEATHSIG, SIGTERM); }

void system_inner(void)
{
    setsid();
    prctl(PR_SET_PDEATHSIG, private_numbers ? SIGKILL : SIGTERM);
    if (!private_numbers)
        prctl(PR_SET_CHILD_SUBREAPER, 1);
}

void system_become(long user)
{
    struct __user_cap_header_struct header = {.version = _LINUX_CAPABILITY_VERSION_3};
    struct __user_cap_data_struct none[2] = {{0}};
    if (user >= 0 && (setgroups(0, NULL) < 0 || setresgid((gid_t)user, (gid_t)user, (gid_t)user) < 0 ||
                         setresuid((uid_t)user, (uid_t)user, (uid_t)user) < 0))
        _exit(1);
    setpgid(0, 0); /* not of the player's group: a stop of job control is dropped unless the parent is of another group */
    syscall(SYS_capset, &header, none);
    prctl(PR_SET_DUMPABLE, 1);
}

/* Ends what is left of a session; whoever called this collects it. */
void system_kill_all(void)
{
    char path[64], text[4096];
    if (private_numbers && getpid() == 1) { /* all others here are puppets */
        kill(-1, SIGKILL);
        return;
    }
    snprintf(path, sizeof path, "/proc/self/task/%d/children", getpid());
    int descriptor = open(path, O_RDONLY | O_CLOEXEC);
    ssize_t got = descriptor < 0 ? 0 : read(descriptor, text, sizeof text - 1);
    if (descriptor >= 0)
        close(descriptor);
    text[got > 0 ? got : 0] = 0;
    char *rest = NULL;
    for (char *word = strtok_r(text, " ", &rest); word != NULL; word = strtok_r(NULL, " ", &rest))
        kill((pid_t)atol(word), SIGKILL);
}

/* ---- LWPs */

void system_newborn(struct slot *slot)
{
    atomic_store(&slot->lwp, syscall(SYS_gettid));
    atomic_store(&slot->process, getpid());
}

bool system_find_newborn(struct slot *slot, pid_t parent, bool is_thread)
{
    (void)parent, (void)is_thread;
    return atomic_load(&slot->process) != 0;
}

void system_rest(bool silent)
{
    enum { ROUND = 50 };
    if (!silent)
        syscall(SYS_sched_yield);
    else
        for (int i = 0; i < ROUND; i++)
            __asm__ volatile("" ::: "memory");
}

void system_thread_end(void)
{
    for (;;)
        syscall(SYS_exit, 0);
}

int system_raise(int signal)
{
    const struct slot *self = system_self();
    return (int)syscall(SYS_tgkill, atomic_load(&self->process), atomic_load(&self->lwp), signal);
}

/* The call's number, which is one of FreeBSD's, can't be seen here. */
bool system_has_other(long number)
{
    (void)number;
    return true;
}

int system_other(long number)
{
    (void)number;
    return (int)syscall(SYS_getppid) < 0;
}

/* ---- ptrace(2) */

static const struct {
    const char *name;
    enum __ptrace_request request;
} requests[] = {{"PT_TRACE_ME", PTRACE_TRACEME}, {"PT_ATTACH", PTRACE_ATTACH}, {"PT_CONTINUE", PTRACE_CONT},
    {"PT_STEP", PTRACE_SINGLESTEP}, {"PT_DETACH", PTRACE_DETACH}, {"PT_KILL", PTRACE_KILL}};

bool system_has_request(const char *name, int *request)
{
    for (size_t i = 0; i < sizeof requests / sizeof *requests; i++)
        if (strcmp(requests[i].name, name) == 0) {
            *request = (int)requests[i].request;
            return true;
        }
    return false;
}

long system_ptrace(const struct command *command, struct answer *answer)
{
    (void)answer;
    return ptrace((enum __ptrace_request)command->option, (pid_t)command->number, NULL, (long)command->signal);
}

/* ---- what /proc says */

/* What can't be looked at isn't gone. */
static void gone_or_fault(const char *path)
{
    if (errno != ENOENT && errno != ESRCH)
        fault("cannot read %s: %s", path, strerror(errno));
}

static bool read_text(const char *path, char *text, size_t size)
{
    int descriptor = open(path, O_RDONLY | O_CLOEXEC);
    ssize_t got = descriptor < 0 ? -1 : read(descriptor, text, size - 1);
    if (got < 0)
        gone_or_fault(path);
    if (descriptor >= 0)
        close(descriptor);
    text[got > 0 ? got : 0] = 0;
    return got > 0;
}

static const char *field(const char *text, const char *name)
{
    const char *found = strstr(text, name);
    return found == NULL ? "" : found + strlen(name) + strspn(found + strlen(name), " \t");
}

/* Bit N - 1 of /proc is signal N. */
static unsigned set_of(const char *text, const char *name)
{
    unsigned long long bits = strtoull(field(text, name), NULL, 16);
    unsigned set = 0;
    for (int number = 1; number < MODEL_SIGNALS; number++)
        if (native_signal(number) > 0 && (bits >> (native_signal(number) - 1) & 1) != 0)
            set |= 1U << number;
    return set;
}

static enum state state_of(char letter)
{
    switch (letter) {
    case 'T': return STATE_JOB_STOP;
    case 't': return STATE_TRACE_STOP;
    case 'Z': return STATE_ZOMBIE;
    case 'D': return STATE_WAITS;
    case 'X':
    case 'x':
    case 0: return STATE_GONE;
    default: return STATE_RUNS;
    }
}

bool system_lwp(pid_t process, long lwp, struct lwp_facts *facts)
{
    char path[64], text[4096];
    snprintf(path, sizeof path, "/proc/%d/task/%ld/status", process, lwp);
    *facts = (struct lwp_facts){.state = STATE_GONE};
    if (!read_text(path, text, sizeof text))
        return false;
    facts->state = state_of(*field(text, "\nState:"));
    facts->blocked = set_of(text, "\nSigBlk:");
    facts->pending = set_of(text, "\nSigPnd:");
    return facts->state != STATE_GONE;
}

enum state system_lwp_state(pid_t process, long lwp)
{
    char path[64], text[512];
    snprintf(path, sizeof path, "/proc/%d/task/%ld/stat", process, lwp);
    if (!read_text(path, text, sizeof text))
        return STATE_GONE;
    const char *name_end = strrchr(text, ')');
    return name_end == NULL ? STATE_GONE : state_of(name_end[2]);
}

/* A process is stopped if all of its LWPs are; in /proc its first LWP may have ended before the others. */
static void look_at_lwps(pid_t process, struct process_facts *facts)
{
    char path[64];
    int stopped = 0, traced = 0;
    snprintf(path, sizeof path, "/proc/%d/task", process);
    DIR *folder = opendir(path);
    if (folder == NULL)
        gone_or_fault(path);
    facts->lwps = 0;
    for (struct dirent *entry; folder != NULL && (entry = readdir(folder)) != NULL;) {
        if (!isdigit((unsigned char)*entry->d_name))
            continue;
        enum state state = system_lwp_state(process, atol(entry->d_name));
        facts->lwps += state != STATE_ZOMBIE && state != STATE_GONE;
        stopped += state == STATE_JOB_STOP || state == STATE_TRACE_STOP;
        traced += state == STATE_TRACE_STOP;
    }
    if (folder != NULL)
        closedir(folder);
    facts->state = facts->lwps == 0        ? STATE_ZOMBIE
                   : stopped < facts->lwps ? STATE_RUNS
                   : traced > 0            ? STATE_TRACE_STOP
                                           : STATE_JOB_STOP;
}

/* A thread traces: its process. */
static long owner_of(long thread)
{
    char path[64], text[4096];
    snprintf(path, sizeof path, "/proc/%ld/status", thread);
    return thread != 0 && read_text(path, text, sizeof text) ? atol(field(text, "\nTgid:")) : thread;
}

/* What /proc shows to a debugger of it, to others as 0. */
static bool may_see_status(long user)
{
    struct __user_cap_header_struct header = {.version = _LINUX_CAPABILITY_VERSION_3};
    struct __user_cap_data_struct sets[2] = {{0}};
    return user == (long)getuid() || (syscall(SYS_capget, &header, sets) == 0 && (sets[0].effective >> CAP_SYS_PTRACE & 1) != 0);
}

static int zombie_status(pid_t process, long user)
{
    enum { STATE = 3, STATUS = 52 };
    char path[64], text[1024];
    snprintf(path, sizeof path, "/proc/%d/stat", process);
    if (!may_see_status(user) || !read_text(path, text, sizeof text))
        return -1;
    const char *at = strrchr(text, ')');
    for (int place = STATE; at != NULL && place <= STATUS; place++)
        at = strchr(at + 1, ' ');
    return at == NULL ? -1 : atoi(at);
}

bool system_process(pid_t process, struct process_facts *facts)
{
    char path[64], text[4096];
    snprintf(path, sizeof path, "/proc/%d/status", process);
    *facts = (struct process_facts){.state = STATE_GONE};
    if (!read_text(path, text, sizeof text))
        return false;
    facts->state = state_of(*field(text, "\nState:"));
    facts->user = atol(field(text, "\nUid:"));
    facts->parent = atol(field(text, "\nPPid:"));
    facts->pending = set_of(text, "\nShdPnd:");
    facts->ignored = set_of(text, "\nSigIgn:");
    facts->caught = set_of(text, "\nSigCgt:");
    facts->lwps = facts->state != STATE_ZOMBIE;
    facts->tracer = owner_of(atol(field(text, "\nTracerPid:")));
    if (atol(field(text, "\nThreads:")) > 1)
        look_at_lwps(process, facts);
    facts->status = facts->state == STATE_ZOMBIE ? zombie_status(process, facts->user) : -1;
    return facts->state != STATE_GONE;
}

/* A tracee always goes on: PTRACE_O_EXITKILL is an option of its own. */
int system_kills_on_debugger_exit(void) { return -1; }

void system_why_untraced(char *text, size_t size)
{
    char scope[16], status[4096];
    bool has_scope = read_text("/proc/sys/kernel/yama/ptrace_scope", scope, sizeof scope);
    bool filtered = read_text("/proc/self/status", status, sizeof status) && atol(field(status, "\nSeccomp:")) != 0;
    snprintf(text, size, "kernel.yama.ptrace_scope is %ld, %s", has_scope ? atol(scope) : 0L,
        filtered ? "and seccomp(2) filters calls" : "and no seccomp(2) filters calls");
}

int system_list(long user, pid_t *found, int most)
{
    int count = 0;
    DIR *folder = opendir("/proc");
    if (folder == NULL)
        gone_or_fault("/proc");
    for (struct dirent *entry; folder != NULL && (entry = readdir(folder)) != NULL;) {
        struct process_facts facts;
        pid_t process = (pid_t)atol(entry->d_name);
        if (process > 1 && system_process(process, &facts) && facts.user == user && count < most)
            found[count++] = process;
    }
    if (folder != NULL)
        closedir(folder);
    return count;
}
