/* The requests of FreeBSD's ptrace(2); included by freebsd.c. */
#include <sys/ptrace.h>

static const struct {
    const char *name;
    int request;
} requests[] = {{"PT_TRACE_ME", PT_TRACE_ME}, {"PT_ATTACH", PT_ATTACH}, {"PT_CONTINUE", PT_CONTINUE}, {"PT_STEP", PT_STEP},
    {"PT_TO_SCE", PT_TO_SCE}, {"PT_TO_SCX", PT_TO_SCX}, {"PT_SYSCALL", PT_SYSCALL}, {"PT_DETACH", PT_DETACH}, {"PT_KILL", PT_KILL},
    {"PT_SUSPEND", PT_SUSPEND}, {"PT_RESUME", PT_RESUME}, {"PT_SET_EVENT_MASK", PT_SET_EVENT_MASK},
    {"PT_GET_EVENT_MASK", PT_GET_EVENT_MASK}, {"PT_FOLLOW_FORK", PT_FOLLOW_FORK}, {"PT_LWP_EVENTS", PT_LWP_EVENTS},
    {"PT_LWPINFO", PT_LWPINFO}, {"PT_GETNUMLWPS", PT_GETNUMLWPS}, {"PT_GETLWPLIST", PT_GETLWPLIST}};

bool system_has_request(const char *name, int *request)
{
    for (size_t i = 0; i < sizeof requests / sizeof *requests; i++)
        if (strcmp(requests[i].name, name) == 0) {
            *request = requests[i].request;
            return true;
        }
    return false;
}

static unsigned bits_of(const sigset_t *set)
{
    unsigned bits = 0;
    for (int number = 1; number < MODEL_SIGNALS; number++)
        if (native_signal(number) > 0 && sigismember(set, native_signal(number)) == 1)
            bits |= 1U << number;
    return bits;
}

static long look_at_lwp(pid_t target, struct answer *answer)
{
    struct ptrace_lwpinfo info;
    memset(&info, 0, sizeof info);
    long result = ptrace(PT_LWPINFO, target, (caddr_t)&info, sizeof info);
    answer->info = (struct lwp_info){.lwp = info.pl_lwpid,
        .reports = info.pl_event == PL_EVENT_SIGNAL,
        .flags = info.pl_flags,
        .blocked = bits_of(&info.pl_sigmask),
        .pending = bits_of(&info.pl_siglist),
        .child = (info.pl_flags & PL_FLAG_FORKED) != 0 ? info.pl_child_pid : 0,
        .code = (info.pl_flags & (PL_FLAG_SCE | PL_FLAG_SCX)) != 0 ? info.pl_syscall_code : 0};
    return result;
}

long system_ptrace(const struct command *command, struct answer *answer)
{
    const pid_t target = (pid_t)command->number;
    int mask = (int)command->set;
    switch (command->option) {
    case PT_CONTINUE:
    case PT_STEP:
    case PT_TO_SCE:
    case PT_TO_SCX:
    case PT_SYSCALL:
    case PT_DETACH: return ptrace(command->option, target, (caddr_t)1, command->signal);
    case PT_LWPINFO: return look_at_lwp(target, answer);
    case PT_SET_EVENT_MASK: return ptrace(command->option, target, (caddr_t)&mask, sizeof mask);
    case PT_GET_EVENT_MASK:
        mask = 0;
        long result = ptrace(command->option, target, (caddr_t)&mask, sizeof mask);
        answer->status = mask;
        return result;
    case PT_GETLWPLIST:
        return ptrace(command->option, target, (caddr_t)answer->lwps, command->signal < MOST_LWPS ? command->signal : MOST_LWPS);
    default: return ptrace(command->option, target, NULL, command->signal);
    }
}
