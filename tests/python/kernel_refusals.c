/* Runs a program under a kernel that refuses something: ptrace, private numbers of processes, new images of open files, or ever to
 * answer getppid. */
#include <errno.h>
#include <linux/filter.h>
#include <linux/sched.h>
#include <linux/seccomp.h>
#include <stddef.h>
#include <stdio.h>
#include <string.h>
#include <sys/prctl.h>
#include <sys/syscall.h>
#include <sys/wait.h>
#include <unistd.h>

#define NUMBER BPF_STMT(BPF_LD | BPF_W | BPF_ABS, offsetof(struct seccomp_data, nr))
#define FLAGS BPF_STMT(BPF_LD | BPF_W | BPF_ABS, offsetof(struct seccomp_data, args[0]))
#define UNLESS(number, skipped) BPF_JUMP(BPF_JMP | BPF_JEQ | BPF_K, (number), 0, (skipped))
#define GIVE(action) BPF_STMT(BPF_RET | BPF_K, (action))

static struct sock_filter no_trace[] = {NUMBER, UNLESS(SYS_ptrace, 1), GIVE(SECCOMP_RET_ERRNO | EPERM), GIVE(SECCOMP_RET_ALLOW)};
static struct sock_filter kills_trace[] = {NUMBER, UNLESS(SYS_ptrace, 1), GIVE(SECCOMP_RET_KILL_PROCESS), GIVE(SECCOMP_RET_ALLOW)};
static struct sock_filter no_numbers[] = {NUMBER, UNLESS(SYS_clone, 3), FLAGS,
    BPF_JUMP(BPF_JMP | BPF_JSET | BPF_K, CLONE_NEWPID, 0, 1), GIVE(SECCOMP_RET_ERRNO | EPERM), GIVE(SECCOMP_RET_ALLOW)};
static struct sock_filter no_image[] = {NUMBER, UNLESS(SYS_execveat, 1), GIVE(SECCOMP_RET_ERRNO | EAGAIN), GIVE(SECCOMP_RET_ALLOW)};
static struct sock_filter silent[] = {NUMBER, UNLESS(SYS_getppid, 1), GIVE(SECCOMP_RET_USER_NOTIF), GIVE(SECCOMP_RET_ALLOW)};

static const struct {
    const char *name;
    struct sock_fprog program;
    unsigned flags;
} kinds[] = {{"no_trace", {4, no_trace}, 0}, {"kills_trace", {4, kills_trace}, 0}, {"no_numbers", {6, no_numbers}, 0},
    {"no_image", {4, no_image}, 0}, {"silent", {4, silent}, SECCOMP_FILTER_FLAG_NEW_LISTENER}};

int main(int count, char **words)
{
    enum { KINDS = sizeof kinds / sizeof *kinds };
    size_t kind = 0;
    while (kind < KINDS && (count < 3 || strcmp(words[1], kinds[kind].name) != 0))
        kind++;
    if (kind == KINDS || prctl(PR_SET_NO_NEW_PRIVS, 1, 0, 0, 0) != 0)
        return 99;
    long listener = syscall(SYS_seccomp, SECCOMP_SET_MODE_FILTER, kinds[kind].flags, &kinds[kind].program);
    if (listener < 0) {
        perror("seccomp");
        return 98;
    }
    pid_t child = kinds[kind].flags == 0 ? 0 : fork();
    if (child == 0) {
        execv(words[2], words + 2);
        return 97;
    }
    int status; /* whoever holds the other end never answers */
    waitpid(child, &status, 0);
    return WIFEXITED(status) ? WEXITSTATUS(status) : 96;
}
