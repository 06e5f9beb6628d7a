/*
 * Sessions that are inherited by fork(2), and records on a full disk. Compiled together with tracehost_client.c and
 * -Dpwrite=pwrite_of_a_small_disk.
 *
 *     faults fork
 *     faults disk SCENARIO LINES ROOM     a disk with room for so many bytes
 *     faults limit SCENARIO LINES SIZE    RLIMIT_FSIZE, with the default action of SIGXFSZ
 *
 * The last two print how many steps were recorded.
 */
#define _POSIX_C_SOURCE 200809L
#undef pwrite

#include "../../tracehost_client.h"

#include <pthread.h>
#include <stdio.h>
#include <stdlib.h>
#include <string.h>
#include <sys/resource.h>
#include <sys/stat.h>
#include <sys/wait.h>
#include <unistd.h>

ssize_t pwrite_of_a_small_disk(int file, const void *bytes, size_t length, off_t at);
#ifdef COUNTED /* gcov's counts of a child that leaves by _exit */
void __gcov_dump(void);
#endif

static long long room_left = -1; /* -1: as much as the disk has */

static void require(int truth, const char *what)
{
    if (!truth) {
        fprintf(stderr, "FAILED: %s (errno %d, %s)\n", what, errno, th_strerror(errno));
        exit(1);
    }
}

/* Writes what there is room for. */
ssize_t pwrite_of_a_small_disk(int file, const void *bytes, size_t length, off_t at)
{
    struct stat status;
    require(fstat(file, &status) == 0, "fstat");
    long long grows = (long long)at + (long long)length - (long long)status.st_size;
    if (room_left >= 0 && grows > room_left) {
        length -= (size_t)(grows - room_left);
        grows = room_left;
        if (length == 0) {
            errno = ENOSPC;
            return -1;
        }
    }
    if (room_left >= 0 && grows > 0)
        room_left -= grows;
    return pwrite(file, bytes, length, at);
}

static th_host *begin(void)
{
    th_host *h = th_open(NULL);
    require(h != NULL, "a session");
    return h;
}

/* ---------------------------------------------------------------- a full disk */

/* Spawns until a step can't be recorded; how many could. */
static int record(th_host *h, int error)
{
    for (int made = 0; made < 240; made++) {
        if (th_spawn(h, 1001, NULL, NULL) == 0)
            continue;
        require(errno == TH_ERECORD && th_record_error(h) == error, "TH_ERECORD and its reason");
        require(strcmp(th_strerror(errno), "The step can't be recorded, and the session has ended") == 0, "its words");
        require(th_spawn(h, 1001, NULL, NULL) == -1 && errno == EPIPE, "the session has ended");
        require(th_close(h) == 0, "th_close");
        return made;
    }
    require(0, "a step that can't be recorded");
    return 0;
}

static int disk(const char *scenario, const char *lines, const char *room)
{
    th_host *h = begin();
    require(th_record(h, scenario, lines) == 0, "th_record");
    require(th_record_error(h) == 0, "th_record_error");
    room_left = atoll(room);
    printf("%d\n", record(h, ENOSPC));
    return 0;
}

static int limit(const char *scenario, const char *lines, const char *size)
{
    th_host *h = begin();
    require(th_record(h, scenario, lines) == 0, "th_record");
    struct rlimit old, small;
    require(getrlimit(RLIMIT_FSIZE, &old) == 0, "getrlimit");
    small = old;
    small.rlim_cur = (rlim_t)atoll(size);
    require(setrlimit(RLIMIT_FSIZE, &small) == 0, "setrlimit");
    int made = record(h, EFBIG);
    require(setrlimit(RLIMIT_FSIZE, &old) == 0, "setrlimit");
    printf("%d\n", made);
    return 0;
}

/* ---------------------------------------------------------------- fork */

struct sleeper {
    th_host *host;
    pthread_t thread;
};

static void *sleep_in_wait(void *argument)
{
    struct sleeper *sleeper = argument;
    th_caller self = {1001, 1000};
    th_wait4_block(sleeper->host, self, -1, NULL, 0, -1);
    return NULL;
}

/* A child has a copy, which goes its own way while a thread of the parent sleeps in a wait; 0 if it does. */
static int in_child(th_host *h)
{
    th_pid pid = 0;
    return th_spawn(h, 1001, &pid, NULL) == 0 && pid == 1002 ? 0 : 1;
}

static int forked(void)
{
    th_host *h = begin();
    th_caller self = {1001, 1000};
    th_pid pid = 0, parent = 0;
    require(th_spawn(h, 1001, &parent, NULL) == 0 && th_spawn(h, 1001, &pid, NULL) == 0, "two processes");
    require(th_ptrace(h, self, TH_PT_ATTACH, pid, NULL, 0) == 0, "PT_ATTACH");
    require(th_wait4(h, self, -1, NULL, 0) == pid, "wait4");
    struct sleeper sleeper = {h, 0};
    require(pthread_create(&sleeper.thread, NULL, sleep_in_wait, &sleeper) == 0, "a thread");
    require(th_until_blocked(h, 1, 10000) == 0, "a thread that sleeps");
    for (int count = 0; count < 20; count++) {
        int status = 0;
        pid_t child = fork();
        require(child >= 0, "fork");
        if (child == 0) {
            int result = in_child(h);
            th_close(h);
#ifdef COUNTED
            __gcov_dump();
#endif
            _exit(result);
        }
        require(waitpid(child, &status, 0) == child && status == 0, "the child's calls");
    }
    require(th_spawn(h, 1001, &pid, NULL) == 0 && pid == 1002, "the parent's session goes on");
    require(th_kill(h, (th_caller){1001, 1000}, 1001, TH_SIGKILL) == 0, "kill");
    require(pthread_join(sleeper.thread, NULL) == 0, "the thread's end");
    require(th_close(h) == 0, "th_close");
    return 0;
}

int main(int argc, char **argv)
{
    if (argc == 2 && strcmp(argv[1], "fork") == 0)
        return forked();
    if (argc == 5 && strcmp(argv[1], "disk") == 0)
        return disk(argv[2], argv[3], argv[4]);
    if (argc == 5 && strcmp(argv[1], "limit") == 0)
        return limit(argv[2], argv[3], argv[4]);
    return 2;
}
