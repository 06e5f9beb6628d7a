/*
 * Sessions of several threads, and waits that block: which steps are made, in which order, and how often.
 *
 *     threads FOLDER RUNS
 *
 * Records are left in the folder. Sessions whose steps are to be the same in every run are made RUNS times.
 */
#define _POSIX_C_SOURCE 200809L

#include "../tracehost_client.h"

#include <pthread.h>
#include <stdio.h>
#include <stdlib.h>
#include <string.h>
#include <sys/resource.h>
#include <time.h>
#include <unistd.h>

enum { DEBUGGERS = 3, CALLERS = 4, CALLS = 200, LONG = 60000 };

static char scenario[4096], lines[4096]; /* files of records */

static int failed;
static pthread_mutex_t failing = PTHREAD_MUTEX_INITIALIZER;

static void check(int truth, int line, const char *text)
{
    if (truth)
        return;
    pthread_mutex_lock(&failing);
    printf("FAILED: line %d: %s\n", line, text);
    failed = 1;
    pthread_mutex_unlock(&failing);
}

#define CHECK(truth) check((truth), __LINE__, #truth)

/* the call is refused with this errno */
#define REFUSED(error, call) (errno = 0, check((call) == -1 && errno == (error), __LINE__, #call))

static void start(pthread_t *thread, void *(*body)(void *), void *argument)
{
    if (pthread_create(thread, NULL, body, argument) != 0)
        abort();
}

static long milliseconds(void)
{
    struct timespec now;
    clock_gettime(CLOCK_MONOTONIC, &now);
    return (long)now.tv_sec * 1000 + now.tv_nsec / 1000000;
}

/* a caller of a session, and the process that it traces */
struct party {
    th_host *host;
    th_caller self;
    th_pid target;
    th_lwpid lwp;
    int handles; /* it waits by th_handle_block */
    int collected;
};

static void spawn(struct party *p, th_host *h)
{
    p->host = h;
    p->self.user = 1001;
    CHECK(th_spawn(h, 1001, &p->self.pid, NULL) == 0 && th_spawn(h, 1001, &p->target, &p->lwp) == 0);
}

/* the lines that a session has recorded */
static void has_recorded(const char *wanted, int line)
{
    char got[4096];
    FILE *file = fopen(lines, "r");
    size_t length = file == NULL ? 0 : fread(got, 1, sizeof got - 1, file);
    got[length] = '\0';
    if (file != NULL)
        fclose(file);
    check(strcmp(got, wanted) == 0, line, got);
}

/* ---- one thread: what returns at once, and timeouts */

static void alone(void)
{
    th_host *h = th_open(NULL);
    th_caller self = {1001, 0};
    th_pid target;
    int status;
    CHECK(th_spawn(h, 1001, &self.pid, NULL) == 0 && th_spawn(h, 1001, &target, NULL) == 0);
    REFUSED(ECHILD, th_wait4_block(h, self, -1, &status, 0, LONG));
    REFUSED(ECHILD, th_handle_block(h, self, NULL, LONG));
    REFUSED(EINVAL, th_wait4_block(h, self, -1, &status, 8, LONG));
    CHECK(th_ptrace(h, self, TH_PT_ATTACH, target, NULL, 0) == 0);
    CHECK(th_wait4_block(h, self, -1, &status, 0, LONG) == target && TH_WSTOPSIG(status) == TH_SIGSTOP);
    CHECK(th_wait4_block(h, self, -1, &status, TH_WNOHANG, LONG) == 0);
    REFUSED(TH_EHELD, th_wait4_block(h, (th_caller){1001, target}, -1, &status, 0, LONG));
    long before = milliseconds();
    REFUSED(ETIMEDOUT, th_wait4_block(h, self, -1, &status, 0, 0));
    REFUSED(ETIMEDOUT, th_wait4_block(h, self, -1, &status, 0, 30));
    REFUSED(ETIMEDOUT, th_handle_block(h, self, NULL, 30));
    REFUSED(ETIMEDOUT, th_until_blocked(h, 1, 30));
    CHECK(milliseconds() - before >= 90);
    CHECK(th_until_blocked(h, 0, 0) == 0);
    CHECK(th_ptrace(h, self, TH_PT_CONTINUE, target, NULL, 0) == 0);
    CHECK(th_close(h) == 0);
}

/* ---- two threads: the same steps in every run */

static void *debugger(void *argument)
{
    struct party *p = argument;
    int status;
    CHECK(th_ptrace(p->host, p->self, TH_PT_ATTACH, p->target, NULL, 0) == 0);
    while (th_wait4_block(p->host, p->self, -1, &status, 0, LONG) == p->target)
        if (TH_WIFSTOPPED(status))
            CHECK(th_ptrace(p->host, p->self, TH_PT_CONTINUE, p->target, NULL, 0) == 0);
    CHECK(errno == ECHILD && TH_WIFEXITED(status) && TH_WEXITSTATUS(status) == 3);
    return NULL;
}

static void two_threads(void)
{
    struct party p = {0};
    pthread_t thread;
    th_host *h = th_open(NULL);
    CHECK(th_record(h, scenario, lines) == 0);
    spawn(&p, h);
    start(&thread, debugger, &p);
    CHECK(th_until_blocked(h, 1, LONG) == 0);
    CHECK(th_turn_raise(h, 1001, p.lwp, TH_SIGUSR1, NULL) == 0);
    CHECK(th_turn_compute(h, 1001, p.lwp, NULL) == 0);
    CHECK(th_until_blocked(h, 1, LONG) == 0);
    REFUSED(ESRCH, th_turn_compute(h, 1001, 100077, NULL));
    CHECK(th_turn_enter(h, 1001, p.lwp, TH_CALL_EXIT, 3, NULL) == 0);
    CHECK(th_turn_leave(h, 1001, p.lwp, NULL) == 0);
    pthread_join(thread, NULL);
    CHECK(th_close(h) == 0);
    /* a wait is asked when it begins, and after each step of the other thread, except the one that is refused */
    has_recorded("1001 1 new 1000 100000\n1001 2 new 1001 100001\n"
                 "1001 3 ok\n1001 4 status 1001 4479\n1001 5 ok\n1001 6 nothing\n"
                 "1001 7 ok\n1001 8 nothing\n"
                 "1001 9 stopped 100001 30 flags=none\n1001 10 status 1001 7807\n1001 11 ok\n1001 12 nothing\n"
                 "1001 13 error ESRCH 3\n1001 14 ok\n1001 15 nothing\n"
                 "1001 16 ended 768\n1001 17 status 1001 768\n1001 18 error ECHILD 10\n",
        __LINE__);
}

/* ---- three waits: asked in the order in which they blocked, once for each step */

static void *collector(void *argument)
{
    struct party *p = argument;
    th_pid pid = p->handles ? th_handle_block(p->host, p->self, NULL, LONG) : th_wait4_block(p->host, p->self, -1, NULL, 0, LONG);
    p->collected = pid == p->target;
    return NULL;
}

static void three_waits(void)
{
    struct party parties[DEBUGGERS] = {{0}};
    pthread_t threads[DEBUGGERS];
    th_host *h = th_open(NULL);
    CHECK(th_record(h, scenario, lines) == 0);
    for (int i = 0; i < DEBUGGERS; i++) {
        spawn(&parties[i], h);
        CHECK(th_ptrace(h, parties[i].self, TH_PT_ATTACH, parties[i].target, NULL, 0) == 0);
        CHECK(th_wait4(h, parties[i].self, -1, NULL, 0) == parties[i].target);
        CHECK(th_ptrace(h, parties[i].self, TH_PT_CONTINUE, parties[i].target, NULL, 0) == 0);
    }
    parties[2].handles = 1;
    for (int i = 0; i < DEBUGGERS; i++) {
        start(&threads[i], collector, &parties[i]);
        CHECK(th_until_blocked(h, (size_t)i + 1, LONG) == 0);
    }
    CHECK(th_kill(h, parties[0].self, parties[1].target, TH_SIGUSR2) == 0);
    CHECK(th_turn_compute(h, 1001, parties[1].lwp, NULL) == 0);
    pthread_join(threads[1], NULL);
    CHECK(th_turn_raise(h, 1001, parties[0].lwp, TH_SIGKILL, NULL) == 0);
    pthread_join(threads[0], NULL);
    CHECK(th_turn_raise(h, 1001, parties[2].lwp, TH_SIGKILL, NULL) == 0);
    pthread_join(threads[2], NULL);
    for (int i = 0; i < DEBUGGERS; i++)
        CHECK(parties[i].collected);
    CHECK(th_close(h) == 0);
    /* a wait that collects changes something too, so that the others are asked again */
    has_recorded("1001 1 new 1000 100000\n1001 2 new 1001 100001\n1001 3 ok\n1001 4 status 1001 4479\n1001 5 ok\n"
                 "1001 6 new 1002 100002\n1001 7 new 1003 100003\n1001 8 ok\n1001 9 status 1003 4479\n1001 10 ok\n"
                 "1001 11 new 1004 100004\n1001 12 new 1005 100005\n1001 13 ok\n1001 14 status 1005 4479\n1001 15 ok\n"
                 "1001 16 nothing\n1001 17 nothing\n1001 18 nothing\n"
                 "1001 19 ok\n1001 20 nothing\n1001 21 nothing\n1001 22 nothing\n"
                 "1001 23 stopped 100003 31 flags=none\n1001 24 nothing\n1001 25 status 1003 8063\n"
                 "1001 26 nothing\n1001 27 nothing\n"
                 "1001 28 ended 9\n1001 29 status 1001 9\n1001 30 nothing\n"
                 "1001 31 ended 9\n1001 32 status 1005 9\n",
        __LINE__);
}

/* ---- the end of the session, and refused steps */

static void *waits_for_the_end(void *argument)
{
    struct party *p = argument;
    REFUSED(EPIPE, th_wait4_block(p->host, p->self, -1, NULL, 0, LONG));
    return NULL;
}

/* A step that can't be recorded ends the session: the wait that is blocked too. */
static void broken(void)
{
    struct party p = {0};
    struct rlimit old, none;
    pthread_t thread;
    th_host *h = th_open(NULL);
    CHECK(th_record(h, scenario, lines) == 0);
    spawn(&p, h);
    CHECK(th_ptrace(h, p.self, TH_PT_ATTACH, p.target, NULL, 0) == 0 && th_wait4(h, p.self, -1, NULL, 0) == p.target);
    start(&thread, waits_for_the_end, &p);
    CHECK(th_until_blocked(h, 1, LONG) == 0 && getrlimit(RLIMIT_FSIZE, &old) == 0);
    none = old;
    none.rlim_cur = 1;
    CHECK(setrlimit(RLIMIT_FSIZE, &none) == 0);
    REFUSED(TH_ERECORD, th_spawn(h, 1001, NULL, NULL));
    CHECK(setrlimit(RLIMIT_FSIZE, &old) == 0);
    pthread_join(thread, NULL);
    REFUSED(EPIPE, th_until_blocked(h, 1, LONG));
    CHECK(th_close(h) == 0);
}

static void *is_refused(void *argument)
{
    struct party *p = argument;
    REFUSED(TH_EREFUSED, th_kill(p->host, (th_caller){2000, 1000}, 1, 0));
    CHECK(strcmp(th_fault(p->host), "BadUser") == 0);
    return NULL;
}

/* a fault is that of the thread's own step, and of its session */
static void faults(void)
{
    struct party p = {0};
    pthread_t thread;
    th_host *other = th_open(NULL);
    spawn(&p, th_open(NULL));
    start(&thread, is_refused, &p);
    pthread_join(thread, NULL);
    CHECK(th_fault(p.host)[0] == '\0' && th_reason(p.host)[0] == '\0');
    is_refused(&p);
    CHECK(th_fault(other)[0] == '\0' && th_reason(other)[0] == '\0');
    CHECK(th_close(p.host) == 0 && th_close(other) == 0);
}

/* ---- many calls at once, with waits among them */

static void *many_calls(void *argument)
{
    struct party *p = argument;
    struct th_turned turned;
    for (int i = 0; i < CALLS; i++) {
        CHECK(th_turn_compute(p->host, 1001, p->lwp, &turned) == 0 && turned.what == TH_DONE);
        REFUSED(ETIMEDOUT, th_wait4_block(p->host, (th_caller){1001, 1000}, -1, NULL, 0, i % 50 == 0));
    }
    return NULL;
}

static void at_once(void)
{
    struct party parties[CALLERS];
    pthread_t threads[CALLERS];
    th_host *h = th_open(NULL);
    th_caller parent = {1001, 1000};
    struct th_turned turned;
    th_lwpid lwp;
    CHECK(th_spawn(h, 1001, NULL, &lwp) == 0);
    /* a child, so that the waits have something to wait for */
    CHECK(th_turn_enter(h, 1001, lwp, TH_CALL_FORK, 0, NULL) == 0 && th_turn_leave(h, 1001, lwp, &turned) == 0);
    for (int i = 0; i < CALLERS; i++) {
        parties[i].host = h;
        CHECK(th_spawn(h, 1001, NULL, &parties[i].lwp) == 0);
    }
    for (int i = 0; i < CALLERS; i++)
        start(&threads[i], many_calls, &parties[i]);
    for (int i = 0; i < CALLERS; i++)
        pthread_join(threads[i], NULL);
    CHECK(th_wait4(h, parent, -1, NULL, 0) == 0);
    CHECK(th_close(h) == 0);
}

int main(int argc, char **argv)
{
    if (argc != 3)
        return 2;
    int runs = atoi(argv[2]);
    snprintf(scenario, sizeof scenario, "%s/threads.json", argv[1]);
    snprintf(lines, sizeof lines, "%s/threads.out", argv[1]);
    alone();
    for (int i = 0; i < runs && !failed; i++)
        two_threads();
    for (int i = 0; i < runs && !failed; i++)
        three_waits();
    broken();
    faults();
    at_once();
    if (!failed)
        printf("the tests of sessions of several threads passed\n");
    return failed;
}
