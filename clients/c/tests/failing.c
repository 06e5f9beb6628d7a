/*
 * Tests that fail, or pass, in the ways that their names say. tests/python/test_failed_tests.py looks at what they leave.
 *
 *     failing CASE [NAME]
 *
 * Its status is 1 if a test failed, and 0 if all passed.
 */
#define _POSIX_C_SOURCE 200809L

#include "../tracehost_client.h"

#include <assert.h>
#include <pthread.h>
#include <signal.h>
#include <stdint.h>
#include <stdio.h>
#include <stdlib.h>
#include <string.h>
#include <sys/stat.h>
#include <sys/wait.h>
#include <unistd.h>

enum { USER = 1001, THREADS = 8 };

static th_host *begin(const char *name)
{
    th_host *h = th_open(NULL);
    if (h == NULL || th_test_begin(h, name) != 0)
        abort();
    return h;
}

/* A debugger that takes a SIGSEGV of its target for the end of a PT_STEP: 1 if its test passes. */
static int attaches(th_host *h, int wanted)
{
    th_caller debugger = {USER, 0};
    th_pid target;
    th_lwpid lwp;
    int status = 0;
    th_spawn(h, USER, &debugger.pid, NULL);
    th_spawn(h, USER, &target, &lwp);
    th_ptrace(h, debugger, TH_PT_ATTACH, target, NULL, 0);
    th_wait4(h, debugger, -1, &status, 0);
    th_ptrace(h, debugger, TH_PT_STEP, target, NULL, 0);
    th_turn_raise(h, USER, lwp, TH_SIGSEGV, NULL);
    th_turn_compute(h, USER, lwp, NULL);
    th_wait4(h, debugger, -1, &status, 0);
    return TH_EXPECT(h, TH_WSTOPSIG(status) == wanted);
}

static int run(const char *name, int wanted)
{
    th_host *h = begin(name);
    int failed = th_test_end(h, attaches(h, wanted));
    return th_close(h) != 0 || failed;
}

static int passes(const char *name) { return run(name, TH_SIGSEGV); }

static int fails(const char *name) { return run(name, TH_SIGTRAP); }

static int twice(const char *name) { return fails(name) + fails(name) == 2; }

static void *fails_in_a_thread(void *name) { return fails(name) ? name : NULL; }

static int threads(const char *name)
{
    pthread_t all[THREADS];
    void *failed = NULL;
    int count = 0;
    for (int i = 0; i < THREADS; i++)
        if (pthread_create(&all[i], NULL, fails_in_a_thread, (void *)name) != 0)
            abort();
    for (int i = 0; i < THREADS; i++) {
        pthread_join(all[i], &failed);
        count += failed != NULL;
    }
    return count == THREADS;
}

/* The child goes on with a copy of the session, and fails; the parent passes. */
static int forks(const char *name)
{
    th_host *h = begin(name);
    int status;
    pid_t child = fork();
    if (child == 0)
        _exit(th_test_end(h, attaches(h, TH_SIGTRAP)) ? 7 : 8);
    waitpid(child, &status, 0);
    int failed = th_test_end(h, attaches(h, TH_SIGSEGV) && WEXITSTATUS(status) == 7);
    return th_close(h) != 0 || failed;
}

/* The child is ended by abort(3). */
static int forks_and_aborts(const char *name)
{
    th_host *h = begin(name);
    int status;
    pid_t child = fork();
    if (child == 0)
        abort();
    waitpid(child, &status, 0);
    int failed = th_test_end(h, attaches(h, TH_SIGSEGV) && WIFSIGNALED(status));
    return th_close(h) != 0 || failed;
}

static int aborts(const char *name)
{
    th_host *h = begin(name);
    attaches(h, TH_SIGSEGV);
    assert(h == NULL);
    return 0;
}

static void *aborts_in_a_thread(void *host)
{
    assert(host == NULL);
    return NULL;
}

/* The test that failed isn't the only one, and another thread aborts. */
static int aborts_elsewhere(const char *name)
{
    th_host *h = begin(name), *other = begin("other");
    pthread_t thread;
    attaches(h, TH_SIGSEGV);
    attaches(other, TH_SIGSEGV);
    th_test_end(other, 1);
    th_close(other);
    pthread_create(&thread, NULL, aborts_in_a_thread, h);
    pthread_join(thread, NULL);
    return 0;
}

static void leave(int signal) { _exit(signal == SIGABRT ? 9 : 0); }

/* The program does something with SIGABRT itself. */
static int handles_abort(const char *name)
{
    struct sigaction own = {.sa_handler = leave};
    sigaction(SIGABRT, &own, NULL);
    return aborts(name);
}

/* $TEST_SIGNAL ends it: a number, or "fault"; it waits for one by "wait", and without it, it passes. */
static int is_signalled(const char *name)
{
    th_host *h = begin(name);
    const char *how = getenv("TEST_SIGNAL");
    int passed = attaches(h, TH_SIGSEGV);
    if (how != NULL && strcmp(how, "fault") == 0)
        *(volatile char *)(uintptr_t)8 = 1;
    else if (how != NULL && strcmp(how, "wait") == 0)
        while (puts("waits") < 0 || fflush(stdout) != 0 || pause() == -1)
            continue;
    else if (how != NULL)
        kill(getpid(), atoi(how));
    int failed = th_test_end(h, passed);
    return th_close(h) != 0 || failed;
}

/* Which tests fail, by $FAILING: all, none, or those with an even number. */
static int is_to_fail(int number)
{
    const char *failing = getenv("FAILING");
    return failing == NULL ? number % 2 == 0 : strcmp(failing, "all") == 0;
}

/* The test PREFIX.N makes 1 to 5 steps. */
static int numbered(const char *prefix, int number)
{
    char name[64];
    snprintf(name, sizeof name, "%s.%d", prefix, number);
    th_host *h = begin(name);
    for (int i = 0; i <= number % 5; i++)
        th_spawn(h, USER, NULL, NULL);
    int failed = th_test_end(h, !is_to_fail(number));
    return th_close(h) != 0 || failed;
}

static int one(const char *number) { return numbered("one", atoi(number)); }

struct share {
    int first, count, failed;
};

static void *run_share(void *given)
{
    struct share *share = given;
    for (int i = share->first; i < share->count; i += THREADS)
        share->failed |= numbered("many", i);
    return NULL;
}

/* So many tests, in threads. */
static int many(const char *count)
{
    pthread_t all[THREADS];
    struct share shares[THREADS];
    int failed = 0;
    for (int i = 0; i < THREADS; i++) {
        shares[i] = (struct share){i, atoi(count), 0};
        if (pthread_create(&all[i], NULL, run_share, &shares[i]) != 0)
            abort();
    }
    for (int i = 0; i < THREADS; i++) {
        pthread_join(all[i], NULL);
        failed |= shares[i].failed;
    }
    return failed;
}

/* Makes the steps of the lines of the file $STEPS, and fails. */
static int steps(const char *name)
{
    char line[4096], answer[4096];
    FILE *file = fopen(getenv("STEPS"), "r");
    th_host *h = begin(name);
    while (file != NULL && fgets(line, sizeof line, file) != NULL) {
        line[strcspn(line, "\n")] = '\0';
        if (th_step_text(h, line, answer, sizeof answer) < 0)
            abort();
    }
    if (file != NULL)
        fclose(file);
    int failed = th_test_end(h, TH_EXPECT(h, file == NULL));
    return th_close(h) != 0 || failed;
}

static int closes(const char *name)
{
    th_host *h = begin(name);
    attaches(h, TH_SIGSEGV);
    return th_close(h) == 0;
}

static int no_step(const char *name)
{
    th_host *h = begin(name);
    int failed = th_test_end(h, 0);
    return th_close(h) != 0 || failed;
}

/* What begins too late, or ends without a beginning. */
static int misuse(const char *name)
{
    th_host *h = th_open(NULL);
    int is_wrong = th_test_end(h, 1) != 0 || th_test_end(h, 0) != 1;
    th_spawn(h, USER, NULL, NULL);
    errno = 0;
    is_wrong |= th_test_begin(h, name) != -1 || errno != EBUSY;
    th_close(h);
    h = begin(name);
    is_wrong |= th_test_begin(h, name) != -1 || th_record(h, "/nowhere/x", NULL) != -1 || th_test_end(h, 1) != 0;
    return th_close(h) != 0 || is_wrong;
}

/* It closes the record's files, and opens its own, which get their numbers and stay empty. */
static int closes_files(const char *name)
{
    struct stat status;
    FILE *own[64];
    int is_whole = 1, count = 0;
    th_host *h = begin(name);
    for (int file = 3; file < 64; file++)
        if (fstat(file, &status) == 0 && S_ISREG(status.st_mode) && close(file) == 0 && (own[count] = tmpfile()) != NULL)
            is_whole &= fileno(own[count++]) == file;
    int failed = th_test_end(h, attaches(h, TH_SIGSEGV));
    failed |= th_close(h) != 0;
    while (count-- > 0)
        is_whole &= fstat(fileno(own[count]), &status) == 0 && status.st_size == 0 && fclose(own[count]) == 0;
    return failed || !is_whole;
}

int main(int argc, char **argv)
{
    static const struct {
        const char *name;
        int (*run)(const char *name);
    } cases[] = {{"passes", passes}, {"fails", fails}, {"twice", twice}, {"threads", threads}, {"forks", forks},
        {"forks_and_aborts", forks_and_aborts}, {"aborts", aborts}, {"aborts_elsewhere", aborts_elsewhere},
        {"handles_abort", handles_abort}, {"is_signalled", is_signalled}, {"one", one}, {"many", many}, {"steps", steps},
        {"closes", closes}, {"closes_files", closes_files}, {"no_step", no_step}, {"misuse", misuse}};
    for (size_t i = 0; argc > 1 && i < sizeof cases / sizeof cases[0]; i++)
        if (strcmp(cases[i].name, argv[1]) == 0)
            return cases[i].run(argc > 2 ? argv[2] : argv[1]);
    return 2;
}
