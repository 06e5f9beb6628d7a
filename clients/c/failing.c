/* Tests that leave their session if they fail: tracehost_client.h describes each call. */
#define _POSIX_C_SOURCE 200809L

#include "internal.h"

#include <stdio.h>
#include <stdlib.h>
#include <string.h>
#include <unistd.h>

struct thp_test *volatile thp_tests;
static pthread_mutex_t tests_lock = PTHREAD_MUTEX_INITIALIZER;

/* ---------------------------------------------------------------- begin and end */

/* A test that isn't used; NULL if memory runs out. */
static struct thp_test *take_test(void)
{
    struct thp_test *test = thp_tests;
    while (test != NULL && test->host != NULL)
        test = test->next;
    if (test == NULL) {
        test = calloc(1, sizeof *test);
        if (test == NULL)
            return NULL;
        test->next = thp_tests;
        thp_tests = test;
    }
    return test;
}

static struct thp_test *open_test(th_host *h, const char *name)
{
    pthread_mutex_lock(&tests_lock);
    struct thp_test *test = take_test();
    if (test != NULL) {
        test->host = h;
        test->owner = getpid();
        test->file.number = -1;
        test->has_failed = 0;
        test->message[0] = '\0';
        snprintf(test->name, sizeof test->name, "%s", name);
        thp_watch_signals();
        test->is_open = 1;
    }
    pthread_mutex_unlock(&tests_lock);
    return test;
}

static void close_test(struct thp_test *test)
{
    pthread_mutex_lock(&tests_lock);
    test->is_open = 0;
    test->host->test = NULL;
    test->host = NULL;
    pthread_mutex_unlock(&tests_lock);
}

void thp_tell_lost_record(const th_host *h, int error)
{
    const struct thp_test *test = h->test;
    const struct thp_artifacts *a = &test->artifacts;
    const char *file = a->scenario_now[0] != '\0' ? a->scenario_now : a->folder;
    fprintf(stderr, "tracehost: %s: not recorded from step %zu on: %s: %s\n", test->name, h->steps + 1, file, strerror(error));
}

int th_test_begin(th_host *h, const char *name)
{
    int scenario, lines, result = 0;
    thp_enter(h);
    if (h->test != NULL || h->answered || h->scenario.number >= 0) {
        errno = EBUSY;
        result = -1;
    } else if ((h->test = open_test(h, name)) == NULL) {
        result = -1;
    } else if (thp_open_artifacts(&h->test->artifacts, name, &scenario, &lines) != 0) {
        thp_tell_lost_record(h, errno);
    } else {
        h->test->file = thp_file_of(scenario);
        if (thp_begin_record(h, scenario, lines) != 0)
            thp_tell_lost_record(h, errno);
    }
    thp_leave(h);
    return result;
}

void th_test_fail(th_host *h, const char *file, int line, const char *message)
{
    const char *why = th_explain(h);
    fprintf(stderr, "%s:%d: %s%s%s\n", file, line, message, why[0] != '\0' ? "\n  " : "", why);
    thp_enter(h);
    struct thp_test *test = h->test;
    if (test != NULL && !test->has_failed) {
        snprintf(test->message, sizeof test->message, "%s\n%s:%d\n%s", message, file, line, why);
        test->step = h->steps;
        test->has_failed = 1;
    }
    thp_leave(h);
}

/* Makes the page, and says what is left, and what the session comes to. */
static void leave(const struct thp_test *test)
{
    const struct thp_artifacts *a = &test->artifacts;
    if (thp_keep_artifacts(a, 0) != 0) {
        fprintf(stderr, "tracehost: the record stays %s: %s\n", a->scenario_now, strerror(errno));
        return;
    }
    size_t step = test->has_failed ? test->step : test->host->steps;
    int has_page = thp_make_page(a, test->name, test->message, step) == 0;
    fprintf(stderr, "tracehost: scenario: %s\ntracehost: lines:    %s\ntracehost: page:     %s\n", a->scenario, a->lines,
        has_page ? a->page : "none");
    if (thp_tell_story(a, step) != 0) /* whose last line is this command */
        fprintf(stderr, "tracehost: to go on from here: tracehost-debug %s\n", a->scenario);
}

int th_test_end(th_host *h, int passed)
{
    struct thp_test *test = h->test;
    if (test == NULL)
        return !passed;
    int failed = !passed || test->has_failed, is_mine = test->owner == getpid();
    thp_enter(h);
    h->scenario.number = -1; /* it stays open, and locked, until it has its last name */
    thp_close_record(h);
    thp_leave(h);
    if (is_mine && test->file.number >= 0)
        thp_leave_trace(&test->artifacts, test->file.number);
    if (is_mine && test->file.number >= 0 && failed)
        leave(test);
    if (is_mine)
        thp_end_artifacts(&test->artifacts, failed && test->file.number >= 0);
    thp_close_file(&test->file);
    close_test(test);
    return failed;
}

void thp_end_test(th_host *h)
{
    if (h->test == NULL)
        return;
    if (!h->test->has_failed)
        snprintf(h->test->message, sizeof h->test->message, "th_close came before th_test_end");
    th_test_end(h, 0);
}
