/* The page of a test that has failed, which the program and the viewer make, and its story, which tracehost-debug tells. */
#define _POSIX_C_SOURCE 200809L

#include "internal.h"

#include <fcntl.h>
#include <poll.h>
#include <signal.h>
#include <spawn.h>
#include <stdio.h>
#include <stdlib.h>
#include <sys/wait.h>
#include <unistd.h>

#ifndef TH_SECONDS_FOR_A_PAGE /* a test has less */
#define TH_SECONDS_FOR_A_PAGE 300
#endif
#ifndef TH_SECONDS_FOR_A_STORY
#define TH_SECONDS_FOR_A_STORY 60
#endif

extern char **environ;

/* Its arguments: the scenario, the page, the test, the message, and the number of the step. */
static const char make_page[] =
    "for program in \"${TRACEHOST:=tracehost}\" \"${TRACEHOST_VIEW:=tracehost-view}\"; do\n"
    "  command -v \"$program\" >/dev/null || { echo \"tracehost: there is no $program for the page\"; exit 1; }\n"
    "done\n"
    "trace=$(\"$TRACEHOST\" --json=trace+rows -- \"$1\") && printf '%s\\n' \"$trace\" |\n"
    "  \"$TRACEHOST_VIEW\" -o \"$2\" --title=\"$3\" --failed=\"$3\" --message=\"$4\" --at=\"$5\" -\n";

void thp_page_command(
    const char *argv[THP_PAGE_WORDS], const struct thp_artifacts *a, const char *test, const char *message, const char *step)
{
    const char *const words[THP_PAGE_WORDS] = {"/bin/sh", "-c", make_page, "sh", a->scenario, a->page, test, message, step, NULL};
    for (size_t i = 0; i < COUNT(words); i++)
        argv[i] = words[i];
}

/* Waits for a group of processes by its first one, and kills it if it doesn't end. Returns whether it ended with status 0. */
static int wait_for_group(pid_t child, int seconds)
{
    int status;
    for (int times = 0; times < seconds * 100; times++) {
        pid_t ended = waitpid(child, &status, WNOHANG);
        if (ended > 0)
            return WIFEXITED(status) && WEXITSTATUS(status) == 0;
        if (ended < 0 && errno != EINTR) /* a program that ignores SIGCHLD gets no status */
            return 0;
        poll(NULL, 0, 10);
    }
    kill(-child, SIGKILL);
    while (waitpid(child, &status, 0) < 0 && errno == EINTR)
        continue;
    return 0;
}

void thp_wait_for_page(pid_t child) { wait_for_group(child, TH_SECONDS_FOR_A_PAGE); }

/* Runs the command with standard error as its output, as a group of processes; its first one, or -1. */
static pid_t spawn_group(const char *const argv[])
{
    posix_spawn_file_actions_t files;
    posix_spawnattr_t attributes;
    pid_t child = -1;
    if (posix_spawn_file_actions_init(&files) != 0)
        return -1;
    if (posix_spawnattr_init(&attributes) == 0) {
        int error = posix_spawn_file_actions_addopen(&files, STDIN_FILENO, "/dev/null", O_RDONLY, 0);
        if (error == 0)
            error = posix_spawn_file_actions_adddup2(&files, STDERR_FILENO, STDOUT_FILENO);
        if (error == 0)
            error = posix_spawnattr_setflags(&attributes, POSIX_SPAWN_SETPGROUP);
        if (error != 0 || posix_spawnp(&child, argv[0], &files, &attributes, (char *const *)argv, environ) != 0)
            child = -1;
        posix_spawnattr_destroy(&attributes);
    }
    posix_spawn_file_actions_destroy(&files);
    return child;
}

int thp_make_page(const struct thp_artifacts *a, const char *test, const char *message, size_t step)
{
    const char *argv[THP_PAGE_WORDS];
    char number[24];
    if (step == 0)
        return -1;
    snprintf(number, sizeof number, "%zu", step);
    thp_page_command(argv, a, test, message, number);
    pid_t child = spawn_group(argv);
    if (child < 0)
        return -1;
    thp_wait_for_page(child);
    return access(a->page, F_OK);
}

int thp_tell_story(const struct thp_artifacts *a, size_t step)
{
    const char *named = getenv("TRACEHOST_DEBUG"), *program = named == NULL ? "tracehost-debug" : named;
    char number[32];
    if (step == 0 || program[0] == '\0')
        return -1;
    snprintf(number, sizeof number, "--at=%zu", step);
    const char *const argv[] = {program, "--story", number, "--", a->scenario, NULL};
    fflush(stderr);
    pid_t child = spawn_group(argv);
    return child >= 0 && wait_for_group(child, TH_SECONDS_FOR_A_STORY) ? 0 : -1;
}
