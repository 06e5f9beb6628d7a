/* tracehost-play: plays sessions of the model on the kernel of this machine, and says what the kernel does otherwise.
 *
 * The outer process reads the command line and waits; the inner one plays. If the kernel has private numbers of processes, the
 * inner one is process 1 of its own, so nothing outlives it; elsewhere each of the two ends what the other leaves. */
#include <errno.h>
#include <fcntl.h>
#include <getopt.h>
#include <poll.h>
#include <signal.h>
#include <stdarg.h>
#include <stdlib.h>
#include <string.h>
#include <sys/mman.h>
#include <sys/resource.h>
#include <sys/stat.h>
#include <sys/wait.h>
#include <time.h>
#include <unistd.h>
#include "play.h"

struct stage *stage;
static bool is_inner;
static const char *results_name;
static FILE *results;

double seconds_now(void)
{
    struct timespec now;
    clock_gettime(CLOCK_MONOTONIC, &now);
    return (double)now.tv_sec + (double)now.tv_nsec / 1e9;
}

/* ---- the end */

/* Ends all puppets, if they don't end with this process. */
static void end_puppets(void)
{
    enum { SECONDS = 10 };
    const double end = seconds_now() + SECONDS;
    if (!system_is_reaper)
        system_kill_all();
    if (!system_is_reaper || private_numbers)
        return;
    close(IMAGE_DESCRIPTOR); /* looking for them may need the last descriptor that there is */
    while (seconds_now() < end) {
        system_kill_all();
        if (waitpid(-1, NULL, WNOHANG) < 0 && errno == ECHILD)
            return;
    }
}

static bool is_written(FILE *file, const char *name)
{
    if (fflush(file) == 0 && !ferror(file))
        return true;
    fprintf(stderr, "tracehost-play: cannot write %s: %s\n", name, strerror(errno));
    return false;
}

void finish(int status)
{
    if (is_inner)
        end_puppets();
    bool written = is_written(stdout, "standard output");
    if (results != NULL)
        written = is_written(results, results_name) && written;
    _exit(written ? status : STATUS_FAULT);
}

void fault(const char *format, ...)
{
    char text[LONG_TEXT];
    va_list arguments;
    va_start(arguments, format);
    vsnprintf(text, sizeof text, format, arguments);
    va_end(arguments);
    fprintf(stderr, "tracehost-play: %s\n", text);
    finish(STATUS_FAULT);
}

/* ---- the command line */

struct options {
    const char *differences;
    char **files;
    long parent; /* with which it ends; 0: with none */
};

static void __attribute__((noreturn)) usage(void)
{
    fprintf(stderr, "usage: tracehost-play [--differences FILE] [--kill-on-debugger-exit 0|1] [--parent PID] [--results FILE] "
                    "[--time SECONDS] [SESSIONS ..]\n");
    _exit(STATUS_WRONG);
}

static void read_options(int count, char **words, struct options *options)
{
    static const struct option names[] = {{"differences", required_argument, NULL, 'd'},
        {"kill-on-debugger-exit", required_argument, NULL, 'k'}, {"parent", required_argument, NULL, 'p'},
        {"results", required_argument, NULL, 'r'}, {"time", required_argument, NULL, 't'}, {NULL, 0, NULL, 0}};
    char *end;
    for (int found; (found = getopt_long(count, words, "", names, NULL)) != -1;) {
        switch (found) {
        case 'd': options->differences = optarg; break;
        case 'r': results_name = optarg; break;
        case 'k':
            if (strcmp(optarg, "0") != 0 && strcmp(optarg, "1") != 0)
                usage();
            kills_on_debugger_exit = *optarg - '0';
            break;
        case 'p':
            options->parent = strtol(optarg, &end, 10);
            if (end == optarg || *end != 0 || options->parent < 1)
                usage();
            break;
        case 't':
            time_limit = strtod(optarg, &end);
            if (end == optarg || *end != 0 || !(time_limit > 0 && time_limit <= 86400))
                usage();
            break;
        default: usage();
        }
    }
    options->files = words + optind;
}

/* ---- what is inherited, and isn't the sessions' */

/* A descriptor that is closed isn't to become one of ours: nothing can be read from it, or written to it. */
static void open_standard(void)
{
    for (int descriptor = 0; descriptor <= 2; descriptor++)
        if (fcntl(descriptor, F_GETFD) < 0 && open("/dev/null", descriptor == 0 ? O_WRONLY : O_RDONLY) != descriptor)
            _exit(STATUS_FAULT);
}

static void raise_limit(int kind, bool privileged)
{
    struct rlimit limit;
    if (getrlimit(kind, &limit) < 0)
        return;
    limit.rlim_cur = limit.rlim_max;
    setrlimit(kind, &limit);
    limit.rlim_cur = limit.rlim_max = RLIM_INFINITY;
    if (privileged)
        setrlimit(kind, &limit);
}

/* A file that may grow no more is told by an error, as a full disk is. */
static void raise_limits(void)
{
    static const int limits[] = {RLIMIT_NPROC, RLIMIT_CPU, RLIMIT_FSIZE, RLIMIT_AS, RLIMIT_NOFILE};
    for (size_t i = 0; i < sizeof limits / sizeof *limits; i++)
        raise_limit(limits[i], geteuid() == 0);
    signal(SIGXFSZ, SIG_IGN);
}

static void reset_inherited(void)
{
    const struct rlimit none = {0, 0};
    sigset_t empty;
    for (int number = 1; number < MODEL_SIGNALS; number++)
        if (native_signal(number) > 0)
            signal(native_signal(number), SIG_DFL);
    sigemptyset(&empty);
    sigprocmask(SIG_SETMASK, &empty, NULL);
    setrlimit(RLIMIT_CORE, &none);
    setpriority(PRIO_PROCESS, 0, 0);
    umask(022);
    alarm(0);
}

/* ---- the inner process */

static void note_signal(int signal) { atomic_store(&stage->interrupted, signal); }

static void play_all(const struct options *options)
{
    if (options->differences != NULL)
        differences_read(options->differences);
    if (results_name != NULL) {
        results = fopen(results_name, "w");
        if (results == NULL)
            fault("cannot write %s: %s", results_name, strerror(errno));
        fprintf(results, "session\tverdict\tsteps compared\tsteps\tline\tstep\tmodel\tkernel\n");
    }
    if (*options->files == NULL)
        play_file(stdin, "standard input", results);
    for (char **name = options->files; *name != NULL; name++) {
        FILE *file = fopen(*name, "r");
        if (file == NULL)
            fault("cannot read %s: %s", *name, strerror(errno));
        play_file(file, *name, results);
        fclose(file);
    }
    finish(play_summary(results));
}

static void __attribute__((noreturn)) be_inner(int outer_lives, const struct options *options)
{
    struct pollfd outer = {.fd = outer_lives, .events = POLLIN};
    is_inner = true;
    if (system_is_reaper)
        reset_inherited();
    signal(SIGPIPE, SIG_IGN);
    signal(SIGXFSZ, SIG_IGN);
    if (!private_numbers)
        signal(SIGTERM, note_signal);
    if (system_is_reaper && !private_numbers)
        atomic_store(&stage->player, getpid());
    system_inner();
    if (system_is_reaper && poll(&outer, 1, 0) != 0) /* it has ended before it could be noticed */
        _exit(STATUS_FAULT);
    if (system_is_reaper && !private_numbers)
        fprintf(stderr, "tracehost-play: no private numbers of processes here: signals to all processes aren't tried\n");
    play_all(options);
    _exit(STATUS_FAULT);
}

/* ---- the outer process */

static void catch_signals(void)
{
    static const int ending[] = {SIGHUP, SIGINT, SIGQUIT, SIGTERM, SIGALRM, SIGUSR1, SIGUSR2, SIGVTALRM, SIGPROF, SIGXCPU};
    struct sigaction action = {.sa_handler = note_signal}, old;
    sigset_t empty;
    sigemptyset(&action.sa_mask);
    sigemptyset(&empty);
    for (size_t i = 0; i < sizeof ending / sizeof *ending; i++)
        if (sigaction(ending[i], NULL, &old) == 0 && old.sa_handler != SIG_IGN)
            sigaction(ending[i], &action, NULL);
    signal(SIGPIPE, SIG_IGN);
    signal(SIGCHLD, SIG_DFL);
    sigprocmask(SIG_SETMASK, &empty, NULL);
}

/* The status of the inner process. One that doesn't end after a signal is ended. */
static int await_inner(pid_t inner)
{
    enum { SECONDS = 5 };
    int status;
    bool told = false;
    while (waitpid(inner, &status, 0) != inner) {
        if (errno != EINTR)
            fault("cannot wait: %s", strerror(errno));
        if (told)
            kill(inner, SIGKILL);
        told = true;
        alarm(SECONDS);
    }
    if (WIFEXITED(status))
        return WEXITSTATUS(status);
    if (atomic_load(&stage->interrupted) != 0)
        fprintf(stderr, "tracehost-play: ended by signal %d\n", atomic_load(&stage->interrupted));
    else
        fprintf(stderr, "tracehost-play: the process that plays was ended by signal %d\n", WTERMSIG(status));
    return STATUS_FAULT;
}

static struct stage *map_stage(void)
{
    void *memory = mmap(NULL, sizeof(struct stage), PROT_READ | PROT_WRITE, MAP_SHARED, STAGE_DESCRIPTOR, 0);
    return memory == MAP_FAILED ? NULL : memory;
}

/* Moves the descriptor to the number under which puppets inherit it. */
static bool keep_as(int descriptor, int number)
{
    if (descriptor < 0 || (descriptor != number && dup2(descriptor, number) != number))
        return false;
    return descriptor == number || close(descriptor) == 0;
}

static void resume(char **words)
{
    stage = map_stage();
    int slot = atoi(words[1]);
    if (stage == NULL || slot < 0 || slot >= MOST_LWPS)
        _exit(STATUS_WRONG);
    puppet_resume(slot);
}

int main(int count, char **words)
{
    struct options options = {0};
    int lives[2];
    if (count == 2 && strcmp(words[0], PUPPET_NAME) == 0)
        resume(words);
    open_standard();
    read_options(count, words, &options);
    closefrom(STDERR_FILENO + 1);
    if (system_is_reaper)
        raise_limits();
    bool kept = keep_as(system_stage(sizeof(struct stage)), STAGE_DESCRIPTOR) && keep_as(system_image(), IMAGE_DESCRIPTOR);
    stage = kept ? map_stage() : NULL;
    if (stage == NULL || pipe(lives) < 0)
        fault("the host refuses memory: %s", strerror(errno));
    if (system_is_reaper)
        catch_signals();
    if (options.parent != 0) {
        system_end_with_parent();
        if (getppid() != options.parent)
            fault("process %ld, which it is to end with, didn't start it, or has ended", options.parent);
    }
    pid_t inner = system_fork_inner();
    if (inner < 0)
        fault("the host refuses a new process: %s", strerror(errno));
    if (inner == 0) {
        close(lives[1]);
        be_inner(lives[0], &options);
    }
    int status = await_inner(inner);
    end_puppets();
    return status;
}
