/*
 * Fuzzing of a debugger: bytes are steps of the world around it, and what the user sees of the host tells the fuzzer what is
 * new. For libFuzzer and AFL++, with clang, in C and C++.
 *
 *     #include <tracehost_fuzz.h>              // before the debugger's own sources, so that it sees their calls
 *     #include "debugger.c"
 *
 *     int LLVMFuzzerTestOneInput(const uint8_t *data, size_t size)
 *     {
 *         tracehost_fuzz world;
 *         tracehost_fuzz_open(&world, true, data, size);
 *         struct debugger d = start(&world.host, world.user);
 *         world.debugger = d.pid;              // the world makes no step of this process
 *         while (tracehost_fuzz_step(&world)) { // but turns, calls, signals and ends of the others
 *             collect(&d);
 *             TRACEHOST_FUZZ_CHECK(knows_its_tracees(&d));
 *         }
 *         tracehost_fuzz_close(&world);
 *         return 0;
 *     }
 *
 *     clang -g -fsanitize=fuzzer,address fuzz.c $(pkg-config --cflags --libs tracehost) -o fuzz && ./fuzz corpus
 *     afl-clang-fast -g -fsanitize=fuzzer fuzz.c .. -o fuzz && afl-fuzz -i corpus -o found ./fuzz
 *
 * A find is a check that fails, an abort, a fault of memory, or a report of AddressSanitizer. Its session is saved as that of a
 * failing test: PROGRAM.find-DIGEST.json and .out in $TRACEHOST_ARTIFACTS, or in the present folder, for `tracehost-debug`.
 *
 * A step is TRACEHOST_FUZZ_BYTES bytes. Its processes and LWPs are places in the user's rows, so most steps do something.
 * Without a debugger (0) the world makes all steps, and fuzzes the model.
 *
 * One thread fuzzes one session at a time. The calls of all sources with this header before them are noted: give it by -include
 * to those that are compiled apart.
 */
#ifndef TRACEHOST_FUZZ_H
#define TRACEHOST_FUZZ_H

#include <fcntl.h>
#include <signal.h>
#include <stdio.h>
#include <stdlib.h>
#include <string.h>
#include <unistd.h>

#include "tracehost.h"

#ifdef __cplusplus
extern "C" {
#endif

enum {
    TRACEHOST_FUZZ_BYTES = 4, /* of a step: which one, who, whom, and what */
    TRACEHOST_FUZZ_ROWS = 64, /* processes, and LWPs, that steps choose from */
    TRACEHOST_FUZZ_STATES = 1 << 13, /* that the fuzzer tells apart */
    TRACEHOST_FUZZ_LINE = 1 << 16, /* longer than any line */
    TRACEHOST_FUZZ_PATH = 4096
};

typedef struct tracehost_fuzz {
    tracehost host; /* the debugger may make any call on it */
    uint32_t user; /* whose steps these are */
    uint32_t debugger; /* its process; 0 for none */
    const uint8_t *data, *end;
} tracehost_fuzz;

/* Ends the run as a find, if the condition is false. */
#define TRACEHOST_FUZZ_CHECK(condition) ((condition) ? (void)0 : tracehost_fuzz_fail(__FILE__, __LINE__, #condition))

/* ---------------------------------------------------------------- what the fuzzer is told */

#if defined(__AFL_COMPILER) && defined(__clang__)
void __sanitizer_cov_trace_pc_guard(uint32_t *guard);
void __sanitizer_cov_trace_pc_guard_init(uint32_t *start, uint32_t *stop);
uint32_t tracehost_fuzz_states[TRACEHOST_FUZZ_STATES] __attribute__((weak));

__attribute__((weak, constructor)) void tracehost_fuzz_count_states(void)
{
    __sanitizer_cov_trace_pc_guard_init(tracehost_fuzz_states, tracehost_fuzz_states + TRACEHOST_FUZZ_STATES);
}
static inline void tracehost_fuzz_tell(size_t state) { __sanitizer_cov_trace_pc_guard(&tracehost_fuzz_states[state]); }
#else
/* libFuzzer looks at this section. */
uint8_t tracehost_fuzz_states[TRACEHOST_FUZZ_STATES] __attribute__((weak, used, section("__libfuzzer_extra_counters")));

static inline void tracehost_fuzz_tell(size_t state) { tracehost_fuzz_states[state] = 1; }
#endif

/* FNV-1a, by words */
static inline uint64_t tracehost_fuzz_mixed(uint64_t digest, uint64_t word) { return (digest ^ word) * 1099511628211u; }

/* The processes and LWPs that a user sees, as many as there is room for. */
struct tracehost_fuzz_rows {
    tracehost_process processes[TRACEHOST_FUZZ_ROWS];
    tracehost_lwp lwps[TRACEHOST_FUZZ_ROWS];
    size_t process_count, lwp_count;
};

static inline void tracehost_fuzz_look(tracehost *host, uint32_t user, struct tracehost_fuzz_rows *rows)
{
    size_t processes = 0, lwps = 0;
    tracehost_view(host, user, rows->processes, TRACEHOST_FUZZ_ROWS, rows->lwps, TRACEHOST_FUZZ_ROWS, &processes, &lwps);
    rows->process_count = processes < TRACEHOST_FUZZ_ROWS ? processes : (size_t)TRACEHOST_FUZZ_ROWS;
    rows->lwp_count = lwps < TRACEHOST_FUZZ_ROWS ? lwps : (size_t)TRACEHOST_FUZZ_ROWS;
}

/* The shape of an LWP: below 48. */
static inline unsigned tracehost_fuzz_lwp_shape(const tracehost_lwp *lwp)
{
    return (lwp->mode * 4 + lwp->due) * 4 + lwp->suspended * 2 + lwp->stepping;
}

static inline void tracehost_fuzz_tell_shapes(unsigned kind, unsigned one, unsigned other)
{
    uint64_t digest = tracehost_fuzz_mixed(tracehost_fuzz_mixed(kind, one), other);
    tracehost_fuzz_tell((digest ^ digest >> 32) % TRACEHOST_FUZZ_STATES);
}

/*
 * The fuzzer is told each shape of an LWP in each of its process, and each two shapes of processes at once. Numbers, signals and
 * masks are no part of a shape: with all of tracehost_state each number is new, and the fuzzer keeps thousands of inputs.
 */
static inline void tracehost_fuzz_tell_state(tracehost *host, uint32_t user)
{
    static struct tracehost_fuzz_rows rows;
    uint64_t there = 0;

    tracehost_fuzz_look(host, user, &rows);
    for (size_t i = 0; i < rows.process_count; i++) {
        const tracehost_process *process = &rows.processes[i];
        unsigned shape = process->state * 4 + process->told * 2 + (process->tracer != 0), kind = 0;
        for (size_t j = 0; j < rows.lwp_count; j++) {
            const tracehost_lwp *lwp = &rows.lwps[j];
            if (lwp->pid != process->pid)
                continue;
            tracehost_fuzz_tell_shapes(1, shape, tracehost_fuzz_lwp_shape(lwp) * 8 + (lwp->mode == 1 ? lwp->call : 7));
            unsigned own = lwp->mode == 2 ? 3 : lwp->due != 0 ? 2 : lwp->suspended;
            kind = own > kind ? own : kind;
        }
        there |= (uint64_t)1 << (shape % 16 * 4 + kind);
    }
    for (unsigned one = 0; one < 64; one++)
        for (unsigned other = one + 1; (there >> one & 1) && other < 64; other++)
            if (there >> other & 1)
                tracehost_fuzz_tell_shapes(2, one, other);
}

/* ---------------------------------------------------------------- the record of a run */

struct tracehost_fuzz_text {
    char *bytes;
    size_t length, size;
};

/* The session that is fuzzed: that of all sources of the program. */
struct tracehost_fuzz_run {
    const void *session; /* NULL for none */
    struct tracehost_fuzz_text steps, lines;
    uint32_t user;
    bool kills, is_cut, is_watching, is_saved;
    char folder[TRACEHOST_FUZZ_PATH / 2];
};
struct tracehost_fuzz_run tracehost_fuzz_run __attribute__((weak));

static inline void tracehost_fuzz_add(struct tracehost_fuzz_text *text, const void *more, size_t count)
{
    if (text->length + count > text->size) {
        text->size = 2 * (text->length + count) + 4096;
        text->bytes = (char *)realloc(text->bytes, text->size);
        if (text->bytes == NULL)
            abort();
    }
    memcpy(text->bytes + text->length, more, count);
    text->length += count;
}

/* Notes the step that was made last, and tells the fuzzer what the user sees now. Returns the call's code. */
static inline uint32_t tracehost_fuzz_noted(tracehost *host, uint32_t code)
{
    static uint8_t step[TRACEHOST_FUZZ_LINE], line[TRACEHOST_FUZZ_LINE];
    struct tracehost_fuzz_run *run = &tracehost_fuzz_run;
    size_t step_length, line_length;

    if (code != TRACEHOST_ANSWERED || run->session == NULL || host->session != run->session || run->is_cut)
        return code;
    if (tracehost_last_step(host, step, sizeof step, &step_length) != TRACEHOST_ANSWERED ||
        tracehost_last_line(host, false, line, sizeof line, &line_length) != TRACEHOST_ANSWERED) {
        run->is_cut = true; /* an event mask that no line has, or no memory is left */
        return code;
    }
    if (run->steps.length > 0)
        tracehost_fuzz_add(&run->steps, ",\n", 2);
    tracehost_fuzz_add(&run->steps, step, step_length);
    tracehost_fuzz_add(&run->lines, line, line_length);
    tracehost_fuzz_tell_state(host, run->user);
    return code;
}

/* ---------------------------------------------------------------- a find */

static inline void tracehost_fuzz_say(const char *label, const char *text)
{
    const char *parts[] = {"tracehost: ", label, text, "\n"};
    for (size_t i = 0; i < 4; i++)
        if (write(STDERR_FILENO, parts[i], strlen(parts[i])) < 0)
            return;
}

/* Appends to a path, which is cut at its greatest length. */
static inline void tracehost_fuzz_append(char *path, const char *more)
{
    size_t length = strlen(path), room = TRACEHOST_FUZZ_PATH - 1 - length, count = strlen(more);
    count = count < room ? count : room;
    memcpy(path + length, more, count);
    path[length + count] = '\0';
}

/* FOLDER/PROGRAM.find-DIGEST, with a digest of the steps */
static inline void tracehost_fuzz_name(char path[TRACEHOST_FUZZ_PATH])
{
    char program[TRACEHOST_FUZZ_PATH], digits[13] = "";
    const struct tracehost_fuzz_run *run = &tracehost_fuzz_run;
    ssize_t length = readlink("/proc/self/exe", program, sizeof program - 1);
    uint64_t digest = 14695981039346656037u;

    program[length < 0 ? 0 : length] = '\0';
    for (size_t i = 0; i < run->steps.length; i++)
        digest = tracehost_fuzz_mixed(digest, (unsigned char)run->steps.bytes[i]);
    for (size_t i = 0; i < sizeof digits - 1; i++)
        digits[i] = "0123456789abcdef"[digest >> (60 - 4 * i) & 15];
    strcpy(path, run->folder);
    tracehost_fuzz_append(path, "/");
    tracehost_fuzz_append(path, strrchr(program, '/') == NULL ? "fuzzer" : strrchr(program, '/') + 1);
    tracehost_fuzz_append(path, ".find-");
    tracehost_fuzz_append(path, digits);
}

/* Writes the parts into a new file. Returns whether it is whole; else there is none. */
static inline bool tracehost_fuzz_write(const char *path, const struct tracehost_fuzz_text parts[], size_t count)
{
    char made[TRACEHOST_FUZZ_PATH];
    strcpy(made, path);
    tracehost_fuzz_append(made, ".new");
    int file = open(made, O_WRONLY | O_CREAT | O_TRUNC | O_CLOEXEC, 0666);
    bool is_whole = file >= 0;
    for (size_t i = 0; i < count; i++)
        for (size_t done = 0; is_whole && done < parts[i].length;) {
            ssize_t written = write(file, parts[i].bytes + done, parts[i].length - done);
            is_whole = written >= 0;
            done += written < 0 ? 0 : (size_t)written;
        }
    is_whole = is_whole && close(file) == 0 && rename(made, path) == 0;
    if (file >= 0 && !is_whole)
        unlink(made);
    return is_whole;
}

static inline struct tracehost_fuzz_text tracehost_fuzz_part(const char *bytes)
{
    struct tracehost_fuzz_text part = {(char *)bytes, strlen(bytes), 0};
    return part;
}

/* Saves the session once, with only what the handler of a signal may call. */
static inline void tracehost_fuzz_save(void)
{
    static char scenario[TRACEHOST_FUZZ_PATH], lines[TRACEHOST_FUZZ_PATH];
    struct tracehost_fuzz_run *run = &tracehost_fuzz_run;
    struct tracehost_fuzz_text parts[4];

    if (run->session == NULL || run->is_saved)
        return;
    run->is_saved = true;
    tracehost_fuzz_name(scenario);
    strcpy(lines, scenario);
    tracehost_fuzz_append(scenario, ".json");
    tracehost_fuzz_append(lines, ".out");
    parts[0] = tracehost_fuzz_part(run->kills ? "{\"kill_on_debugger_exit\":1," : "{\"kill_on_debugger_exit\":0,");
    parts[1] = tracehost_fuzz_part("\"steps\":[\n");
    parts[2] = run->steps;
    parts[3] = tracehost_fuzz_part("\n]}\n");
    if (!tracehost_fuzz_write(scenario, parts, 4) || !tracehost_fuzz_write(lines, &run->lines, 1)) {
        tracehost_fuzz_say("the find can't be saved: ", scenario);
        return;
    }
    if (run->is_cut)
        tracehost_fuzz_say("the record ends early: ", "a step has no line");
    tracehost_fuzz_say("scenario: ", scenario);
    tracehost_fuzz_say("lines:    ", lines);
    tracehost_fuzz_say("to go on from here: tracehost-debug ", scenario);
}

enum { TRACEHOST_FUZZ_SIGNALS = 5 };
struct sigaction tracehost_fuzz_before[TRACEHOST_FUZZ_SIGNALS] __attribute__((weak));

static inline int tracehost_fuzz_signal(size_t nth)
{
    static const int signals[TRACEHOST_FUZZ_SIGNALS] = {SIGABRT, SIGSEGV, SIGBUS, SIGILL, SIGFPE};
    return signals[nth];
}

/* Saves, and hands the signal on to the fuzzer. */
static inline void tracehost_fuzz_on_signal(int signal)
{
    size_t nth = 0;
    while (tracehost_fuzz_signal(nth) != signal)
        nth++;
    tracehost_fuzz_save();
    sigaction(signal, &tracehost_fuzz_before[nth], NULL);
    raise(signal);
}

/* of AddressSanitizer, which ends the program without a signal */
void __asan_set_error_report_callback(void (*callback)(const char *report)) __attribute__((weak));

static inline void tracehost_fuzz_on_report(const char *report)
{
    (void)report;
    tracehost_fuzz_save();
}

static inline void tracehost_fuzz_watch(void)
{
    struct sigaction mine;
    memset(&mine, 0, sizeof mine);
    mine.sa_handler = tracehost_fuzz_on_signal;
    mine.sa_flags = SA_ONSTACK;
    for (size_t nth = 0; nth < TRACEHOST_FUZZ_SIGNALS; nth++)
        sigaction(tracehost_fuzz_signal(nth), &mine, &tracehost_fuzz_before[nth]);
    if (__asan_set_error_report_callback != NULL)
        __asan_set_error_report_callback(tracehost_fuzz_on_report);
}

static inline void tracehost_fuzz_fail(const char *file, int line, const char *condition)
{
    fprintf(stderr, "%s:%d: %s\n", file, line, condition);
    abort();
}

/* ---------------------------------------------------------------- the calls of the debugger */

#define tracehost_spawn(host, ...) tracehost_fuzz_noted(host, tracehost_spawn(host, __VA_ARGS__))
#define tracehost_list(host, ...) tracehost_fuzz_noted(host, tracehost_list(host, __VA_ARGS__))
#define tracehost_sigaction(host, ...) tracehost_fuzz_noted(host, tracehost_sigaction(host, __VA_ARGS__))
#define tracehost_kill(host, ...) tracehost_fuzz_noted(host, tracehost_kill(host, __VA_ARGS__))
#define tracehost_wait4(host, ...) tracehost_fuzz_noted(host, tracehost_wait4(host, __VA_ARGS__))
#define tracehost_install(host, ...) tracehost_fuzz_noted(host, tracehost_install(host, __VA_ARGS__))
#define tracehost_handle(host, ...) tracehost_fuzz_noted(host, tracehost_handle(host, __VA_ARGS__))
#define tracehost_ptrace(host, ...) tracehost_fuzz_noted(host, tracehost_ptrace(host, __VA_ARGS__))
#define tracehost_turn(host, ...) tracehost_fuzz_noted(host, tracehost_turn(host, __VA_ARGS__))

/* ---------------------------------------------------------------- the world */

/* Begins with a new host. */
static inline void tracehost_fuzz_open(tracehost_fuzz *f, bool kill_on_debugger_exit, const uint8_t *data, size_t size)
{
    struct tracehost_fuzz_run *run = &tracehost_fuzz_run;
    const char *folder = getenv("TRACEHOST_ARTIFACTS");

    memset(f, 0, sizeof *f);
    f->user = TRACEHOST_FIRST_USER;
    f->data = data;
    f->end = data + size;
    if (tracehost_open(kill_on_debugger_exit, &f->host) != TRACEHOST_ANSWERED)
        abort();
    run->session = f->host.session;
    run->user = f->user;
    run->kills = kill_on_debugger_exit;
    run->is_cut = run->is_saved = false;
    run->steps.length = run->lines.length = 0;
    snprintf(run->folder, sizeof run->folder, "%s", folder == NULL || *folder == '\0' ? "." : folder);
    if (!run->is_watching)
        tracehost_fuzz_watch();
    run->is_watching = true;
}

static inline void tracehost_fuzz_close(tracehost_fuzz *f)
{
    tracehost_fuzz_run.session = NULL;
    tracehost_close(&f->host);
}

/* All but the debugger's rows. */
static inline void tracehost_fuzz_choose(tracehost_fuzz *f, struct tracehost_fuzz_rows *rows)
{
    size_t processes = 0, lwps = 0;
    tracehost_fuzz_look(&f->host, f->user, rows);
    for (size_t i = 0; i < rows->process_count; i++)
        if (rows->processes[i].pid != f->debugger)
            rows->processes[processes++] = rows->processes[i];
    for (size_t i = 0; i < rows->lwp_count; i++)
        if (rows->lwps[i].pid != f->debugger)
            rows->lwps[lwps++] = rows->lwps[i];
    rows->process_count = processes;
    rows->lwp_count = lwps;
}

/* A process; now and then a number that nobody has. */
static inline uint32_t tracehost_fuzz_process(const struct tracehost_fuzz_rows *rows, unsigned place)
{
    size_t nth = place % (rows->process_count + 1);
    return nth < rows->process_count ? rows->processes[nth].pid : (uint32_t)TRACEHOST_LAST_PROCESS;
}

/* A turn of an LWP: it leaves the call that it is in, or makes this act. */
static inline void tracehost_fuzz_turn(tracehost_fuzz *f, const struct tracehost_fuzz_rows *rows, const uint8_t *bytes)
{
    static const uint32_t acts[] = {TRACEHOST_COMPUTE, TRACEHOST_COMPUTE, TRACEHOST_ENTER, TRACEHOST_ENTER, TRACEHOST_ENTER,
        TRACEHOST_RAISE, TRACEHOST_BLOCK, TRACEHOST_LEAVE_CALL};
    const tracehost_lwp *lwp = rows->lwp_count == 0 ? NULL : &rows->lwps[bytes[1] % rows->lwp_count];
    uint32_t act = lwp != NULL && lwp->mode == 1 ? (uint32_t)TRACEHOST_LEAVE_CALL : acts[bytes[0] % 8], call = bytes[2] % 7u;
    uint32_t argument = 0;
    tracehost_reply reply;

    if (act == TRACEHOST_RAISE)
        argument = bytes[3] % 32u;
    else if (act == TRACEHOST_BLOCK)
        argument = bytes[3] * 0x01010101u >> 1;
    else if (act == TRACEHOST_ENTER && (call == TRACEHOST_EXIT || call == TRACEHOST_OTHER))
        argument = bytes[3];
    if (act != TRACEHOST_ENTER)
        call = 0;
    tracehost_turn(&f->host, f->user, lwp == NULL ? (uint32_t)TRACEHOST_FIRST_LWP : lwp->lwp, act, call, argument, &reply);
}

/* A request of ptrace(2) of a process, which has another's number or an LWP's. */
static inline void tracehost_fuzz_ptrace(tracehost_fuzz *f, const struct tracehost_fuzz_rows *rows, const uint8_t *bytes)
{
    static const uint8_t requests[] = {0, 7, 7, 8, 9, 10, 10, 11, 13, 14, 15, 18, 19, 20, 21, 22, 23, 24, 25, 26};
    uint32_t caller = tracehost_fuzz_process(rows, bytes[1]), target = tracehost_fuzz_process(rows, bytes[2]);
    uint32_t request = requests[bytes[3] % sizeof requests], data = bytes[3] / (unsigned)sizeof requests;
    tracehost_reply reply;

    if (bytes[2] & 128 && rows->lwp_count > 0)
        target = rows->lwps[bytes[2] % rows->lwp_count].lwp;
    if (request == TRACEHOST_PT_SET_EVENT_MASK)
        data = bytes[0] & 63u;
    tracehost_ptrace(&f->host, f->user, caller, request, target, data, &reply);
}

/* Makes the step that the next bytes are, of any process but the debugger. False at their end. */
static inline bool tracehost_fuzz_step(tracehost_fuzz *f)
{
    static struct tracehost_fuzz_rows rows;
    const uint8_t *bytes = f->data;
    tracehost_reply reply;

    if (f->end - bytes < TRACEHOST_FUZZ_BYTES)
        return false;
    f->data += TRACEHOST_FUZZ_BYTES;
    tracehost_fuzz_choose(f, &rows);
    uint32_t who = tracehost_fuzz_process(&rows, bytes[1]), whom = tracehost_fuzz_process(&rows, bytes[2]);
    switch (rows.process_count == 0 ? 8 : bytes[0] / 8 % 16) {
    case 8: tracehost_spawn(&f->host, f->user, &reply); break;
    case 9:
    case 10: tracehost_kill(&f->host, f->user, who, whom, bytes[3] % 32u, &reply); break;
    case 11: tracehost_sigaction(&f->host, f->user, who, bytes[3] % 32u, bytes[2] % 3u, &reply); break;
    case 12: tracehost_wait4(&f->host, f->user, who, bytes[2] & 1 ? (int64_t)whom : -1, bytes[3] % 8u, &reply); break;
    case 13: tracehost_kill(&f->host, f->user, who, -1, bytes[3] % 32u, &reply); break;
    case 14:
    case 15: tracehost_fuzz_ptrace(f, &rows, bytes); break;
    default: tracehost_fuzz_turn(f, &rows, bytes);
    }
    return true;
}

#ifdef __cplusplus
}
#endif
#endif
