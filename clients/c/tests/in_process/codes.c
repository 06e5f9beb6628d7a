/*
 * Sessions over a library that runs out of memory, or answers a long line: this file has that library, and
 * is linked without the other. Each test says what its next calls return.
 */
#include "../check.h"
#include "../../tracehost_client.h"

#include <stdio.h>
#include <string.h>
#include <tracehost.h>

/* ---------------------------------------------------------------- the library */

#pragma GCC diagnostic ignored "-Wunused-parameter"

enum { LONG = 20000 };

static const char NEW[] = "1001 1 new 1000 100000\n", SPAWN[] = "{\"user\":1001,\"op\":\"spawn\"}";
static char text[LONG + 1];      /* what is answered */
static uint32_t opening, making; /* what tracehost_open returns; what tracehost_spawn and tracehost_line return */
static uint32_t lasting[3];      /* what tracehost_last_line returns, one after another */
static uint32_t error;           /* what tracehost_spawn answers; 0 for a new process */
static int lasts, lines, opened, closed;

static void store(uint8_t *out, size_t size, size_t *length)
{
    *length = strlen(text);
    memcpy(out, text, *length < size ? *length : size);
}

uint32_t tracehost_open(bool kill_on_debugger_exit, tracehost *out)
{
    (void)kill_on_debugger_exit;
    out->tag = opening == TRACEHOST_ANSWERED;
    opened += out->tag != 0;
    return opening;
}

uint32_t tracehost_close(tracehost *h)
{
    CHECK(h->tag != 0);
    h->tag = 0;
    closed++;
    return TRACEHOST_ANSWERED;
}

/* A line is answered also if a typed call is INVALID: by a refusal. */
uint32_t tracehost_line(tracehost *h, bool json, const uint8_t *line, size_t line_length, uint8_t *out, size_t out_size,
                        size_t *length)
{
    CHECK(h->tag != 0 && !json && line_length == strlen(SPAWN) && memcmp(line, SPAWN, line_length) == 0);
    lines++;
    if (making != TRACEHOST_ANSWERED && making != TRACEHOST_INVALID)
        return making;
    store(out, out_size, length);
    return TRACEHOST_ANSWERED;
}

uint32_t tracehost_last_line(tracehost *h, bool json, uint8_t *out, size_t out_size, size_t *length)
{
    uint32_t code = lasting[lasts++];
    CHECK(h->tag != 0 && !json);
    if (code == TRACEHOST_ANSWERED)
        store(out, out_size, length);
    return code;
}

/* There is no memory to explain it. */
uint32_t tracehost_explain(const uint8_t *line, size_t line_length, size_t number, uint8_t *out, size_t out_size, size_t *length)
{
    CHECK(line_length == strlen(SPAWN) && memcmp(line, SPAWN, line_length) == 0 && number == 1);
    return TRACEHOST_NO_MEMORY;
}

uint32_t tracehost_spawn(tracehost *h, uint32_t user, tracehost_reply *reply)
{
    const tracehost_reply made = {.kind = TRACEHOST_NEW, .pid = 1000, .lwp = 100000};
    const tracehost_reply refusal = {.kind = TRACEHOST_ERROR, .error = error};
    CHECK(h->tag != 0 && user == 1001);
    if (making == TRACEHOST_ANSWERED)
        *reply = error != 0 ? refusal : made;
    return making;
}

uint32_t tracehost_view(tracehost *h, uint32_t user, tracehost_process *processes, size_t processes_size, tracehost_lwp *lwps,
                        size_t lwps_size, size_t *processes_length, size_t *lwps_length)
{
    CHECK(h->tag != 0 && user == 1001);
    return TRACEHOST_NO_MEMORY;
}

/* these tests make no other step */
#define NOT_CALLED(name, ...) \
    uint32_t tracehost_##name(tracehost *h, uint32_t user, uint32_t caller, __VA_ARGS__) \
    { \
        CHECK(!"tracehost_" #name " is called"); \
        return TRACEHOST_INVALID; \
    }
NOT_CALLED(list, tracehost_reply *reply)
NOT_CALLED(sigaction, uint32_t signal, uint32_t disposition, tracehost_reply *reply)
NOT_CALLED(kill, int64_t which, uint32_t signal, tracehost_reply *reply)
NOT_CALLED(wait4, int64_t which, uint32_t options, tracehost_reply *reply)
NOT_CALLED(install, const tracehost_rule *rules, size_t count, tracehost_reply *reply)
NOT_CALLED(handle, tracehost_reply *reply)
NOT_CALLED(ptrace, uint32_t request, uint32_t target, uint32_t data, tracehost_reply *reply)
NOT_CALLED(turn, uint32_t act, uint32_t call, uint32_t argument, tracehost_reply *reply)

uint32_t tracehost_numbers(tracehost *h, uint32_t *out, size_t size, size_t *length)
{
    CHECK(!"tracehost_numbers is called");
    return TRACEHOST_NOT_OPEN;
}

/* ---------------------------------------------------------------- tests */

/* a session whose next calls return these codes, and answer this text */
static th_host *begin(uint32_t make, uint32_t first_last, uint32_t second_last, const char *answer)
{
    opening = TRACEHOST_ANSWERED;
    making = make;
    lasting[0] = first_last;
    lasting[1] = second_last;
    lasts = lines = 0;
    strcpy(text, answer);
    th_host *h = th_open(NULL);
    CHECK(h != NULL);
    return h;
}

static int spawns(th_host *h)
{
    th_pid pid = 0;
    th_lwpid lwp = 0;
    return th_spawn(h, 1001, &pid, &lwp) == 0 && pid == 1000 && lwp == 100000;
}

/* the same by a line of the caller's */
static int spawns_by_line(th_host *h)
{
    char answer[sizeof NEW];
    return th_step_text(h, SPAWN, answer, sizeof answer) == sizeof NEW - 2 && strncmp(answer, NEW, sizeof NEW - 2) == 0;
}

static int spawn_by_line(th_host *h) { return (int)th_step_text(h, SPAWN, NULL, 0); }

static int spawn(th_host *h) { return th_spawn(h, 1001, NULL, NULL); }

static void no_memory(void)
{
    opening = TRACEHOST_NO_MEMORY;
    errno = 0;
    CHECK(th_open(NULL) == NULL && errno == ENOMEM);

    /* before the step: it may be made again */
    th_host *h = begin(TRACEHOST_NO_MEMORY, 0, 0, NEW);
    REFUSED(ENOMEM, spawn(h));
    REFUSED(ENOMEM, spawn_by_line(h));
    CHECK(lasts == 0);
    making = TRACEHOST_ANSWERED;
    CHECK(spawns(h) && spawns_by_line(h) && th_close(h) == 0);

    /* for the text: it is stored by a later call */
    h = begin(TRACEHOST_NO_TEXT, TRACEHOST_ANSWERED, 0, NEW);
    CHECK(spawns_by_line(h) && lasts == 1 && th_close(h) == 0);

    /* for the text, again: the reply is lost, and the session ends */
    h = begin(TRACEHOST_NO_TEXT, TRACEHOST_NO_MEMORY, 0, NEW);
    REFUSED(ENOMEM, spawn_by_line(h));
    making = TRACEHOST_ANSWERED;
    REFUSED(EPIPE, spawn(h));
    REFUSED(EPIPE, spawn_by_line(h));
    CHECK(th_close(h) == 0);
}

static void no_more_answers(void)
{
    th_host *h = begin(TRACEHOST_TOO_MANY, 0, 0, NEW);
    REFUSED(EPIPE, spawn(h));
    REFUSED(EPIPE, spawn_by_line(h));
    CHECK(th_close(h) == 0);
}

/* a step that the library doesn't know is refused by its line, which has the name of the fault */
static void refused(void)
{
    th_host *h = begin(TRACEHOST_INVALID, 0, 0, "refused BadUser\n");
    REFUSED(TH_EREFUSED, spawn(h));
    CHECK(lines == 1 && lasts == 0 && strcmp(th_fault(h), "BadUser") == 0 && th_reason(h)[0] == '\0');
    making = TRACEHOST_ANSWERED;
    CHECK(spawns(h) && lines == 1 && th_fault(h)[0] == '\0' && th_close(h) == 0);
}

/* the lines of a step are made only for a record; if its answer's is lost, the session ends */
static void recorded(void)
{
    th_host *h = begin(TRACEHOST_ANSWERED, TRACEHOST_ANSWERED, TRACEHOST_NO_MEMORY, NEW);
    CHECK(th_record(h, "/dev/null", NULL) == 0);
    CHECK(spawns(h) && lines == 0 && lasts == 1);
    REFUSED(ENOMEM, spawn(h));
    CHECK(lines == 0 && lasts == 2);
    REFUSED(EPIPE, spawn(h));
    CHECK(th_close(h) == 0);
}

static void long_answers(void)
{
    static char answer[LONG + 1];
    static char line[LONG + 1];
    memset(line, 'x', LONG);
    line[LONG - 1] = '\n';
    th_host *h = begin(TRACEHOST_ANSWERED, TRACEHOST_ANSWERED, TRACEHOST_ANSWERED, line);
    CHECK(th_step_text(h, SPAWN, answer, sizeof answer) == LONG - 1 && lasts == 1);
    CHECK(strlen(answer) == LONG - 1 && strncmp(answer, line, LONG - 1) == 0);
    CHECK(th_close(h) == 0);

    h = begin(TRACEHOST_ANSWERED, TRACEHOST_NO_MEMORY, 0, line);
    REFUSED(ENOMEM, th_step_text(h, SPAWN, answer, sizeof answer));
    REFUSED(EPIPE, th_step_text(h, SPAWN, answer, sizeof answer));
    CHECK(th_close(h) == 0);

    /* a recorded step, whose line is asked for twice */
    h = begin(TRACEHOST_ANSWERED, TRACEHOST_ANSWERED, TRACEHOST_ANSWERED, line);
    CHECK(th_record(h, "/dev/null", NULL) == 0 && spawns(h) && lasts == 2);
    CHECK(th_close(h) == 0);
}

/* without memory for the rows each condition that is possible is told */
static void explained(void)
{
    th_host *h = begin(TRACEHOST_ANSWERED, 0, 0, NEW);
    error = TH_EAGAIN;
    REFUSED(EAGAIN, spawn(h));
    CHECK(strcmp(th_explain(h), "spawn() by user 1001: EAGAIN, user 1001 has 250 processes, or user 1001 has 1000 LWPs") == 0);
    error = TH_ENOMEM;
    REFUSED(ENOMEM, spawn(h));
    CHECK(strcmp(th_explain(h), "spawn() by user 1001: ENOMEM, no memory is left") == 0);
    error = 0;
    CHECK(spawns(h) && th_explain(h)[0] == '\0' && th_close(h) == 0);
}

int main(void)
{
    no_memory();
    no_more_answers();
    refused();
    recorded();
    long_answers();
    explained();
    CHECK(opened == closed);
    if (!failed)
        printf("the tests of codes passed\n");
    return failed;
}
