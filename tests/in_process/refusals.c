/*
 * Each allocation refused in turn. A call that gets no memory says so, leaves the session as it was, and gives the
 * machine's reply when it is made again.
 *
 *     refusals [CALLS [SEED]]
 */
#include "memory.h"
#include "sequences.h"
#include "state.h"

static bool is_no_memory(const struct text *reply)
{
    static const char words[] = "error ENOMEM 12";
    return reply->length >= sizeof words - 1 && memcmp(reply->bytes, words, sizeof words - 1) == 0;
}

/* The state, without the number of the user's last step, which counts the steps that were answered ENOMEM too. */
static bool is_same_state(struct text *one, struct text *other)
{
    one->bytes[one->length] = other->bytes[other->length] = 0;
    const char *first = strstr(one->bytes, ",\"reply\":"), *second = strstr(other->bytes, ",\"reply\":");
    if (first == NULL || second == NULL)
        return same(one, other);
    size_t length = one->length - (size_t)(first - one->bytes);
    return length == other->length - (size_t)(second - other->bytes) && memcmp(first, second, length) == 0;
}

/* The reply's words of a line `UID N REPLY`, which don't depend on how often the call was made. */
static void keep_reply(struct text *line)
{
    char *reply = strchr(strchr(line->bytes, ' ') + 1, ' ') + 1;
    line->length -= (size_t)(reply - line->bytes);
    memmove(line->bytes, reply, line->length);
}

typedef uint32_t making(tracehost *h, const struct call *c, long number, bool *was_refused, struct text *reply);

/* Makes the call by its line. Stores the words of the reply, if there is one. */
static uint32_t by_line(tracehost *h, const struct call *c, long number, bool *was_refused, struct text *reply)
{
    static struct text line;
    const uint8_t *given = (const uint8_t *)line.bytes;
    uint8_t *out = (uint8_t *)reply->bytes;
    uint32_t code;
    line.length = 0;
    add_line(&line, c);
    reply->length = 7;
    reply->bytes[0] = '?';
    *was_refused = REFUSED(number, code, tracehost_line(h, false, given, line.length, out, ROOM - 1, &reply->length));
    if (code == TRACEHOST_NO_MEMORY)
        CHECK(reply->length == 7 && reply->bytes[0] == '?');
    if (code == TRACEHOST_NO_TEXT) /* the step was made, and its answer can be had later */
        code = tracehost_last_line(h, false, out, ROOM - 1, &reply->length);
    reply->bytes[code == TRACEHOST_ANSWERED ? reply->length : 0] = 0;
    if (code == TRACEHOST_ANSWERED)
        keep_reply(reply);
    return code;
}

static uint32_t by_call(tracehost *h, const struct call *c, long number, bool *was_refused, struct text *reply)
{
    tracehost_reply r = {.kind = 99};
    uint32_t code;
    *was_refused = REFUSED(number, code, make(h, c, &r));
    CHECK((code == TRACEHOST_ANSWERED) != (r.kind == 99));
    reply->length = 0;
    if (code == TRACEHOST_ANSWERED) {
        add_reply(reply, h, &r);
        ADD(reply, "\n");
    }
    return code;
}

/* The rows of both users. */
static void get_rows(tracehost *h, struct text *to)
{
    to->length = 0;
    add_view(h, FIRST_USER, to);
    add_view(h, FIRST_USER + 1, to);
}

/*
 * Makes the call with each allocation refused in turn, until it makes no more. Every try is made on the session itself, so
 * that the last one shows whether the others left it as it was: `twin` makes the same calls and is refused nothing.
 */
static unsigned long in_turn(tracehost *h, tracehost *twin, const struct call *c, making *how)
{
    static struct text reply, wanted, state[2], rows[2];
    bool was_refused;
    CHECK(by_line(twin, c, 0, &was_refused, &wanted) == TRACEHOST_ANSWERED);
    get_rows(h, &rows[0]);
    for (long number = 1;; number++) {
        get_state(h, &state[0]);
        uint32_t code = how(h, c, number, &was_refused, &reply);
        if (!was_refused || (code == TRACEHOST_ANSWERED && !is_no_memory(&reply))) { /* or it made do without */
            CHECK(code == TRACEHOST_ANSWERED && same(&reply, &wanted));
            return (unsigned long)number - !was_refused;
        }
        CHECK(code == TRACEHOST_NO_MEMORY || code == TRACEHOST_ANSWERED);
        get_state(h, &state[1]);
        CHECK(code == TRACEHOST_ANSWERED || same(&state[0], &state[1]));
        get_rows(h, &rows[1]);
        CHECK(same(&rows[0], &rows[1]));
    }
}

/*
 * The first line of a session, which is a spawn: the step wasn't made, and is made by the next call; or it was made, was
 * answered ENOMEM, or has no text, and the text can be had. Reading a line takes memory only if it has an escape.
 */
static void first_lines(const char *spawn)
{
    static const char wanted[] = "1001 1 new 1000 100000\n";
    unsigned long codes[TRACEHOST_NO_TEXT + 1] = {0};
    bool was_refused = true;
    for (long number = 1; was_refused; number++) {
        tracehost h = TRACEHOST_CLOSED;
        char out[64] = "?";
        size_t length = 7;
        long held = blocks;
        uint32_t code;
        CHECK(tracehost_open(true, &h) == TRACEHOST_ANSWERED);
        was_refused = REFUSED(number, code, tracehost_line(&h, false, (const uint8_t *)spawn, strlen(spawn),
                                                           (uint8_t *)out, sizeof out, &length));
        CHECK(code <= TRACEHOST_NO_TEXT);
        codes[code]++;
        if (code != TRACEHOST_ANSWERED)
            CHECK(strcmp(out, "?") == 0 && length == 7);
        if (code == TRACEHOST_NO_MEMORY)
            CHECK(tracehost_line(&h, false, (const uint8_t *)spawn, strlen(spawn), (uint8_t *)out, sizeof out, &length) == 0);
        if (code == TRACEHOST_NO_TEXT)
            CHECK(tracehost_last_line(&h, false, (uint8_t *)out, sizeof out, &length) == TRACEHOST_ANSWERED);
        out[length] = 0;
        CHECK(strcmp(out, wanted) == 0 || strcmp(out, "1001 1 error ENOMEM 12\n") == 0);
        CHECK(tracehost_close(&h) == TRACEHOST_ANSWERED && blocks == held);
    }
    CHECK(codes[TRACEHOST_ANSWERED] > 1 && codes[TRACEHOST_NO_TEXT] > 0);
    CHECK((codes[TRACEHOST_NO_MEMORY] > 0) == (strchr(spawn, '\\') != NULL));
    CHECK(codes[TRACEHOST_NOT_OPEN] == 0 && codes[TRACEHOST_INVALID] == 0);
}

/* The last line, which is the same once there is memory. */
static unsigned long last_lines(tracehost *h, tracehost *twin)
{
    static struct text wanted, made;
    CHECK(tracehost_last_line(twin, true, (uint8_t *)wanted.bytes, ROOM, &wanted.length) == TRACEHOST_ANSWERED);
    for (long number = 1;; number++) {
        uint32_t code;
        made.length = 7;
        if (!REFUSED(number, code, tracehost_last_line(h, true, (uint8_t *)made.bytes, ROOM, &made.length))) {
            CHECK(code == TRACEHOST_ANSWERED && is_same_state(&wanted, &made));
            return (unsigned long)number - 1;
        }
        CHECK(code == TRACEHOST_ANSWERED || (code == TRACEHOST_NO_MEMORY && made.length == 7));
    }
}

/* A view: what is refused stores nothing, and then it is as before. */
static unsigned long views(tracehost *h)
{
    static struct text before, after;
    static tracehost_process processes[250];
    static tracehost_lwp lwps[1000];
    size_t counts[2];
    get_state(h, &before);
    for (long number = 1;; number++) {
        long held = blocks;
        uint32_t code;
        counts[0] = counts[1] = 9999;
        processes[0].pid = lwps[0].lwp = 7;
        bool was_refused =
            REFUSED(number, code, tracehost_view(h, FIRST_USER, processes, 250, lwps, 1000, &counts[0], &counts[1]));
        CHECK(blocks == held);
        if (!was_refused) {
            CHECK(code == TRACEHOST_ANSWERED && counts[0] < 9999 && counts[1] < 9999);
            return (unsigned long)number - 1;
        }
        CHECK(code == TRACEHOST_NO_MEMORY && counts[0] == 9999 && counts[1] == 9999);
        CHECK(processes[0].pid == 7 && lwps[0].lwp == 7);
        get_state(h, &after);
        CHECK(same(&before, &after));
    }
}

/* Opens a session, or copies one if `from` is not null: the handle stays closed, nothing is left, the next try succeeds. */
static unsigned long opening(tracehost *from, tracehost *to)
{
    static struct text before, after;
    if (from)
        get_state(from, &before);
    for (long number = 1;; number++) {
        long held = blocks;
        uint32_t code;
        bool was_refused = REFUSED(number, code, from ? tracehost_copy(from, to) : tracehost_open(true, to));
        if (from) {
            get_state(from, &after);
            CHECK(same(&before, &after));
        }
        if (!was_refused) {
            CHECK(code == TRACEHOST_ANSWERED && to->tag != 0);
            return (unsigned long)number - 1;
        }
        CHECK(code == TRACEHOST_NO_MEMORY && to->tag == 0 && to->session == NULL && blocks == held);
    }
}

/* A copy that was refused before it succeeded goes on as one that was refused nothing. */
static unsigned long copies(tracehost *h)
{
    static struct call calls[CALLS];
    static struct text lines[2], state[2];
    tracehost copy[2] = {TRACEHOST_CLOSED, TRACEHOST_CLOSED};
    long held = blocks;
    unsigned long refusals = opening(h, &copy[0]);
    CHECK(tracehost_copy(h, &copy[1]) == TRACEHOST_ANSWERED);
    choose_calls(calls, false);
    for (int c = 0; c < 2; c++) {
        steps(&copy[c], calls, &lines[c]);
        get_state(&copy[c], &state[c]);
        CHECK(tracehost_close(&copy[c]) == TRACEHOST_ANSWERED);
    }
    CHECK(same(&lines[0], &lines[1]) && same(&state[0], &state[1]) && blocks == held);
    return refusals;
}

/* Copies a session over another one, each allocation refused in turn: both stay as they were, and the next try succeeds. */
static unsigned long copying_over(tracehost *from, tracehost *to)
{
    static struct text before[2], after[2];
    get_state(from, &before[0]);
    get_state(to, &before[1]);
    for (long number = 1;; number++) {
        uint32_t code;
        bool was_refused = REFUSED(number, code, tracehost_copy_over(from, to));
        get_state(from, &after[0]);
        get_state(to, &after[1]);
        CHECK(same(&before[0], &after[0]));
        if (!was_refused) {
            CHECK(code == TRACEHOST_ANSWERED && same(&before[0], &after[1]));
            return (unsigned long)number - 1;
        }
        CHECK(code == TRACEHOST_NO_MEMORY && same(&before[1], &after[1]));
    }
}

/*
 * Sessions of other rows are copied over one whose last copy was refused: it goes on as a session that was refused nothing. The
 * copied session keeps memory for its next copy, until it's closed.
 */
static unsigned long copies_over(tracehost *h)
{
    static struct call calls[CALLS];
    static struct text lines[2], state[2];
    tracehost copy[2] = {TRACEHOST_CLOSED, TRACEHOST_CLOSED};
    unsigned long refusals = 0;
    CHECK(tracehost_open(true, &copy[0]) == TRACEHOST_ANSWERED && tracehost_copy(h, &copy[1]) == TRACEHOST_ANSWERED);
    for (int i = 0; i < 3; i++) {
        refusals += copying_over(h, &copy[0]);
        CHECK(tracehost_copy_over(h, &copy[1]) == TRACEHOST_ANSWERED);
        choose_calls(calls, false);
        for (int c = 0; c < 2; c++) {
            steps(&copy[c], calls, &lines[c]);
            get_state(&copy[c], &state[c]);
        }
        CHECK(same(&lines[0], &lines[1]) && same(&state[0], &state[1]));
    }
    CHECK(tracehost_close(&copy[0]) == TRACEHOST_ANSWERED && tracehost_close(&copy[1]) == TRACEHOST_ANSWERED);
    return refusals;
}

/* A copy of a session with two stop handlers; the second one decides. */
static void handlers(void)
{
    static const tracehost_rule rules[3] = {
        {0, 5, TRACEHOST_KILL, 0}, {TRACEHOST_PL_FLAG_EXEC, 0, TRACEHOST_LEAVE, 0}, {0, 17, TRACEHOST_CONTINUE, 0}};
    tracehost h = TRACEHOST_CLOSED, copy = TRACEHOST_CLOSED;
    tracehost_reply r;
    long held = blocks;
    CHECK(tracehost_open(true, &h) == 0 && tracehost_spawn(&h, 1001, &r) == 0 && tracehost_spawn(&h, 1001, &r) == 0);
    CHECK(tracehost_install(&h, 1001, 1000, rules, 2, &r) == 0 && r.kind == TRACEHOST_OK);
    CHECK(tracehost_install(&h, 1001, 1000, rules, 3, &r) == 0 && r.kind == TRACEHOST_OK);
    CHECK(tracehost_ptrace(&h, 1001, 1000, TRACEHOST_PT_ATTACH, 1001, 0, &r) == 0 && r.kind == TRACEHOST_OK);
    CHECK(opening(&h, &copy) > 0);
    CHECK(tracehost_close(&h) == TRACEHOST_ANSWERED);
    CHECK(tracehost_handle(&copy, 1001, 1000, &r) == 0 && r.kind == TRACEHOST_HANDLED && r.pid == 1001);
    CHECK(r.has_handler == 1 && r.handler == 1 && r.decision == TRACEHOST_CONTINUE && r.pass == 0);
    CHECK(tracehost_close(&copy) == TRACEHOST_ANSWERED && blocks == held);
}

int main(int argc, char **argv)
{
    enum { OPENINGS, TYPED, LINES, LAST_LINES, VIEWS, COPIES, COPIES_OVER, KINDS };
    static const char *const names[KINDS] = {"openings", "typed calls", "lines", "last lines", "views", "copies", "copies over"};
    long calls = argc > 1 ? atol(argv[1]) : 1000, held = blocks;
    unsigned long refusals[KINDS] = {0};
    tracehost h = TRACEHOST_CLOSED, twin = TRACEHOST_CLOSED;
    dice = strtoull(argc > 2 ? argv[2] : "1", NULL, 10);
    refusals[OPENINGS] = opening(NULL, &h);
    CHECK(tracehost_open(true, &twin) == TRACEHOST_ANSWERED);
    for (long i = 0; i < calls; i++) {
        struct call c = choose();
        if (i < FIRST_SPAWNS)
            c = (struct call){.op = SPAWN, .user = FIRST_USER + (uint32_t)i % 2};
        refusals[i % 2 ? TYPED : LINES] += in_turn(&h, &twin, &c, i % 2 ? by_call : by_line);
        refusals[LAST_LINES] += last_lines(&h, &twin);
        if (i % 50 == 49) {
            refusals[VIEWS] += views(&h);
            refusals[COPIES] += copies(&h);
            refusals[COPIES_OVER] += copies_over(&h);
        }
    }
    CHECK(tracehost_close(&h) == TRACEHOST_ANSWERED && tracehost_close(&twin) == TRACEHOST_ANSWERED && blocks == held);
    first_lines("{\"user\":1001,\"op\":\"spawn\"}");
    first_lines("{\"user\":1001,\"op\":\"sp\\u0061wn\"}");
    handlers();
    printf("allocations refused:");
    for (size_t i = 0; i < KINDS; i++)
        printf(" %lu of %s", refusals[i], names[i]);
    printf("\n%lu checks\n", checks);
    return refusals[OPENINGS] && refusals[TYPED] && refusals[LINES] && refusals[COPIES] && refusals[COPIES_OVER] ? 0 : 1;
}
