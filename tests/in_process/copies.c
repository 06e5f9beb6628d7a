/*
 * A copy is in the state of its original, gives the same replies to the same calls, and shares nothing with it.
 *
 *     copies [RUNS [SEED]]
 */
#include "sequences.h"
#include "state.h"

static void a_copy(bool original_is_closed_first)
{
    static struct call before[CALLS], mine[CALLS], other[CALLS];
    static struct text lines, wanted, made, state, later;
    tracehost h = TRACEHOST_CLOSED, copy = TRACEHOST_CLOSED, again = TRACEHOST_CLOSED;
    choose_calls(before, true);
    choose_calls(mine, false);
    choose_calls(other, false);
    CHECK(tracehost_open(roll(2), &h) == 0);
    steps(&h, before, &lines);
    CHECK(tracehost_copy(&h, &copy) == 0 && tracehost_copy(&h, &again) == 0);
    get_state(&h, &state);
    get_state(&copy, &later);
    CHECK(same(&state, &later));
    steps(&copy, other, &lines);  /* the copy goes its own way .. */
    get_state(&h, &later);
    CHECK(same(&state, &later));  /* .. and the original stays where it is */
    steps(&h, mine, &wanted);
    if (original_is_closed_first)
        CHECK(tracehost_close(&h) == 0);
    steps(&again, mine, &made);
    CHECK(same(&wanted, &made));
    CHECK(tracehost_close(&copy) == 0 && tracehost_close(&again) == 0);
    CHECK(tracehost_close(&h) == (original_is_closed_first ? TRACEHOST_NOT_OPEN : TRACEHOST_ANSWERED));
}

/* Makes both sequences in a new session. Stores the lines of the second one, and the state at its end. */
static void replay(bool kills, const struct call *before, const struct call *after, struct text *lines, struct text *state)
{
    tracehost h = TRACEHOST_CLOSED;
    CHECK(tracehost_open(kills, &h) == 0);
    steps(&h, before, lines);
    steps(&h, after, lines);
    get_state(&h, state);
    CHECK(tracehost_close(&h) == 0);
}

/* The calls of a session and of its copy alternate. Each answers as a new session that makes all of its calls. */
static void own_ways(void)
{
    static struct call before[CALLS], after[2][CALLS];
    static struct text lines[2], wanted, state, wanted_state;
    tracehost h[2] = {TRACEHOST_CLOSED, TRACEHOST_CLOSED};
    bool kills = roll(2);
    choose_calls(before, true);
    CHECK(tracehost_open(kills, &h[0]) == 0);
    steps(&h[0], before, &lines[0]);
    CHECK(tracehost_copy(&h[0], &h[1]) == 0);
    for (int s = 0; s < 2; s++) {
        choose_calls(after[s], false);
        lines[s].length = 0;
    }
    for (size_t i = 0; i < CALLS; i++)
        for (int s = 0; s < 2; s++)
            step(&h[s], &after[s][i], &lines[s]);
    for (int s = 0; s < 2; s++) {
        replay(kills, before, after[s], &wanted, &wanted_state);
        get_state(&h[s], &state);
        CHECK(same(&wanted, &lines[s]) && same(&wanted_state, &state));
        CHECK(tracehost_close(&h[s]) == 0);
    }
}

/*
 * Sessions of different lengths are copied over one that goes its own way in between: it takes the memory that it had, and is
 * each time in the state of the other one, whose calls it answers alike.
 */
static void copies_over(void)
{
    static struct call before[CALLS], mine[CALLS], other[CALLS];
    static struct text lines, wanted, made, state, later;
    tracehost h = TRACEHOST_CLOSED, to = TRACEHOST_CLOSED, twin = TRACEHOST_CLOSED;
    CHECK(tracehost_open(roll(2), &to) == 0);
    for (int i = 0; i < 4; i++) {
        choose_calls(before, true);
        choose_calls(mine, false);
        choose_calls(other, true);
        CHECK(tracehost_open(roll(2), &h) == 0);
        steps(&h, before, &lines);
        if (i % 2)
            steps(&to, other, &lines);
        CHECK(tracehost_copy_over(&h, &to) == 0 && tracehost_copy(&h, &twin) == 0);
        get_state(&h, &state);
        get_state(&to, &later);
        CHECK(same(&state, &later));
        steps(&twin, mine, &wanted);
        steps(&to, mine, &made);
        CHECK(same(&wanted, &made));
        get_state(&h, &later);
        CHECK(same(&state, &later));
        CHECK(tracehost_close(&h) == 0 && tracehost_close(&twin) == 0);
    }
    CHECK(tracehost_close(&to) == 0);
}

/* The lines of one user. */
static void lines_of(const struct text *lines, uint32_t user, struct text *own)
{
    char begin[16];
    int length = snprintf(begin, sizeof begin, "%u ", user);
    own->length = 0;
    for (size_t at = 0, end; at < lines->length; at = end) {
        end = at + (size_t)((char *)memchr(lines->bytes + at, '\n', lines->length - at) - (lines->bytes + at)) + 1;
        if (strncmp(lines->bytes + at, begin, (size_t)length) == 0) {
            memcpy(own->bytes + own->length, lines->bytes + at, end - at);
            own->length += end - at;
        }
    }
}

static void get_view(tracehost *h, uint32_t user, struct text *to)
{
    to->length = 0;
    add_view(h, user, to);
}

/*
 * Two sessions of calls by chance. A user who is copied from one to the other sees and is answered what a copy of the first one
 * says, with the same numbers, and the other user what a copy of the second one says.
 */
static void one_user(void)
{
    static struct call before[CALLS], after[CALLS];
    static struct text lines, wanted[2], made, own[2], state, later;
    tracehost from = TRACEHOST_CLOSED, to = TRACEHOST_CLOSED, twin[2] = {TRACEHOST_CLOSED, TRACEHOST_CLOSED};
    const uint32_t copied = FIRST_USER + (uint32_t)roll(2), other = 2 * FIRST_USER + 1 - copied;
    size_t length = 1;
    bool kills = roll(2);
    CHECK(tracehost_open(kills, &from) == 0 && tracehost_open(kills, &to) == 0);
    choose_calls(before, true);
    steps(&from, before, &lines);
    choose_calls(before, true);
    steps(&to, before, &lines);
    CHECK(tracehost_copy(&from, &twin[0]) == 0 && tracehost_copy(&to, &twin[1]) == 0);
    get_state(&from, &state);
    CHECK(tracehost_copy_user(&from, &to, copied) == TRACEHOST_ANSWERED);
    CHECK(tracehost_last_line(&to, false, NULL, 0, &length) == TRACEHOST_ANSWERED && length == 0);
    choose_calls(after, false);
    made.length = wanted[0].length = wanted[1].length = 0;
    steps(&to, after, &made);
    for (int t = 0; t < 2; t++) {
        const uint32_t user = t == 0 ? copied : other;
        steps(&twin[t], after, &wanted[t]);
        lines_of(&wanted[t], user, &own[0]);
        lines_of(&made, user, &own[1]);
        CHECK(own[0].length > 0 && same(&own[0], &own[1]));
        get_view(&twin[t], user, &own[0]);
        get_view(&to, user, &own[1]);
        CHECK(same(&own[0], &own[1]));
    }
    get_state(&from, &later); /* the source stays where it is .. */
    CHECK(same(&state, &later));
    get_state(&to, &state);
    steps(&from, before, &lines); /* .. and goes its own way */
    get_state(&to, &later);
    CHECK(same(&state, &later));
    CHECK(tracehost_close(&from) == 0 && tracehost_close(&to) == 0 && tracehost_close(&twin[0]) == 0 && tracehost_close(&twin[1]) == 0);
}

/* A number that is no user's, and a session with the other setting, are refused, and leave the session. */
static void no_user(void)
{
    static struct text before, after;
    static struct call calls[CALLS];
    static struct text lines;
    const uint32_t none[] = {0, FIRST_USER - 1, LAST_USER + 1, UINT32_MAX};
    tracehost h = TRACEHOST_CLOSED, to = TRACEHOST_CLOSED, other = TRACEHOST_CLOSED;
    CHECK(tracehost_open(true, &h) == 0 && tracehost_open(true, &to) == 0 && tracehost_open(false, &other) == 0);
    choose_calls(calls, true);
    steps(&to, calls, &lines);
    get_state(&to, &before);
    for (size_t i = 0; i < sizeof none / sizeof *none; i++)
        CHECK(tracehost_copy_user(&h, &to, none[i]) == TRACEHOST_INVALID);
    CHECK(tracehost_copy_user(&other, &to, FIRST_USER) == TRACEHOST_INVALID);
    get_state(&to, &after);
    CHECK(same(&before, &after));
    CHECK(tracehost_close(&h) == 0 && tracehost_close(&to) == 0 && tracehost_close(&other) == 0);
}

int main(int argc, char **argv)
{
    int runs = argc > 1 ? atoi(argv[1]) : 30;
    dice = strtoull(argc > 2 ? argv[2] : "1", NULL, 10);
    for (int run = 0; run < runs; run++) {
        a_copy(run % 2);
        own_ways();
        copies_over();
        one_user();
    }
    no_user();
    printf("%lu checks\n", checks);
    return 0;
}
