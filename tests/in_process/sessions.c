/*
 * Sessions next to each other: two sessions with calls in turn give the answers that each gives without the other.
 *
 *     sessions [RUNS [SEED]]
 */
#include "sequences.h"

static void two_sessions(void)
{
    static struct call calls[2][CALLS];
    static struct text alone[2], lines[2];
    tracehost h[2] = {TRACEHOST_CLOSED, TRACEHOST_CLOSED};
    for (int s = 0; s < 2; s++) {
        choose_calls(calls[s], true);
        CHECK(tracehost_open(s, &h[s]) == 0);
        steps(&h[s], calls[s], &alone[s]);
        CHECK(tracehost_close(&h[s]) == 0 && tracehost_open(s, &h[s]) == 0);
        lines[s].length = 0;
    }
    for (size_t i = 0; i < CALLS; i++)
        for (int s = 0; s < 2; s++)
            step(&h[s], &calls[s][i], &lines[s]);
    for (int s = 0; s < 2; s++) {
        CHECK(same(&alone[s], &lines[s]));
        CHECK(tracehost_close(&h[s]) == 0);
    }
}

int main(int argc, char **argv)
{
    int runs = argc > 1 ? atoi(argv[1]) : 30;
    dice = strtoull(argc > 2 ? argv[2] : "1", NULL, 10);
    for (int run = 0; run < runs; run++)
        two_sessions();
    printf("%lu checks\n", checks);
    return 0;
}
