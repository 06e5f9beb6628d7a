/*
 * Answers the lines of standard input, as `tracehost --lines [--json] [--kill-on-debugger-exit 0]` does. A line of a form
 * feed and a digit begins a new session, with that setting.
 */
#define _POSIX_C_SOURCE 200809L
#include "check.h"

static tracehost h = TRACEHOST_CLOSED;

static void answer(bool json, const char *line, size_t line_length)
{
    static uint8_t out[ROOM];
    size_t length;
    CHECK(tracehost_line(&h, json, (const uint8_t *)line, line_length, out, ROOM, &length) == TRACEHOST_ANSWERED);
    CHECK(length <= ROOM && fwrite(out, 1, length, stdout) == length);
}

static void begin(bool kills)
{
    tracehost_close(&h);
    CHECK(tracehost_open(kills, &h) == TRACEHOST_ANSWERED);
}

int main(int argc, char **argv)
{
    bool json = false, kills = true;
    char *line = NULL;
    size_t room = 0;
    ssize_t read;
    for (int i = 1; i < argc; i++) {
        json |= strcmp(argv[i], "--json") == 0;
        kills &= strcmp(argv[i], "0") != 0;
    }
    begin(kills);
    while ((read = getline(&line, &room, stdin)) > 0) {
        if (line[0] == '\f')
            begin(line[1] == '1');
        else
            answer(json, line, (size_t)read - (line[read - 1] == '\n'));
    }
    free(line);
    CHECK(tracehost_close(&h) == TRACEHOST_ANSWERED);
    return 0;
}
