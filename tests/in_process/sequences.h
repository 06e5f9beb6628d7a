/* Sequences of calls by chance, each made as a typed call or as a line, and the lines of their answers. */
#ifndef SEQUENCES_H
#define SEQUENCES_H

#include "calls.h"

enum { CALLS = 300, FIRST_SPAWNS = 8 };

/* A sequence for a new session begins with processes for both users. */
static inline void choose_calls(struct call *calls, bool is_first)
{
    for (size_t i = 0; i < CALLS; i++) {
        calls[i] = choose();
        if (is_first && i < FIRST_SPAWNS)
            calls[i] = (struct call){.op = SPAWN, .user = FIRST_USER + (uint32_t)i % 2};
    }
}

/* Makes a call, and adds the line of its answer. */
static inline void step(tracehost *h, const struct call *c, struct text *lines)
{
    static struct text line, room;
    tracehost_reply reply;
    size_t length;
    line.length = 0;
    add_line(&line, c);
    if (roll(4))
        CHECK(make(h, c, &reply) == TRACEHOST_ANSWERED);
    else
        CHECK(tracehost_line(h, true, (const uint8_t *)line.bytes, line.length, (uint8_t *)room.bytes, ROOM, &length) == 0);
    CHECK(tracehost_last_line(h, false, (uint8_t *)lines->bytes + lines->length, ROOM - lines->length, &length) == 0);
    lines->length += length;
    CHECK(lines->length < ROOM);
}

/* Makes a sequence, and stores the lines of its answers. */
static inline void steps(tracehost *h, const struct call *calls, struct text *lines)
{
    lines->length = 0;
    for (size_t i = 0; i < CALLS; i++)
        step(h, &calls[i], lines);
}

#endif
