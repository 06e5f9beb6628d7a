/* All that calls show of a session's state: the line of its last answer, and the rows of the users of calls by chance. */
#ifndef STATE_H
#define STATE_H

#include "words.h"

/* Adds the rows of a user, as their bytes. */
static inline void add_view(tracehost *h, uint32_t user, struct text *to)
{
    enum { PROCESSES = 250, LWPS = 1000 };
    static tracehost_process processes[PROCESSES];
    static tracehost_lwp lwps[LWPS];
    size_t process_count, lwp_count;
    CHECK(tracehost_view(h, user, processes, PROCESSES, lwps, LWPS, &process_count, &lwp_count) == TRACEHOST_ANSWERED);
    CHECK(process_count <= PROCESSES && lwp_count <= LWPS);
    size_t process_bytes = process_count * sizeof *processes, lwp_bytes = lwp_count * sizeof *lwps;
    CHECK(to->length <= ROOM && process_bytes + lwp_bytes <= ROOM - to->length);
    memcpy(to->bytes + to->length, processes, process_bytes);
    memcpy(to->bytes + to->length + process_bytes, lwps, lwp_bytes);
    to->length += process_bytes + lwp_bytes;
}

/* Stores the state. */
static inline void get_state(tracehost *h, struct text *to)
{
    CHECK(tracehost_last_line(h, true, (uint8_t *)to->bytes, ROOM, &to->length) == TRACEHOST_ANSWERED);
    CHECK(to->length < ROOM);
    for (uint32_t user = FIRST_USER; user <= FIRST_USER + 1; user++)
        add_view(h, user, to);
}

#endif
