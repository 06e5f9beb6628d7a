/* What the test programs for include/tracehost.h share. */
#ifndef CHECK_H
#define CHECK_H

#include "tracehost.h"
#include <inttypes.h>
#include <stdio.h>
#include <stdlib.h>
#include <string.h>

enum { ROOM = 1 << 16, FIRST_USER = 1001, LAST_USER = 1064 };

static unsigned long checks;

/* Counts a check. One that doesn't hold ends the program. */
#define CHECK(holds) (checks++, (holds) ? (void)0 : fail(__FILE__, __LINE__, #holds))

static inline void fail(const char *file, int line, const char *text)
{
    fprintf(stderr, "%s:%d: %s doesn't hold\n", file, line, text);
    exit(1);
}

#endif
