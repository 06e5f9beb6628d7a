/* The calls of tracehost.h that need no session. */
#include "tracehost.h"

const char *tracehost_version(void) { return TRACEHOST_VERSION; }

const char *tracehost_strerror(uint32_t code)
{
    static const char *const words[] = {
        [TRACEHOST_ANSWERED] = "the call was answered",
        [TRACEHOST_NOT_OPEN] = "the handle isn't open, or the one to be opened is open already",
        [TRACEHOST_NO_MEMORY] = "memory ran out, and nothing has changed",
        [TRACEHOST_INVALID] = "a user is none of 1001 to 1064, or a disposition, options, a rule, a request, an act, a call or its argument is none that exists",
        [TRACEHOST_NO_TEXT] = "the step was made, but memory ran out for its text: ask for the last line",
        [TRACEHOST_TOO_MANY] = "the user has had 2^64 - 1 answers",
    };
    return code < sizeof words / sizeof *words ? words[code] : "no code that a call returns";
}
