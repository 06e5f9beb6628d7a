/* The host's <ucontext.h>, with FreeBSD's names of registers. */
#include_next <ucontext.h>
#include <tracehost/ucontext.h>
