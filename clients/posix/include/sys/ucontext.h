/* The host's <sys/ucontext.h>, with FreeBSD's names of registers. */
#include_next <sys/ucontext.h>
#include <tracehost/ucontext.h>
