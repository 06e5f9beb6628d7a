/* FreeBSD has its thr_self(2) and thr_kill(2) here. */
#include <tracehost/posix.h>
