/* The host's <sys/resource.h>, with FreeBSD's numbers of limits. The host has none of the last five: EINVAL. */
#include_next <sys/resource.h>
#ifndef TRACEHOST_SYS_RESOURCE_H
#define TRACEHOST_SYS_RESOURCE_H

#undef RLIMIT_RSS
#undef RLIMIT_MEMLOCK
#undef RLIMIT_NPROC
#undef RLIMIT_NOFILE
#undef RLIMIT_OFILE
#undef RLIMIT_AS
#undef RLIMIT_LOCKS
#undef RLIMIT_SIGPENDING
#undef RLIMIT_MSGQUEUE
#undef RLIMIT_NICE
#undef RLIMIT_RTPRIO
#undef RLIMIT_RTTIME
#undef RLIMIT_NLIMITS
#undef RLIM_NLIMITS
#undef RLIM_INFINITY
#define RLIMIT_RSS 5
#define RLIMIT_MEMLOCK 6
#define RLIMIT_NPROC 7
#define RLIMIT_NOFILE 8
#define RLIMIT_VMEM 10
#define RLIMIT_AS RLIMIT_VMEM
#define RLIMIT_SBSIZE 9
#define RLIMIT_NPTS 11
#define RLIMIT_SWAP 12
#define RLIMIT_KQUEUES 13
#define RLIMIT_UMTXP 14
#define RLIM_NLIMITS 15
#define RLIM_INFINITY ((rlim_t)((1UL << 63) - 1))

#endif
