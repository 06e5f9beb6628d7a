/* The host's <sys/wait.h>, with FreeBSD's options and kinds of processes. Statuses have the same form, except of a process that
 * was continued. */
#ifndef TRACEHOST_SYS_WAIT_H
#define TRACEHOST_SYS_WAIT_H

#define idtype_t tracehost_host_idtype_t
#define waitid tracehost_host_waitid
#define P_ALL TRACEHOST_HOST_ALL
#define P_PID TRACEHOST_HOST_PID
#define P_PGID TRACEHOST_HOST_PGID
#include_next <sys/wait.h>
#undef idtype_t
#undef waitid
#undef P_ALL
#undef P_PID
#undef P_PGID

typedef enum idtype { P_PID, P_PPID, P_PGID, P_SID, P_CID, P_UID, P_GID, P_ALL, P_LWPID, P_TASKID, P_PROJID } idtype_t;
#ifdef __cplusplus
extern "C"
#endif
int waitid(idtype_t, id_t, siginfo_t *, int);

#undef WNOHANG
#undef WUNTRACED
#undef WSTOPPED
#undef WCONTINUED
#undef WNOWAIT
#undef WEXITED
#define WNOHANG 1
#define WUNTRACED 2
#define WSTOPPED WUNTRACED
#define WCONTINUED 4
#define WNOWAIT 8
#define WEXITED 16
#define WTRAPPED 32
#define WAIT_ANY (-1)

#undef WIFCONTINUED
#undef WIFSIGNALED
#define WIFCONTINUED(status) ((status) == 0x13)
#define WIFSIGNALED(status) (((status) & 0x7f) != 0x7f && ((status) & 0x7f) != 0 && (status) != 0x13)

#endif
