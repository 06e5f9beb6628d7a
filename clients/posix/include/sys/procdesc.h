/* FreeBSD's process descriptors. Only the process that has made one may use it. */
#ifndef TRACEHOST_SYS_PROCDESC_H
#define TRACEHOST_SYS_PROCDESC_H

#include <sys/types.h>

#define PD_DAEMON 0x00000001
#define PD_CLOEXEC 0x00000002

#ifdef __cplusplus
extern "C" {
#endif
pid_t pdfork(int *, int);
int pdkill(int, int);
int pdgetpid(int, pid_t *);
#ifdef __cplusplus
}
#endif

#endif
