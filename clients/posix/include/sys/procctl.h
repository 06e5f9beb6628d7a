/* Of FreeBSD's procctl(2): whether addresses are random. They never are here. */
#ifndef TRACEHOST_SYS_PROCCTL_H
#define TRACEHOST_SYS_PROCCTL_H

#include <sys/types.h>
#include <sys/wait.h>

#define PROC_ASLR_CTL 13
#define PROC_ASLR_STATUS 14
#define PROC_ASLR_FORCE_ENABLE 1
#define PROC_ASLR_FORCE_DISABLE 2
#define PROC_ASLR_NOFORCE 3
#define PROC_ASLR_ACTIVE 0x80000000

#ifdef __cplusplus
extern "C"
#endif
int procctl(idtype_t, id_t, int, void *);

#endif
