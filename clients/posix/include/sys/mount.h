/* The host's <sys/mount.h>, with FreeBSD's length of a path there. */
#include_next <sys/mount.h>
#ifndef TRACEHOST_SYS_MOUNT_H
#define TRACEHOST_SYS_MOUNT_H

#define MNAMELEN 1024

#endif
