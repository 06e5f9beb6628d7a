/* Of FreeBSD's <libutil.h>: what its debuggers look at processes with. The result is freed by free(3). */
#ifndef TRACEHOST_LIBUTIL_H
#define TRACEHOST_LIBUTIL_H

#include <sys/types.h>

struct kinfo_proc;
struct kinfo_vmentry;
struct kinfo_file;
#ifdef __cplusplus
extern "C" {
#endif
struct kinfo_proc *kinfo_getproc(pid_t);
struct kinfo_vmentry *kinfo_getvmmap(pid_t, int *);
struct kinfo_file *kinfo_getfile(pid_t, int *); /* NULL, with ENOSYS */
#ifdef __cplusplus
}
#endif

#endif
