/* Of FreeBSD's <libprocstat.h>: what debuggers look at a running process with. */
#ifndef TRACEHOST_LIBPROCSTAT_H
#define TRACEHOST_LIBPROCSTAT_H

#include <stddef.h>
#include <machine/elf.h>
#include <sys/user.h>

struct procstat;
#ifdef __cplusplus
extern "C" {
#endif
struct procstat *procstat_open_sysctl(void);
void procstat_close(struct procstat *);
struct kinfo_proc *procstat_getprocs(struct procstat *, int, int, unsigned *);
void procstat_freeprocs(struct procstat *, struct kinfo_proc *);
Elf_Auxinfo *procstat_getauxv(struct procstat *, struct kinfo_proc *, unsigned *);
void procstat_freeauxv(struct procstat *, Elf_Auxinfo *);
int procstat_getpathname(struct procstat *, struct kinfo_proc *, char *, size_t);
struct kinfo_vmentry *procstat_getvmmap(struct procstat *, struct kinfo_proc *, unsigned *);
void procstat_freevmmap(struct procstat *, struct kinfo_vmentry *);
#ifdef __cplusplus
}
#endif

#endif
