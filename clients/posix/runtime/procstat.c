/* libprocstat(3) of running processes, by sysctl(3). */
#define _GNU_SOURCE
#include <string.h>
#include <unistd.h>
typedef int lwpid_t;
#include "../include/machine/elf.h"
#include "../include/libutil.h"
#include "../include/sys/sysctl.h"
#include "../include/sys/user.h"
#include "runtime.h"

#define WEAK __attribute__((weak)) /* the program may have its own */

/* By their entries: these functions are called as the program's own are. */
int tracehost_sysctl(const int *name, unsigned count, void *to, size_t *size, const void *new, size_t new_size);
struct kinfo_vmentry *tracehost_kinfo_getvmmap(pid_t pid, int *count);

struct procstat {
	int unused; /* nothing is kept between two looks */
};

/* What sysctl(3) has of a process, in memory of its own; NULL with errno. */
static void *look(int what, pid_t pid, size_t *size)
{
	const int name[4] = {CTL_KERN, KERN_PROC, what, pid};
	*size = 0;
	if (tracehost_sysctl(name, 4, NULL, size, NULL, 0) != 0)
		return NULL;
	void *made = calloc(1, *size > 0 ? *size : 1);
	if (made != NULL && tracehost_sysctl(name, 4, made, size, NULL, 0) == 0)
		return made;
	free(made);
	return NULL;
}

struct kinfo_file *kinfo_getfile(pid_t pid, int *count);
WEAK struct kinfo_file *kinfo_getfile(pid_t pid, int *count)
{
	tracehost_say("kinfo_getfile: the files of process %d aren't here (ENOSYS)", pid);
	*count = 0;
	errno = ENOSYS;
	return NULL;
}

struct procstat *procstat_open_sysctl(void);
WEAK struct procstat *procstat_open_sysctl(void) { return calloc(1, sizeof(struct procstat)); }

void procstat_close(struct procstat *of);
WEAK void procstat_close(struct procstat *of) { free(of); }

struct kinfo_proc *procstat_getprocs(struct procstat *of, int what, int which, unsigned *count);
WEAK struct kinfo_proc *procstat_getprocs(struct procstat *of, int what, int which, unsigned *count)
{
	size_t size;
	struct kinfo_proc *all = look(what, which, &size);
	(void)of;
	*count = all != NULL ? (unsigned)(size / sizeof *all) : 0;
	return all;
}

void procstat_freeprocs(struct procstat *of, struct kinfo_proc *all);
WEAK void procstat_freeprocs(struct procstat *of, struct kinfo_proc *all)
{
	(void)of;
	free(all);
}

Elf_Auxinfo *procstat_getauxv(struct procstat *of, struct kinfo_proc *process, unsigned *count);
WEAK Elf_Auxinfo *procstat_getauxv(struct procstat *of, struct kinfo_proc *process, unsigned *count)
{
	size_t size;
	Elf_Auxinfo *all = look(KERN_PROC_AUXV, process->ki_pid, &size);
	(void)of;
	*count = all != NULL ? (unsigned)(size / sizeof *all) : 0;
	return all;
}

void procstat_freeauxv(struct procstat *of, Elf_Auxinfo *all);
WEAK void procstat_freeauxv(struct procstat *of, Elf_Auxinfo *all)
{
	(void)of;
	free(all);
}

int procstat_getpathname(struct procstat *of, struct kinfo_proc *process, char *path, size_t room);
WEAK int procstat_getpathname(struct procstat *of, struct kinfo_proc *process, char *path, size_t room)
{
	const int name[4] = {CTL_KERN, KERN_PROC, KERN_PROC_PATHNAME, process->ki_pid};
	(void)of;
	return tracehost_sysctl(name, 4, path, &room, NULL, 0) == 0 ? 0 : errno;
}

struct kinfo_vmentry *procstat_getvmmap(struct procstat *of, struct kinfo_proc *process, unsigned *count);
WEAK struct kinfo_vmentry *procstat_getvmmap(struct procstat *of, struct kinfo_proc *process, unsigned *count)
{
	int entries;
	struct kinfo_vmentry *all = tracehost_kinfo_getvmmap(process->ki_pid, &entries);
	(void)of;
	*count = (unsigned)entries;
	return all;
}

void procstat_freevmmap(struct procstat *of, struct kinfo_vmentry *all);
WEAK void procstat_freevmmap(struct procstat *of, struct kinfo_vmentry *all)
{
	(void)of;
	free(all);
}
