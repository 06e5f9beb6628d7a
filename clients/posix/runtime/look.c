/* What programs look at processes with: sysctl(3), procctl(2), and the map of a process's memory. */
#define _GNU_SOURCE
#include <elf.h>
#include <fcntl.h>
#include <limits.h>
#include <stdio.h>
#include <string.h>
#include <sys/mman.h>
#include <sys/wait.h>
#include <unistd.h>
typedef int lwpid_t;
#include "../include/libutil.h"
#include "../include/sys/proc.h"
#include "../include/sys/procctl.h"
#include "../include/sys/ptrace.h"
#include "../include/sys/sysctl.h"
#include "../include/sys/user.h"
#include "freebsd.h"
#include "runtime.h"

static int fail(int error)
{
	errno = error;
	return -1;
}

/* A file of the host's on this process, and its size; NULL if there is none. */
static char *read_file(long real, const char *name, size_t *size)
{
	char path[64], *text = NULL;
	size_t room = 0, had = 0;
	ssize_t got = -1;
	snprintf(path, sizeof path, "/proc/%ld/%s", real, name);
	int fd = tracehost_open(path, O_RDONLY | O_CLOEXEC);
	if (fd < 0)
		return NULL;
	do {
		if (room - had < 4096) {
			char *more = realloc(text, room += 65536);
			if (more == NULL)
				break;
			text = more;
		}
		if ((got = read(fd, text + had, room - had - 1)) > 0)
			had += (size_t)got;
	} while (got > 0);
	close(fd);
	if (got != 0) {
		free(text);
		return NULL;
	}
	text[had] = 0;
	*size = had;
	return text;
}

/* ---- the map of its memory */

struct range {
	unsigned long start, end, offset, file;
	unsigned prot;
	int shared;
	char path[PATH_MAX];
};

/* The next line of the host's map: 0 behind the last one. */
static int next_range(char **at, struct range *range)
{
	char bits[5];
	int behind = 0;
	*range = (struct range){0};
	if (sscanf(*at, "%lx-%lx %4s %lx %*x:%*x %lu%n", &range->start, &range->end, bits, &range->offset, &range->file, &behind) < 5)
		return 0;
	char *path = *at + behind + strspn(*at + behind, " "), *line = strchrnul(path, '\n');
	if (*path == '/')
		snprintf(range->path, sizeof range->path, "%.*s", (int)(line - path), path);
	range->prot =
		(bits[0] == 'r' ? KVME_PROT_READ : 0) | (bits[1] == 'w' ? KVME_PROT_WRITE : 0) | (bits[2] == 'x' ? KVME_PROT_EXEC : 0);
	range->shared = bits[3] == 's';
	*at = *line != 0 ? line + 1 : line;
	return 1;
}

static int version_of(const char *map)
{
	unsigned version = 2166136261u; /* FNV-1a */
	for (; *map != 0; map++)
		version = (version ^ (unsigned char)*map) * 16777619u;
	return (int)(version >> 1);
}

/* The map of a traced and stopped process. */
static char *map_of(const void *where, pid_t target)
{
	size_t size;
	if (tracehost_ask(where, "memory %d 0", target) != 0)
		return NULL;
	char *map = read_file(tracehost_number(), "maps", &size);
	if (map == NULL)
		errno = ENOMEM;
	return map;
}

int tracehost_map_version(const void *where, pid_t target)
{
	char *map = map_of(where, target);
	if (map == NULL)
		return -1;
	int version = version_of(map);
	free(map);
	return version;
}

int tracehost_map_entry(const void *where, pid_t target, struct ptrace_vm_entry *entry)
{
	struct range range;
	char *map = map_of(where, target), *at = map;
	int i = 0, found = 0;
	if (map == NULL)
		return -1;
	while ((found = next_range(&at, &range)) && i < entry->pve_entry)
		i++;
	int error = entry->pve_entry < 0 || i < entry->pve_entry ? EINVAL : found ? 0 : ENOENT;
	if (error == 0) {
		size_t room = entry->pve_pathlen, length = range.path[0] != 0 ? strlen(range.path) + 1 : 0;
		entry->pve_entry = i + 1, entry->pve_timestamp = version_of(map);
		entry->pve_start = range.start, entry->pve_end = range.end - 1, entry->pve_offset = range.offset;
		entry->pve_prot = range.prot, entry->pve_fileid = (long)range.file, entry->pve_fsid = 0;
		if (room != 0) {
			entry->pve_pathlen = (unsigned)length;
			error = length > room ? ENAMETOOLONG : 0;
			memcpy(entry->pve_path, range.path, error == 0 ? length : 0);
		}
	}
	free(map);
	return error != 0 ? fail(error) : 0;
}

/* ---- sysctl(3): kern.proc */

/* Copies as much as there is room for; without a place only the size is told. */
static int give(const void *from, size_t count, void *to, size_t *size)
{
	size_t room = *size;
	*size = count;
	if (to == NULL)
		return 0;
	memcpy(to, from, count < room ? count : room);
	return count <= room ? 0 : fail(ENOMEM);
}

/* The process that the last question was about; `thread`: in the place of its first thread the one that was asked for. */
static struct kinfo_proc answered(pid_t pid, int thread)
{
	struct kinfo_proc process = {.ki_structsize = sizeof process, .ki_pid = pid, .ki_reaper = 1};
	size_t length = 0;
	process.ki_stat = (char)tracehost_number(), process.ki_ppid = (pid_t)tracehost_number();
	process.ki_tracer = (pid_t)tracehost_number(), process.ki_numthreads = (int)tracehost_number();
	process.ki_uid = process.ki_ruid = process.ki_svuid = getuid(), process.ki_rgid = process.ki_svgid = getgid();
	const int groups = getgroups(KI_NGROUPS, process.ki_groups); /* fails if there are more */
	process.ki_ngroups = (short)(groups > 0 ? groups : 0);
	long real = tracehost_number();
	process.ki_tid = (lwpid_t)tracehost_number();
	process.ki_flag = tracehost_number() | (process.ki_tracer != 0 ? P_TRACED : 0);
	unsigned long pending = (unsigned long)tracehost_number();
	tracehost_set(&process.ki_sigignore, (unsigned long)tracehost_number());
	tracehost_set(&process.ki_sigcatch, (unsigned long)tracehost_number());
	char thread_stat = (char)tracehost_number();
	tracehost_set(&process.ki_sigmask, (unsigned long)tracehost_number());
	unsigned long thread_pending = (unsigned long)tracehost_number();
	tracehost_set(&process.ki_siglist, thread ? thread_pending : pending);
	process.ki_pgid = (pid_t)tracehost_number(), process.ki_sid = (pid_t)tracehost_number();
	process.ki_stat = thread && process.ki_stat != SZOMB ? thread_stat : process.ki_stat;
	char *name = read_file(real, "comm", &length);
	if (length > 0)
		snprintf(process.ki_comm, sizeof process.ki_comm, "%.*s", (int)length - 1, name);
	memcpy(process.ki_tdname, process.ki_comm, sizeof process.ki_tdname - 1);
	free(name);
	return process;
}

static int give_process(pid_t pid, void *to, size_t *size)
{
	struct kinfo_proc process = answered(pid, 0);
	return give(&process, sizeof process, to, size);
}

/* As many as there are threads, or the process if it has none; the first one has been asked for. */
static int give_threads(pid_t pid, void *to, size_t *size)
{
	struct kinfo_proc thread = answered(pid, 1);
	size_t count = thread.ki_numthreads > 0 ? (size_t)thread.ki_numthreads : 1, room = *size / sizeof thread;
	for (size_t i = 0; to != NULL && i < count && i < room; i++) {
		if (i > 0 && ask("stat %d %zu", pid, i) != 0)
			return -1;
		if (i > 0)
			thread = answered(pid, 1);
		((struct kinfo_proc *)to)[i] = thread;
	}
	*size = count * sizeof thread;
	return to == NULL || count <= room ? 0 : fail(ENOMEM);
}

/* Each entry ends behind its path. */
static int give_map(long real, void *to, size_t *size)
{
	struct range range;
	size_t length, done = 0, room = *size;
	char *map = read_file(real, "maps", &length), *at = map;
	if (map == NULL)
		return fail(ESRCH);
	while (next_range(&at, &range)) {
		struct kinfo_vmentry entry = {.kve_type = range.path[0] != 0 ? KVME_TYPE_VNODE : KVME_TYPE_DEFAULT,
			.kve_flags = range.shared ? 0 : KVME_FLAG_COW,
			.kve_protection = (int)range.prot,
			.kve_start = range.start,
			.kve_end = range.end,
			.kve_offset = range.offset,
			.kve_vn_fileid = range.file};
		memcpy(entry.kve_path, range.path, sizeof entry.kve_path);
		entry.kve_structsize = (int)((offsetof(struct kinfo_vmentry, kve_path) + strlen(range.path) + 1 + 7) & ~7UL);
		if (to != NULL && done + (size_t)entry.kve_structsize <= room)
			memcpy((char *)to + done, &entry, (size_t)entry.kve_structsize);
		done += (size_t)entry.kve_structsize;
	}
	free(map);
	*size = done;
	return to != NULL && done > room ? fail(ENOMEM) : 0;
}

/* What has the same number on FreeBSD. */
static int give_auxiliary(long real, void *to, size_t *size)
{
	size_t length = 0, count = 0;
	Elf64_auxv_t *all = (Elf64_auxv_t *)(void *)read_file(real, "auxv", &length);
	if (all == NULL)
		return fail(ESRCH);
	for (size_t i = 0; i < length / sizeof *all; i++)
		if (all[i].a_type >= AT_PHDR && all[i].a_type <= AT_ENTRY)
			all[count++] = all[i];
	if (count == length / sizeof *all)
		count--;
	all[count++] = (Elf64_auxv_t){.a_type = AT_NULL};
	int result = give(all, count * sizeof *all, to, size);
	free(all);
	return result;
}

static int give_path(long real, void *to, size_t *size)
{
	char link[64], path[PATH_MAX];
	snprintf(link, sizeof link, "/proc/%ld/exe", real);
	ssize_t length = readlink(link, path, sizeof path - 1);
	if (length < 0)
		return fail(ESRCH);
	path[length] = 0;
	return give(path, (size_t)length + 1, to, size);
}

static int give_arguments(long real, void *to, size_t *size)
{
	size_t length = 0;
	char *text = read_file(real, "cmdline", &length);
	if (text == NULL)
		return fail(ESRCH);
	int result = give(text, length, to, size);
	free(text);
	return result;
}

int tracehost_sysctl(const int *name, unsigned count, void *to, size_t *size, const void *new, size_t new_size)
{
	(void)new, (void)new_size;
	if (count != 4 || name[0] != CTL_KERN || name[1] != KERN_PROC ||
		(name[2] != KERN_PROC_PID && name[2] != (KERN_PROC_PID | KERN_PROC_INC_THREAD) && name[2] != KERN_PROC_ARGS &&
			name[2] != KERN_PROC_PATHNAME && name[2] != KERN_PROC_VMMAP && name[2] != KERN_PROC_AUXV)) {
		tracehost_say("sysctl: only kern.proc is here, with pid, args, pathname, vmmap and auxv (ENOENT)");
		return fail(ENOENT);
	}
	if (name[2] == KERN_PROC_PATHNAME && name[3] == -1) /* a program looks for itself */
		return give_path(getpid(), to, size);
	if (ask("stat %d", name[3] == -1 ? own_pid : name[3]) != 0)
		return -1;
	if (name[2] == KERN_PROC_PID)
		return give_process(name[3], to, size);
	if (name[2] == (KERN_PROC_PID | KERN_PROC_INC_THREAD))
		return give_threads(name[3], to, size);
	for (int i = 0; i < 4; i++)
		tracehost_number();
	long real = tracehost_number();
	if (real == 0)
		return fail(ESRCH);
	return name[2] == KERN_PROC_ARGS       ? give_arguments(real, to, size)
		   : name[2] == KERN_PROC_PATHNAME ? give_path(real, to, size)
		   : name[2] == KERN_PROC_VMMAP    ? give_map(real, to, size)
										   : give_auxiliary(real, to, size);
}

/* ---- libutil(3) */

static void *look(int what, pid_t pid, size_t *size)
{
	const int name[4] = {CTL_KERN, KERN_PROC, what, pid};
	*size = 0;
	if (tracehost_sysctl(name, 4, NULL, size, NULL, 0) != 0)
		return NULL;
	void *made = malloc(*size += 8192); /* it may grow meanwhile */
	if (made != NULL && tracehost_sysctl(name, 4, made, size, NULL, 0) == 0)
		return made;
	free(made);
	return NULL;
}

struct kinfo_proc *tracehost_kinfo_getproc(pid_t pid)
{
	size_t size;
	return look(KERN_PROC_PID, pid, &size);
}

struct kinfo_vmentry *tracehost_kinfo_getvmmap(pid_t pid, int *count)
{
	size_t size;
	char *packed = look(KERN_PROC_VMMAP, pid, &size);
	struct kinfo_vmentry *all = NULL;
	*count = 0;
	if (packed == NULL)
		return NULL;
	for (size_t at = 0; at < size; at += (size_t)((struct kinfo_vmentry *)(void *)(packed + at))->kve_structsize)
		++*count;
	if ((all = calloc((size_t)*count, sizeof *all)) != NULL) {
		size_t at = 0;
		for (int i = 0; i < *count; i++) {
			const int length = ((struct kinfo_vmentry *)(void *)(packed + at))->kve_structsize;
			memcpy(&all[i], packed + at, (size_t)length);
			at += (size_t)length;
			all[i].kve_structsize = sizeof *all;
		}
	}
	free(packed);
	return all;
}

/* ---- procctl(2): programs are started without random addresses */

int tracehost_procctl(idtype_t kind, id_t id, int command, void *data)
{
	int *to = data;
	if (ask("call %d", SYSCALL_PROCCTL) != 0)
		return -1;
	if ((int)kind != BSD_P_PID || (command != PROC_ASLR_CTL && command != PROC_ASLR_STATUS)) {
		tracehost_say("procctl: only PROC_ASLR_CTL and PROC_ASLR_STATUS of P_PID are here (EINVAL)");
		return fail(EINVAL);
	}
	(void)id;
	if (command == PROC_ASLR_STATUS)
		*to = PROC_ASLR_FORCE_DISABLE;
	else if (*to != PROC_ASLR_FORCE_DISABLE && *to != PROC_ASLR_NOFORCE)
		return fail(*to == PROC_ASLR_FORCE_ENABLE ? EPERM : EINVAL);
	return 0;
}
