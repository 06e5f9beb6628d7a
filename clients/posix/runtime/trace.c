/* ptrace(2). */
#define _GNU_SOURCE
#include <fcntl.h>
#include <stdio.h>
#include <string.h>
#include <unistd.h>
typedef int lwpid_t;
#include "../include/machine/psl.h"
#include "../include/sys/ptrace.h"
#include "freebsd.h"
#include "runtime.h"

/* ---- memory: it isn't in the model, but it is there, as the target is a process of the host */

static ssize_t transfer(long real, unsigned long there, void *here, size_t count, int writing)
{
	char path[64];
	int fd;
	snprintf(path, sizeof path, "/proc/%ld/mem", real);
	if ((fd = tracehost_open(path, (writing ? O_RDWR : O_RDONLY) | O_CLOEXEC)) < 0)
		return -1;
	ssize_t done = writing ? pwrite(fd, here, count, (off_t)there) : pread(fd, here, count, (off_t)there);
	close(fd);
	if (done < 0)
		errno = EFAULT;
	return done;
}

static ssize_t memory(const void *where, pid_t target, void *there, void *here, size_t count, int writing)
{
	if (tracehost_ask(where, "memory %d %d", target, writing) != 0)
		return -1;
	return transfer(tracehost_number(), (unsigned long)there, here, count, writing);
}

static int io(const void *where, pid_t target, struct ptrace_io_desc *request)
{
	int writing = request->piod_op == PIOD_WRITE_D || request->piod_op == PIOD_WRITE_I;
	if (request->piod_op < PIOD_READ_D || request->piod_op > PIOD_WRITE_I) {
		errno = EINVAL;
		return -1;
	}
	ssize_t done = memory(where, target, request->piod_offs, request->piod_addr, request->piod_len, writing);
	if (done < 0)
		return -1;
	request->piod_len = done;
	return 0;
}

/* ---- registers: a stopped thread fills a record of its own, and takes it over as it is asked */

struct found {
	struct record record;
	long real; /* the host's number of its process */
	unsigned long at;
};

static int read_record(const void *where, pid_t target, struct found *found)
{
	if (tracehost_ask(where, "registers %d", target) != 0) {
		if (errno == EINVAL)
			tracehost_say("ptrace: there are no registers under --strict, nor of a program without the runtime (EINVAL)");
		return -1;
	}
	found->real = tracehost_number(), found->at = (unsigned long)tracehost_number();
	int lost = (int)tracehost_number();
	ssize_t got = transfer(found->real, found->at, &found->record, sizeof found->record, 0);
	if (lost) /* it goes on at address 0 */
		found->record.general.r_rip = 0;
	return got == sizeof found->record ? 0 : -1;
}

/* Flags that only a kernel may set stay, as does the privilege of the code segment. */
static int are_secure(const struct reg *new, const struct reg *old)
{
	return ((new->r_rflags ^ old->r_rflags) & ~(int64_t)PSL_USERCHANGE) == 0 && (new->r_cs & 3) == 3;
}

/* The control register has no input or output, the upper halves are 0, and addresses are a program's: as FreeBSD has it. */
static int is_debug(const struct dbreg *new)
{
	const unsigned long behind = 1UL << 47;
	for (int i = 0; i < 4; i++)
		if ((new->dr[7] >> (16 + 4 * i) & 3) == 2 || ((new->dr[7] >> (2 * i) & 3) != 0 && new->dr[i] >= behind))
			return 0;
	return new->dr[6] >> 32 == 0 && new->dr[7] >> 32 == 0;
}

/* The thread has said in its record whether the host makes such breakpoints. */
static int was_refused(const struct found *found)
{
	int error = 0;
	if (transfer(found->real, found->at + offsetof(struct record, refused), &error, sizeof error, 0) != sizeof error)
		return 1;
	if (error != 0)
		tracehost_say("ptrace: the host makes no hardware breakpoint: %s (EINVAL)", strerror(error));
	return error != 0;
}

static int set_debug(const void *where, pid_t target, const struct dbreg *from)
{
	struct found found;
	if (read_record(where, target, &found) != 0)
		return -1;
	found.record.debug = *from;
	if (!is_debug(from) || transfer(found.real, found.at, &found.record, sizeof found.record, 1) != sizeof found.record ||
		tracehost_ask(where, "apply %d %d 0 0", target, DEBUG) != 0 || was_refused(&found)) {
		errno = EINVAL;
		return -1;
	}
	return 0;
}

static int get_registers(const void *where, pid_t target, int request, void *to)
{
	struct found found;
	if (read_record(where, target, &found) != 0)
		return -1;
	if (request == PT_GETREGS)
		memcpy(to, &found.record.general, sizeof found.record.general);
	else if (request == PT_GETFPREGS)
		memcpy(to, &found.record.floats, sizeof found.record.floats);
	else if (request == PT_GETDBREGS)
		memcpy(to, &found.record.debug, sizeof found.record.debug);
	else
		memcpy(to, request == PT_GETFSBASE ? &found.record.fs : &found.record.gs, sizeof found.record.fs);
	return 0;
}

/* Registers that a system call takes: its number and its arguments. */
static int changes_call(const struct reg *new, const struct reg *old)
{
	return new->r_rax != old->r_rax || new->r_rdi != old->r_rdi || new->r_rsi != old->r_rsi || new->r_rdx != old->r_rdx ||
		   new->r_rcx != old->r_rcx || new->r_r8 != old->r_r8 || new->r_r9 != old->r_r9;
}

static int set_registers(const void *where, pid_t target, const void *from, int kind)
{
	struct found found;
	if (read_record(where, target, &found) != 0)
		return -1;
	struct record *record = &found.record;
	if (kind == GENERAL && !are_secure(from, &record->general)) {
		errno = EINVAL;
		return -1;
	}
	int changes = kind == GENERAL && changes_call(from, &record->general);
	if (kind == GENERAL)
		memcpy(&record->general, from, sizeof record->general);
	else if (kind == FLOATS)
		memcpy(&record->floats, from, sizeof record->floats);
	else
		memcpy(&record->gs, from, sizeof record->gs);
	if (transfer(found.real, found.at, record, sizeof *record, 1) != sizeof *record)
		return -1;
	const long number = record->general.r_rax;
	return tracehost_ask(where, "apply %d %d %d %ld", target, kind, changes, number);
}

/* The target goes on there. */
static int set_counter(const void *where, pid_t target, const char *address)
{
	struct reg registers;
	if (get_registers(where, target, PT_GETREGS, &registers) != 0)
		return -1;
	registers.r_rip = (int64_t)address;
	return set_registers(where, target, &registers, GENERAL);
}

/* ---- what is known of an LWP */

/* clang-format off */
/* Of FreeBSD's calls: their numbers, and how many arguments they have. */
static const unsigned short argument_counts[][2] = {
	{1, 1}, {3, 3}, {4, 3}, {5, 3}, {6, 1}, {7, 4}, {26, 4}, {37, 2}, {41, 1}, {53, 2}, {82, 2}, {59, 3}, {83, 3}, {86, 2}, {90, 2}, {93, 5},
	{120, 3}, {121, 3}, {135, 4}, {202, 6}, {207, 1}, {209, 3}, {232, 2}, {235, 3}, {236, 1}, {237, 4}, {238, 2}, {239, 1},
	{240, 2}, {310, 1}, {340, 3}, {341, 1}, {326, 2}, {343, 1}, {345, 3}, {416, 3}, {431, 1}, {432, 1}, {433, 2}, {454, 5}, {455, 2},
	{519, 2}, {520, 2}, {522, 6}, {542, 2}, {544, 4}, {545, 4}, {547, 4}, {554, 4},
	{555, 2}, {556, 2}, {560, 6}, {575, 3},
#define HOST(name, code, count) {code, count},
#include "hosts.inc"
};
/* clang-format on */

static unsigned arguments_of(unsigned code)
{
	for (size_t i = 0; i < sizeof argument_counts / sizeof argument_counts[0]; i++)
		if (argument_counts[i][0] == code)
			return argument_counts[i][1];
	return 0;
}

/* The host's name of the thread. */
static void name_thread(const void *where, pid_t target, char *to, size_t size)
{
	char path[64];
	int fd;
	if (tracehost_ask(where, "thread %d", target) != 0)
		return;
	long real = tracehost_number(), thread = tracehost_number();
	snprintf(path, sizeof path, "/proc/%ld/task/%ld/comm", real, thread);
	if ((fd = tracehost_open(path, O_RDONLY | O_CLOEXEC)) < 0)
		return;
	ssize_t got = read(fd, to, size - 1);
	close(fd);
	to[got > 0 ? got - (to[got - 1] == '\n') : 0] = 0;
}

static int ask_information(const void *where, pid_t target, struct ptrace_lwpinfo *info)
{
	*info = (struct ptrace_lwpinfo){0};
	if (tracehost_ask(where, "ptrace %d %d 0", PT_LWPINFO, target) != 0)
		return -1;
	info->pl_lwpid = tracehost_number(), info->pl_event = tracehost_number(), info->pl_flags = tracehost_number();
	tracehost_set(&info->pl_sigmask, tracehost_number());
	tracehost_set(&info->pl_siglist, tracehost_number());
	info->pl_child_pid = tracehost_number(), info->pl_syscall_code = tracehost_number();
	info->pl_syscall_narg = arguments_of(info->pl_syscall_code);
	if ((info->pl_siginfo.si_signo = (int)tracehost_number()) != 0) {
		info->pl_flags |= PL_FLAG_SI;
		tracehost_describe(&info->pl_siginfo);
	}
	return 0;
}

static int information(const void *where, pid_t target, void *to, int size)
{
	struct ptrace_lwpinfo info;
	if (size <= 0 || (size_t)size > sizeof info) {
		errno = EINVAL;
		return -1;
	}
	if (ask_information(where, target, &info) != 0)
		return -1;
	if ((size_t)size > offsetof(struct ptrace_lwpinfo, pl_tdname))
		name_thread(where, info.pl_lwpid, info.pl_tdname, sizeof info.pl_tdname);
	memcpy(to, &info, size);
	return 0;
}

/* PT_GET_SC_ARGS; and PT_GET_SC_RET, at a call's exit. */
static int at_call(const void *where, pid_t target, int flags, struct ptrace_lwpinfo *info, struct found *found)
{
	if (ask_information(where, target, info) != 0 || read_record(where, target, found) != 0)
		return -1;
	if (info->pl_flags & flags)
		return 0;
	errno = EINVAL;
	return -1;
}

static int call_arguments(const void *where, pid_t target, void *to, size_t size)
{
	struct ptrace_lwpinfo info;
	struct found found;
	if (at_call(where, target, PL_FLAG_SCE | PL_FLAG_SCX, &info, &found) != 0)
		return -1;
	size_t all = info.pl_syscall_narg * sizeof found.record.arguments[0];
	memcpy(to, found.record.arguments, size < all ? size : all);
	return 0;
}

static int call_result(const void *where, pid_t target, struct ptrace_sc_ret *to, size_t size)
{
	struct ptrace_lwpinfo info;
	struct found found;
	if (at_call(where, target, PL_FLAG_SCX, &info, &found) != 0)
		return -1;
	struct ptrace_sc_ret result = {.sr_retval = {found.record.general.r_rax, 0}};
	if (found.record.error != 0)
		result = (struct ptrace_sc_ret){.sr_error = found.record.error};
	memcpy(to, &result, size < sizeof result ? size : sizeof result);
	return 0;
}

static int list(const void *where, pid_t target, lwpid_t *to, int room)
{
	if (tracehost_ask(where, "ptrace %d %d %d", PT_GETLWPLIST, target, room) != 0)
		return -1;
	int count = tracehost_number();
	for (int i = 0; i < count; i++)
		to[i] = tracehost_number();
	return count;
}

static int event_mask(const void *where, int request, pid_t target, int *mask, int size)
{
	if (size != sizeof(int)) {
		errno = EINVAL;
		return -1;
	}
	if (tracehost_ask(where, "ptrace %d %d %d", request, target, request == PT_SET_EVENT_MASK ? *mask : 0) != 0)
		return -1;
	if (request == PT_GET_EVENT_MASK)
		*mask = tracehost_number();
	return 0;
}

/* ---- all requests */

static int unknown(int request)
{
	if (request == PT_SETFSBASE)
		tracehost_say("ptrace: the base of fs is the runtime's too: PT_SETFSBASE is answered EINVAL");
	else
		tracehost_say("ptrace: request %d isn't in the model, and is answered EINVAL", request);
	errno = EINVAL;
	return -1;
}

/* Whether the target goes on at `addr`, unless that is 1: ptrace(2). */
static int sets_counter(int request)
{
	return request == PT_CONTINUE || request == PT_TO_SCE || request == PT_TO_SCX || request == PT_SYSCALL;
}

/* At address 0, where nothing is, PT_CONTINUE and its kin make the target go on even under --strict. */
static int resume(const void *where, int request, pid_t target, const char *address, int data)
{
	if (sets_counter(request) && address != (char *)1 && address != NULL && set_counter(where, target, address) != 0)
		return -1;
	if (tracehost_ask(where, "ptrace %d %d %d %d", request, target, data, sets_counter(request) && address == NULL) != 0)
		return -1;
	return request == PT_GETNUMLWPS ? (int)tracehost_number() : 0;
}

static int registers(const void *where, int request, pid_t target, void *address)
{
	switch (request) {
	case PT_SETREGS: return set_registers(where, target, address, GENERAL);
	case PT_SETFPREGS: return set_registers(where, target, address, FLOATS);
	case PT_SETGSBASE: return set_registers(where, target, address, BASES);
	case PT_SETDBREGS: return set_debug(where, target, address);
	default: return get_registers(where, target, request, address);
	}
}

int tracehost_ptrace(int request, pid_t target, char *address, int data)
{
	int word = 0;
	switch (request) {
	case PT_READ_I:
	case PT_READ_D:
		if (memory(HERE, target, address, &word, sizeof word, 0) < 0)
			return -1;
		errno = 0;
		return word;
	case PT_WRITE_I:
	case PT_WRITE_D: return memory(HERE, target, address, &data, sizeof data, 1) < 0 ? -1 : 0;
	case PT_IO: return io(HERE, target, (struct ptrace_io_desc *)(void *)address);
	case PT_GETREGS:
	case PT_SETREGS:
	case PT_GETFPREGS:
	case PT_SETFPREGS:
	case PT_GETDBREGS:
	case PT_SETDBREGS:
	case PT_GETFSBASE:
	case PT_GETGSBASE:
	case PT_SETGSBASE: return registers(HERE, request, target, address);
	case PT_SETSTEP:
	case PT_CLEARSTEP: return ask("setstep %d %d", target, request == PT_SETSTEP);
	case PT_GET_SC_ARGS: return call_arguments(HERE, target, address, (size_t)data);
	case PT_GET_SC_RET: return call_result(HERE, target, (struct ptrace_sc_ret *)(void *)address, (size_t)data);
	case PT_VM_TIMESTAMP: return tracehost_map_version(HERE, target);
	case PT_VM_ENTRY: return tracehost_map_entry(HERE, target, (struct ptrace_vm_entry *)(void *)address);
	case PT_LWPINFO: return information(HERE, target, address, data);
	case PT_GETLWPLIST: return list(HERE, target, (lwpid_t *)(void *)address, data);
	case PT_GET_EVENT_MASK:
	case PT_SET_EVENT_MASK: return event_mask(HERE, request, target, (int *)(void *)address, data);
	/* tools/format requests */
	case PT_TRACE_ME:
	case PT_CONTINUE:
	case PT_KILL:
	case PT_STEP:
	case PT_ATTACH:
	case PT_DETACH:
	case PT_GETNUMLWPS:
	case PT_SUSPEND:
	case PT_RESUME:
	case PT_TO_SCE:
	case PT_TO_SCX:
	case PT_SYSCALL:
	case PT_FOLLOW_FORK:
	case PT_LWP_EVENTS:
		/* end */
		return resume(HERE, request, target, address, data);
	default: return unknown(request);
	}
}
