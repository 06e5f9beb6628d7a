/* Calls under PT_SYSCALL that come by no function of the runtime's: what the C library calls on its own, as fopen's open and
 * printf's write, what a library calls, and what is an instruction. While a debugger asks for calls, the host sends SIGSYS for
 * each system call of the program's (syscall user dispatch, since Linux 5.11), unless the thread's selector is 0, as it is in
 * the runtime. The handler makes it a call of the runtime's with FreeBSD's number and arguments. */
#define _GNU_SOURCE
#include <fcntl.h>
#include <linux/audit.h>
#include <linux/futex.h>
#include <string.h>
#include <sys/prctl.h>
#include <sys/syscall.h>
#include <ucontext.h>
#include "../include/machine/psl.h"
#include "freebsd.h"
#include "held.h"
#include "runtime.h"

#ifndef PR_SET_SYSCALL_USER_DISPATCH
#define PR_SET_SYSCALL_USER_DISPATCH 59
#define PR_SYS_DISPATCH_ON 1
#endif

static greg_t *general(void *context) { return ((ucontext_t *)context)->uc_mcontext.gregs; }

/* ---- which calls */

/* How the host's arguments become FreeBSD's: the path's folder is added, and flags. HOSTS: no function makes such a call. */
enum form { SAME, HOSTS, FOLDER, FOLDER_AND_NO_FLAGS, FOLDER_AND_NO_LINK, CREATES, OF_PATH_OR_DESCRIPTOR };

/* clang-format off */
static const struct row {
	short number, code;
	enum form form;
} rows[] = {
	{SYS_read, 3, SAME}, {SYS_write, 4, SAME}, {SYS_open, 499, FOLDER}, {SYS_close, 6, SAME},
	{SYS_stat, 552, FOLDER_AND_NO_FLAGS}, {SYS_fstat, 551, SAME}, {SYS_lstat, 552, FOLDER_AND_NO_LINK}, {SYS_poll, 209, SAME},
	{SYS_lseek, 478, SAME}, {SYS_ioctl, 54, SAME}, {SYS_pread64, 475, SAME}, {SYS_pwrite64, 476, SAME}, {SYS_readv, 120, SAME},
	{SYS_writev, 121, SAME}, {SYS_preadv, 289, SAME}, {SYS_pwritev, 290, SAME}, {SYS_access, 33, SAME}, {SYS_select, 93, SAME},
	{SYS_dup, 41, SAME}, {SYS_dup2, 90, SAME}, {SYS_dup3, 90, HOSTS}, {SYS_pipe2, 542, SAME}, {SYS_socket, 97, SAME}, {SYS_connect, 98, SAME},
	{SYS_accept, 30, SAME}, {SYS_accept4, 541, SAME}, {SYS_sendto, 133, SAME}, {SYS_recvfrom, 29, SAME},
	{SYS_sendmsg, 28, SAME}, {SYS_recvmsg, 27, SAME}, {SYS_shutdown, 134, SAME}, {SYS_bind, 104, SAME},
	{SYS_listen, 106, SAME}, {SYS_getsockname, 32, SAME}, {SYS_getpeername, 31, SAME}, {SYS_socketpair, 135, SAME},
	{SYS_setsockopt, 105, SAME}, {SYS_getsockopt, 118, SAME}, {SYS_fcntl, 92, SAME}, {SYS_flock, 131, SAME},
	{SYS_fsync, 95, SAME}, {SYS_fdatasync, 550, SAME}, {SYS_truncate, 479, SAME}, {SYS_ftruncate, 480, SAME},
	{SYS_getdents64, 554, HOSTS}, {SYS_getcwd, 326, HOSTS}, {SYS_chdir, 12, SAME}, {SYS_fchdir, 13, SAME},
	{SYS_rename, 128, SAME}, {SYS_mkdir, 136, SAME}, {SYS_rmdir, 137, SAME}, {SYS_creat, 499, CREATES}, {SYS_link, 9, SAME},
	{SYS_unlink, 10, SAME}, {SYS_symlink, 57, SAME}, {SYS_readlink, 58, SAME}, {SYS_chmod, 15, SAME}, {SYS_fchmod, 124, SAME},
	{SYS_chown, 16, SAME}, {SYS_fchown, 123, SAME}, {SYS_lchown, 254, SAME}, {SYS_umask, 60, SAME}, {SYS_getuid, 24, SAME},
	{SYS_geteuid, 25, SAME}, {SYS_getgid, 47, SAME}, {SYS_getegid, 43, SAME}, {SYS_getrusage, 117, SAME},
	{SYS_statfs, 555, HOSTS}, {SYS_fstatfs, 556, HOSTS}, {SYS_chroot, 61, SAME}, {SYS_openat, 499, SAME},
	{SYS_mkdirat, 496, SAME}, {SYS_fchownat, 491, SAME}, {SYS_newfstatat, 552, OF_PATH_OR_DESCRIPTOR},
	{SYS_unlinkat, 503, SAME}, {SYS_renameat, 501, SAME}, {SYS_linkat, 495, SAME}, {SYS_symlinkat, 502, SAME},
	{SYS_readlinkat, 500, SAME}, {SYS_fchmodat, 490, SAME}, {SYS_faccessat, 489, SAME}, {SYS_utimensat, 547, HOSTS},
	{SYS_close_range, 575, SAME},
};

/* The C library's own business: memory, locks, clocks, and what it asks about itself. FreeBSD's makes other calls for it. */
static const short quiet[] = {
	SYS_mmap, SYS_munmap, SYS_mprotect, SYS_madvise, SYS_mremap, SYS_brk, SYS_futex, SYS_clock_gettime, SYS_gettimeofday, SYS_time,
	SYS_clock_getres, SYS_getpid, SYS_gettid, SYS_getppid, SYS_sched_yield, SYS_getcpu, SYS_set_robust_list, SYS_prctl,
	SYS_arch_prctl, SYS_set_tid_address, SYS_membarrier, SYS_uname, SYS_sysinfo, SYS_sched_getaffinity, SYS_prlimit64,
	SYS_restart_syscall, SYS_getrandom, SYS_rt_sigprocmask, SYS_rt_sigaction, SYS_wait4, SYS_waitid,
};

/* Made at their own place: they begin or end what runs there, or the filter of filter.c has to see where they come from. */
static const short native[] = {
	SYS_clone, SYS_clone3, SYS_execve, SYS_execveat, SYS_exit, SYS_exit_group, SYS_sigaltstack,
#define HELD(name, number, number_of_32, kind) number,
#include "held.h"
};
/* clang-format on */

static int is_among(const short numbers[], size_t count, int number)
{
	for (size_t i = 0; i < count; i++)
		if (numbers[i] == number)
			return 1;
	return 0;
}
#define IS_AMONG(numbers, number) is_among(numbers, sizeof numbers / sizeof numbers[0], number)

static const struct row *row_of(int number)
{
	for (size_t i = 0; i < sizeof rows / sizeof rows[0]; i++)
		if (rows[i].number == number)
			return &rows[i];
	return NULL;
}

/* What others than the C library may not do by an instruction: filter.c. */
static int is_plain(int number)
{
	return number == SYS_rt_sigprocmask || number == SYS_rt_sigaction || number == SYS_wait4 || number == SYS_waitid;
}

static int is_native(int number, const siginfo_t *info, const long arguments[6])
{
	if (info->si_arch != AUDIT_ARCH_X86_64)
		return 1;
	if (is_plain(number))
		return tracehost_base_of(info->si_call_addr) != tracehost_libc();
	if (number == SYS_prlimit64 || number == SYS_sched_setparam || number == SYS_sched_setscheduler ||
		number == SYS_sched_setaffinity)
		return arguments[0] != 0;
	return IS_AMONG(native, number);
}

static int convert(const struct row *row, long a[6])
{
	if (row->form == OF_PATH_OR_DESCRIPTOR && a[3] & AT_EMPTY_PATH && *(const char *)a[1] == 0) {
		a[1] = a[2], a[2] = a[3] = 0;
		return 551; /* fstat(2) */
	}
	if (row->form == SAME || row->form == HOSTS || row->form == OF_PATH_OR_DESCRIPTOR)
		return row->code;
	const long flags = row->form == CREATES ? O_CREAT | O_WRONLY | O_TRUNC : a[1];
	const long last = row->form == CREATES              ? a[1]
					  : row->form == FOLDER             ? a[2]
					  : row->form == FOLDER_AND_NO_LINK ? AT_SYMLINK_NOFOLLOW
														: 0;
	a[3] = last, a[2] = flags, a[1] = a[0], a[0] = AT_FDCWD;
	return row->code;
}

/* ---- a call, as if a function of the runtime's were called there */

char *tracehost_stack_of(const struct frame *frame)
{
	return frame == own.dispatched ? own.dispatched_stack : (char *)(frame->at + 1);
}

/* The arguments stay in the host's registers, as a kernel leaves them, unless a debugger has set others. */
static void keep_arguments(greg_t *now, const greg_t *before, const long reported[6])
{
	static const int places[6] = {REG_RDI, REG_RSI, REG_RDX, REG_R10, REG_R8, REG_R9};
	for (int i = 0; i < 6; i++)
		if (now[places[i]] == reported[i])
			now[places[i]] = before[places[i]];
}

/* Back in the program: -1 is the host's error, unless a debugger has set another result. */
static void come_back(void *context, long result)
{
	greg_t *g = general(context);
	const int error = errno;
	own.now.inside = 0;
	g[REG_RAX] = result;
	if (own.now.lands)
		tracehost_land(context);
	if (result == -1 && g[REG_RAX] == -1)
		g[REG_RAX] = -error;
}

static void make_call(
	void *context, long (*make)(const struct frame *, const struct row *, long[6]), const struct row *row, long a[6])
{
	greg_t *g = general(context);
	const void *place[1] = {(const void *)g[REG_RIP]};
	const struct now outer = own.now;
	const int saved = errno;
	gregset_t before;
	memcpy(before, g, sizeof before);
	struct frame frame = {.at = place, .outer = own.now.frame, .flags = (unsigned long)g[REG_EFL]};
	tracehost_fill_frame(&frame, context);
	own.dispatched = &frame, own.dispatched_stack = (char *)g[REG_RSP];
	own.now.frame = &frame, own.now.inside = 1, own.now.context = NULL, own.now.interrupted = context;
	own.now.lands = g[REG_EFL] & PSL_T ? LANDS_STEPPED : 0; /* the call is the step */
	g[REG_EFL] &= ~PSL_T;
	come_back(context, make(&frame, row, a));
	while (tracehost_goes_back(context, place[0])) { /* a debugger has set it back to its instruction */
		long again[6] = {g[REG_RDI], g[REG_RSI], g[REG_RDX], g[REG_RCX], g[REG_R8], g[REG_R9]};
		const int code = (int)g[REG_RAX];
		tracehost_fill_frame(&frame, context);
		g[REG_RIP] = (greg_t)place[0];
		own.now.inside = 1, own.now.context = NULL;
		come_back(context, tracehost_system_call(code, again));
	}
	keep_arguments(g, before, a);
	own.now.frame = outer.frame, own.now.context = outer.context, own.now.interrupted = outer.interrupted;
	own.now.lands = 0;
	own.dispatched = NULL;
	errno = saved;
}

static long report(const struct frame *frame, const struct row *row, long a[6])
{
	const int code = convert(row, a);
	return tracehost_reported_code(frame, code, row->form == HOSTS ? row->number : 0, a);
}

/* A lock of the C library's: one that waits lets others go on, and looks again. */
static long wait_for_lock(const struct frame *frame, const struct row *row, long a[6])
{
	(void)row;
	if ((a[1] & FUTEX_CMD_MASK) == FUTEX_WAKE)
		tracehost_host_call(SYS_futex, a);
	return tracehost_futex(frame->at[0], (const int *)a[0], (int)a[1], (int)a[2], (const struct timespec *)a[3]);
}

static int is_lock(int number, const long a[6])
{
	const int kind = (int)a[1] & FUTEX_CMD_MASK;
	return number == SYS_futex &&
		   (kind == FUTEX_WAKE || kind == FUTEX_WAIT_BITSET || (kind == FUTEX_WAIT && (const void *)a[3] == NULL));
}

/* The mask that the program has in the host: a handler's own ends with it. SIGSYS is never blocked. */
static long change_mask(void *context, const long a[6])
{
	uint64_t *mask = (uint64_t *)&((ucontext_t *)context)->uc_sigmask, set = 0;
	const uint64_t before = *mask, sigsys = 1ULL << (SIGSYS - 1);
	if (a[3] != sizeof set)
		return -EINVAL;
	if (a[1] != 0) {
		memcpy(&set, (const void *)a[1], sizeof set);
		*mask = a[0] == SIG_BLOCK ? before | set : a[0] == SIG_UNBLOCK ? before & ~set : set;
		*mask &= ~sigsys;
	}
	if (a[2] != 0)
		memcpy((void *)a[2], &before, sizeof before);
	return 0;
}

static void tell_number(int number)
{
	static unsigned char told[64];
	if (number < 0 || number >= 8 * (int)sizeof told || told[number / 8] >> number % 8 & 1)
		return;
	told[number / 8] |= (unsigned char)(1 << number % 8);
	tracehost_remark("calls that PT_SYSCALL doesn't report: the host's number %d", number);
}

/* Whether the thread makes the call itself, at its own place. */
int tracehost_dispatch(const siginfo_t *info, void *context)
{
	greg_t *g = general(context);
	const int number = info->si_syscall;
	long a[6] = {g[REG_RDI], g[REG_RSI], g[REG_RDX], g[REG_R10], g[REG_R8], g[REG_R9]};
	const struct row *row = row_of(number);
	const int is_program = own.fd >= 0 && !own.busy && !own.now.inside;
	if (number == SYS_rt_sigreturn && info->si_arch == AUDIT_ARCH_X86_64)
		g[REG_RIP] = (greg_t)tracehost_restorer;
	else if (is_native(number, info, a)) {
		g[REG_RIP] -= 2; /* the instruction */
		return 1;
	} else if (number == SYS_rt_sigprocmask)
		g[REG_RAX] = change_mask(context, a);
	else if (is_program && row != NULL)
		make_call(context, report, row, a);
	else if (is_program && is_lock(number, a))
		make_call(context, wait_for_lock, NULL, a);
	else {
		if (is_program && !IS_AMONG(quiet, number))
			tell_number(number);
		g[REG_RAX] = tracehost_host_call(number, a);
	}
	return 0;
}

/* ---- the host's part */

/* The handler of SIGSYS returns by an instruction that is always allowed. */
static void set_restorer(void)
{
	struct {
		void *handler;
		unsigned long flags;
		const void *restorer;
		uint64_t mask;
	} action;
	const long mask_size = sizeof action.mask, has_restorer = 0x04000000;
	if (tracehost_host_call(SYS_rt_sigaction, (long[6]){SIGSYS, 0, (long)&action, mask_size}) != 0)
		tracehost_broken("rt_sigaction");
	action.flags |= (unsigned long)has_restorer;
	action.restorer = tracehost_restorer;
	if (tracehost_host_call(SYS_rt_sigaction, (long[6]){SIGSYS, (long)&action, 0, mask_size}) != 0)
		tracehost_broken("rt_sigaction");
}

/* After each answer: this thread's calls are watched as long as a debugger asks for them. */
void tracehost_watch_calls(void)
{
	if (own.now.reports && own.dispatches == 0) {
		set_restorer();
		const unsigned long length = (unsigned long)(tracehost_restorer_end - tracehost_restorer) + 1;
		const int is_on =
			prctl(PR_SET_SYSCALL_USER_DISPATCH, PR_SYS_DISPATCH_ON, tracehost_restorer, length, &own.now.selector) == 0;
		own.dispatches = is_on ? 1 : -1;
		if (!is_on)
			tracehost_remark("calls that PT_SYSCALL doesn't report: the C library's own, since the host dispatches none");
	}
	own.now.watches = own.now.reports && own.dispatches > 0;
}
