/* The filter of seccomp(2) that holds calls past the runtime, by the address of their instruction: the program's, its
 * libraries', the C library's, or anybody else's, as of a program without the runtime, which an exec has made.
 *
 * What is held in the first three meets a signal, whose handler tells it. Of what comes from elsewhere the broker hears by a
 * notification, and answers it. A host that gives none ends such a process by the signal. */
#define _GNU_SOURCE
#include <dlfcn.h>
#include <fcntl.h>
#include <link.h>
#include <linux/audit.h>
#include <linux/filter.h>
#include <linux/seccomp.h>
#include <linux/sockios.h>
#include <sched.h>
#include <string.h>
#include <sys/mman.h>
#include <sys/prctl.h>
#include <sys/syscall.h>
#include <unistd.h>
#include "runtime.h"

enum { WINDOWS = 64, FEW = 8, FORK = CLONE_CHILD_SETTID | CLONE_CHILD_CLEARTID | SIGCHLD };

unsigned long tracehost_held;
int tracehost_listener = -1;

/* ---- the runtime's own calls of these, at an address that is the same in each image, and that sanitizers leave free */

static char *const door_page = (char *)0x7ed000000000;
enum { PAGE = 4096 };

/* As syscall(2), except that it returns the negative errno: arguments move to a system call's registers. */
static const unsigned char door_text[] = {0x48, 0x89, 0xf8, 0x48, 0x89, 0xf7, 0x48, 0x89, 0xd6, 0x48, 0x89, 0xca, 0x4d, 0x89, 0xc2,
	0x4d, 0x89, 0xc8, 0x4c, 0x8b, 0x4c, 0x24, 0x08, 0x0f, 0x05, 0xc3};

static int is_open;

long tracehost_host_call(long number, const long arguments[6])
{
	long (*door)(long, ...) = is_open ? (long (*)(long, ...))door_page : syscall; /* without a filter nothing is held */
	long result = door(number, arguments[0], arguments[1], arguments[2], arguments[3], arguments[4], arguments[5]);
	return result == -1 && !is_open ? -errno : result;
}

int tracehost_host_kill(pid_t pid, int number) { return (int)tracehost_host_call(SYS_kill, (long[6]){pid, number}); }

static int open_door(void)
{
	void *page = mmap(door_page, PAGE, PROT_READ | PROT_WRITE, MAP_PRIVATE | MAP_ANONYMOUS | MAP_FIXED_NOREPLACE, -1, 0);
	if (page != door_page)
		return -1;
	memcpy(page, door_text, sizeof door_text);
	is_open = mprotect(page, PAGE, PROT_READ | PROT_EXEC) == 0;
	return is_open ? 0 : -1;
}

/* ---- windows: addresses of instructions */

enum place { OF_SYSTEM, OF_OWN, OF_SANITIZER, ELSEWHERE, PLACES }; /* of the filter's memory */

struct windows {
	struct {
		unsigned long from, to, place;
	} at[WINDOWS];
	int count;
};

static void add_window(struct windows *windows, unsigned long from, unsigned long size, enum place place)
{
	if (windows->count == WINDOWS)
		return;
	windows->at[windows->count].from = from;
	windows->at[windows->count].to = from + size;
	windows->at[windows->count++].place = place;
}

/* Only the instructions that make a system call, if there are at most so many: a program that an exec makes may have its C
 * library there. The address that a filter sees is behind the instruction. */
static int add_instructions(struct windows *windows, unsigned long from, unsigned long size, int most)
{
	static const unsigned char instructions[][2] = {{0x0f, 0x05}, {0xcd, 0x80}, {0x0f, 0x34}}; /* syscall, int80, sysenter */
	const int before = windows->count;
	for (size_t i = 0; i < sizeof instructions / sizeof instructions[0]; i++) {
		const char *at = (const char *)from, *end = at + size;
		while ((at = memmem(at, (size_t)(end - at), instructions[i], 2)) != NULL) {
			at += 2;
			if (windows->count - before == most || windows->count == WINDOWS) {
				windows->count = before;
				return 0;
			}
			add_window(windows, (unsigned long)at, 1, OF_OWN);
		}
	}
	return 1;
}

/* The system's libraries aren't own: where they are, an exec'd program may have its C library. */
static void add_windows(struct windows *windows, const struct dl_phdr_info *info)
{
	const void *libc = tracehost_libc();
	int is_own = libc != NULL && libc != tracehost_base_of(info->dlpi_phdr) && !tracehost_is_of_the_system(info->dlpi_name);
	int is_fixed = info->dlpi_addr == 0, is_library = info->dlpi_name[0] != 0;
	enum place place = tracehost_is_sanitizer(info) ? OF_SANITIZER : is_own ? OF_OWN : OF_SYSTEM;
	for (int i = 0; i < info->dlpi_phnum; i++) {
		const ElfW(Phdr) *segment = &info->dlpi_phdr[i];
		unsigned long from = info->dlpi_addr + segment->p_vaddr;
		if (segment->p_type != PT_LOAD || !(segment->p_flags & PF_X))
			continue;
		if (place == OF_OWN && is_library && add_instructions(windows, from, segment->p_memsz, FEW))
			continue;
		if (place == OF_OWN && is_fixed) {
			add_instructions(windows, from, segment->p_memsz, WINDOWS / 2);
			place = OF_SYSTEM;
		}
		add_window(windows, from, segment->p_memsz, place);
	}
}

static int add_all_windows(struct dl_phdr_info *info, size_t size, void *windows)
{
	(void)size;
	add_windows(windows, info);
	return 0;
}

/* The C library's syscall(2), by which others make calls. It is a part of a page: an exec'd program's clone isn't there. */
static void add_syscall(struct windows *windows)
{
	Dl_info info;
	const ElfW(Sym) *symbol = NULL;
	const void *function = (const void *)(size_t)dlsym(RTLD_NEXT, "syscall");
	if (function != NULL && dladdr1(function, &info, (void **)&symbol, RTLD_DL_SYMENT) != 0 && symbol != NULL)
		add_window(windows, (unsigned long)function, symbol->st_size, OF_OWN);
}

/* ---- statements */

#define LOAD(member) BPF_STMT(BPF_LD | BPF_W | BPF_ABS, offsetof(struct seccomp_data, member))
#define LOAD_HIGH(member) BPF_STMT(BPF_LD | BPF_W | BPF_ABS, offsetof(struct seccomp_data, member) + 4)
#define IF_EQUAL(value, then, otherwise) BPF_JUMP(BPF_JMP | BPF_JEQ | BPF_K, value, then, otherwise)
#define IF_LEAST(value, then, otherwise) BPF_JUMP(BPF_JMP | BPF_JGE | BPF_K, value, then, otherwise)
#define IF_SET(value, then, otherwise) BPF_JUMP(BPF_JMP | BPF_JSET | BPF_K, value, then, otherwise)
#define ANSWER(value) BPF_STMT(BPF_RET | BPF_K, value)

enum kind { /* of calls: where they are held. A thread or a fork as the C library makes it is PLAIN */
	PLAIN,
	SPAWNS,
	CLONE3,
	FORKS,
	GROUPS,
	KILLS,
	SIGNALS_THREAD,
	QUEUES,
	PIDFD,
	TRACES,
	READS,
	PRIORITY,
	OTHERS_PRIORITY,
	HOST,
	OF_32_BITS,
	OF_X32,
	KINDS
};
enum label { BITS_32 = KINDS, CLONE, FCNTL, IOCTL, IN_WINDOWS, LABELS };

struct filter {
	struct sock_filter at[1024];
	unsigned short length;
	unsigned short labels[LABELS]; /* their places */
	unsigned notice; /* the answer to what comes from elsewhere */
	unsigned forks; /* and to a fork, or another program's start, from there */
};

static void put(struct filter *filter, const struct sock_filter *statements, size_t count)
{
	memcpy(filter->at + filter->length, statements, count * sizeof *statements);
	filter->length += count;
}
#define PUT(filter, ...)                                                   \
	do {                                                                   \
		const struct sock_filter statements[] = {__VA_ARGS__};             \
		put(filter, statements, sizeof statements / sizeof statements[0]); \
	} while (0)

enum { UNSET = 1 << 16 }; /* a jump to a label; finish() has its place */
static void go_to(struct filter *filter, int label) { PUT(filter, BPF_STMT(BPF_JMP | BPF_JA, UNSET + label)); }
static void go_if(struct filter *filter, int number, int label)
{
	PUT(filter, IF_EQUAL((unsigned)number, 0, 1));
	go_to(filter, label);
}

static void finish(struct filter *filter)
{
	for (int i = 0; i < filter->length; i++)
		if (filter->at[i].code == (BPF_JMP | BPF_JA) && filter->at[i].k >= UNSET)
			filter->at[i].k = filter->labels[filter->at[i].k - UNSET] - (i + 1);
}

/* ---- which calls are looked at */

/* Those that a program makes often come first: each fork of the C library makes these. */
static void put_calls(struct filter *filter)
{
	enum { X32 = 0x40000000 };
	PUT(filter, LOAD(arch), IF_EQUAL(AUDIT_ARCH_X86_64, 1, 0));
	go_to(filter, BITS_32);
	PUT(filter, LOAD(nr), IF_LEAST(X32, 0, 1));
	go_to(filter, OF_X32);
	go_if(filter, SYS_clone, CLONE);
	go_if(filter, SYS_clone3, CLONE3);
	go_if(filter, SYS_rt_sigprocmask, PLAIN);
	go_if(filter, SYS_rt_sigaction, PLAIN);
	go_if(filter, SYS_wait4, PLAIN);
	go_if(filter, SYS_waitid, PLAIN);
	go_if(filter, SYS_fcntl, FCNTL);
	go_if(filter, SYS_ioctl, IOCTL);
#define HELD(name, number, number_of_32, kind) \
	if (number >= 0)                           \
		go_if(filter, number, kind);
#include "held.h"
	PUT(filter, ANSWER(SECCOMP_RET_ALLOW));
	filter->labels[BITS_32] = filter->length;
	PUT(filter, LOAD(nr));
#define HELD(name, number, number_of_32, kind)                \
	if (number_of_32 >= 0 && kind != FORKS && kind != GROUPS) \
		go_if(filter, number_of_32, HOST);
#include "held.h"
	go_to(filter, OF_32_BITS);
	filter->labels[CLONE] = filter->length;
	PUT(filter, LOAD(args[0]), IF_SET(CLONE_THREAD, 1, 0), IF_EQUAL(FORK, 0, 1));
	go_to(filter, PLAIN);
	go_to(filter, SPAWNS);
	filter->labels[FCNTL] = filter->length; /* whom a descriptor's signals go to */
	PUT(filter, LOAD(args[1]), IF_EQUAL(F_SETOWN, 1, 0), IF_EQUAL(F_SETOWN_EX, 0, 1));
	go_to(filter, HOST);
	PUT(filter, ANSWER(SECCOMP_RET_ALLOW));
	filter->labels[IOCTL] = filter->length;
	PUT(filter, LOAD(args[1]), IF_EQUAL(FIOSETOWN, 1, 0), IF_EQUAL(SIOCSPGRP, 0, 1));
	go_to(filter, HOST);
	PUT(filter, ANSWER(SECCOMP_RET_ALLOW));
	filter->labels[PRIORITY] = filter->length; /* one's own is its business */
	PUT(filter, LOAD(args[0]), IF_EQUAL(0, 0, 1), ANSWER(SECCOMP_RET_ALLOW));
	go_to(filter, OTHERS_PRIORITY);
}

/* The answers to a call of this kind, by the place of its instruction. */
static void put_kind(struct filter *filter, enum kind kind, unsigned of_system, unsigned of_sanitizer, unsigned elsewhere)
{
	const unsigned own = kind == OTHERS_PRIORITY ? SECCOMP_RET_ALLOW : SECCOMP_RET_TRAP;
	const unsigned answers[PLACES] = {
		[OF_SYSTEM] = of_system, [OF_OWN] = own, [OF_SANITIZER] = of_sanitizer, [ELSEWHERE] = elsewhere};
	filter->labels[kind] = filter->length;
	for (int i = 0; i < PLACES; i++)
		PUT(filter, BPF_STMT(BPF_LD | BPF_IMM, answers[i]), BPF_STMT(BPF_ST, i));
	go_to(filter, IN_WINDOWS);
}

/* What the C library does with all signals blocked, as in posix_spawn(3) and aio_read(3), can't be told by a handler. */
static void put_kinds(struct filter *filter)
{
	enum { ALLOW = (int)SECCOMP_RET_ALLOW, TRAP = SECCOMP_RET_TRAP, NONE = SECCOMP_RET_ERRNO | ENOSYS };
	const unsigned notice = filter->notice, blocked = notice == SECCOMP_RET_USER_NOTIF ? notice : (unsigned)TRAP;
	put_kind(filter, PLAIN, ALLOW, ALLOW, ALLOW);
	put_kind(filter, SPAWNS, blocked, ALLOW, filter->forks);
	put_kind(filter, CLONE3, NONE, ALLOW, ALLOW); /* the C library has clone(2) if it isn't there */
	put_kind(filter, FORKS, TRAP, ALLOW, filter->forks);
	put_kind(filter, GROUPS, TRAP, ALLOW, ALLOW);
	put_kind(filter, KILLS, TRAP, TRAP, notice);
	put_kind(filter, SIGNALS_THREAD, TRAP, ALLOW, notice);
	put_kind(filter, QUEUES, blocked, TRAP, notice);
	put_kind(filter, PIDFD, TRAP, TRAP, notice);
	put_kind(filter, TRACES, TRAP, ALLOW, notice);
	put_kind(filter, READS, TRAP, TRAP, notice);
	put_kind(filter, OTHERS_PRIORITY, ALLOW, ALLOW, notice == (unsigned)TRAP ? (unsigned)ALLOW : notice);
	put_kind(filter, HOST, TRAP, TRAP, notice);
	put_kind(filter, OF_32_BITS, TRAP, ALLOW, ALLOW);
	put_kind(filter, OF_X32, TRAP, TRAP, NONE);
}

/* The first window with the instruction answers. The runtime's own calls pass. */
static void put_windows(struct filter *filter, const struct windows *windows)
{
	const unsigned long door = (unsigned long)door_page;
	filter->labels[IN_WINDOWS] = filter->length;
	for (int i = 0; i < windows->count; i++) {
		unsigned long from = windows->at[i].from, to = windows->at[i].to;
		PUT(filter, LOAD_HIGH(instruction_pointer), IF_EQUAL((unsigned)(from >> 32), 0, 5), LOAD(instruction_pointer),
			IF_LEAST((unsigned)from, 0, 3), IF_LEAST((unsigned)to, 2, 0), BPF_STMT(BPF_LD | BPF_MEM, windows->at[i].place),
			BPF_STMT(BPF_RET | BPF_A, 0));
	}
	PUT(filter, LOAD_HIGH(instruction_pointer), IF_EQUAL((unsigned)(door >> 32), 0, 3), LOAD(instruction_pointer),
		IF_LEAST((unsigned)door + PAGE, 1, 0), ANSWER(SECCOMP_RET_ALLOW), BPF_STMT(BPF_LD | BPF_MEM, ELSEWHERE),
		BPF_STMT(BPF_RET | BPF_A, 0));
}

static void make_filter(struct filter *filter, const struct windows *windows, unsigned notice, unsigned forks)
{
	filter->length = 0;
	filter->notice = notice, filter->forks = forks;
	put_calls(filter);
	put_kinds(filter);
	put_windows(filter, windows);
	finish(filter);
}

static int set_filter(const struct filter *filter, unsigned flags)
{
	struct sock_fprog program = {.len = filter->length, .filter = (struct sock_filter *)filter->at};
	return (int)syscall(SYS_seccomp, SECCOMP_SET_MODE_FILTER, flags, &program);
}

/* ---- setting it */

#ifndef SECCOMP_FILTER_FLAG_WAIT_KILLABLE_RECV
#define SECCOMP_FILTER_FLAG_WAIT_KILLABLE_RECV (1UL << 5)
#endif

/* Whether the host lets a call that was heard of go on: since Linux 5.5, and pidfd_getfd(2) is there since 5.6. */
static int can_go_on(void) { return syscall(SYS_pidfd_getfd, -1, -1, 0) != -1 || errno != ENOSYS; }

/* With notifications, if the host gives them; 0, or -1. A process whose call the broker has heard of meets no signal until
 * the answer, on hosts that can do that. */
static int set_first_filter(struct filter *filter, const struct windows *windows)
{
	if (can_go_on()) {
		make_filter(filter, windows, SECCOMP_RET_USER_NOTIF, SECCOMP_RET_USER_NOTIF);
		tracehost_listener = set_filter(filter, SECCOMP_FILTER_FLAG_NEW_LISTENER | SECCOMP_FILTER_FLAG_WAIT_KILLABLE_RECV);
		if (tracehost_listener < 0 && errno == EINVAL)
			tracehost_listener = set_filter(filter, SECCOMP_FILTER_FLAG_NEW_LISTENER);
		if (tracehost_listener >= 0)
			return 0;
	}
	make_filter(filter, windows, SECCOMP_RET_TRAP, SECCOMP_RET_ALLOW);
	return set_filter(filter, 0);
}

/* The filter of the first image answers what comes from elsewhere: in processes of later images too. */
static int set_further_filter(struct filter *filter, const struct windows *windows, unsigned flags)
{
	make_filter(filter, windows, SECCOMP_RET_ALLOW, SECCOMP_RET_ALLOW);
	return set_filter(filter, flags);
}

/* Whether another program's addresses differ from ours: else its own calls would be held too. */
static int are_random(void)
{
	char digit = '0';
	int fd = open("/proc/sys/kernel/randomize_va_space", O_RDONLY | O_CLOEXEC);
	if (fd < 0 || read(fd, &digit, 1) != 1)
		digit = '0';
	if (fd >= 0)
		close(fd);
	return digit != '0';
}

/* FNV-1a. */
static unsigned long hash_of(const struct windows *windows)
{
	const unsigned char *bytes = (const unsigned char *)windows->at;
	unsigned long hash = 0xcbf29ce484222325;
	for (size_t i = 0; i < windows->count * sizeof windows->at[0]; i++)
		hash = (hash ^ bytes[i]) * 0x100000001b3;
	return hash;
}

static struct filter filter;
static int is_further; /* this image has set one that the first process hasn't; the broker is told */

void tracehost_tell_filter(void)
{
	if (is_further)
		tracehost_tell("0 filter set");
	is_further = 0;
}

void tracehost_hold_calls(unsigned long known)
{
	static struct windows windows;
	pthread_atfork(tracehost_before_fork, NULL, NULL);
	add_syscall(&windows);
	dl_iterate_phdr(add_all_windows, &windows);
	if (!are_random() || open_door() != 0)
		return;
	tracehost_held = hash_of(&windows);
	if (tracehost_held == known) /* the image before this one was the same */
		return;
	if (prctl(PR_SET_NO_NEW_PRIVS, 1, 0, 0, 0) != 0 ||
		(known == 0 ? set_first_filter(&filter, &windows) : set_further_filter(&filter, &windows, 0)) < 0)
		tracehost_held = 0;
	else
		is_further = known != 0;
}

/* Of a library that the program has loaded. */
void tracehost_hold_library(const struct dl_phdr_info *info)
{
	struct windows windows = {.count = 0};
	add_windows(&windows, info);
	if (!tracehost_held || windows.count == 0)
		return;
	is_further = set_further_filter(&filter, &windows, SECCOMP_FILTER_FLAG_TSYNC) == 0;
	tracehost_tell_filter();
}
