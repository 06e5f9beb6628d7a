/* Calls that get past the runtime: of a library, or of an object that was compiled without <tracehost/posix.h>. The filter of
 * filter.c stops a system call, and names of by_name.S stand before the C library's. The first one ends the run, and is told
 * with the file that made it. */
#define _GNU_SOURCE
#include <dlfcn.h>
#include <execinfo.h>
#include <link.h>
#include <linux/audit.h>
#include <sched.h>
#include <stdio.h>
#include <string.h>
#include <sys/syscall.h>
#include <ucontext.h>
#include <unistd.h>
#include "runtime.h"

static const struct {
	int number;
	const char *name;
} held[] = {
#define HELD(name, number, number_of_32, kind) {number, #name},
#include "held.h"
	{SYS_clone, "clone"},
	{SYS_clone3, "clone3"},
	{SYS_wait4, "wait4"},
	{SYS_waitid, "waitid"},
	{SYS_rt_sigaction, "sigaction"},
	{SYS_rt_sigprocmask, "sigprocmask"},
	{SYS_fcntl, "F_SETOWN"},
	{SYS_ioctl, "FIOSETOWN"},
};

/* ---- where a call comes from */

const void *tracehost_base_of(const void *address)
{
	Dl_info info;
	return dladdr(address, &info) != 0 ? info.dli_fbase : NULL;
}

/* NULL in a program that is linked statically. */
const void *tracehost_libc(void) { return tracehost_base_of((const void *)(size_t)dlsym(RTLD_DEFAULT, "gnu_get_libc_version")); }

int tracehost_is_of_the_system(const char *file) { return strncmp(file, "/lib", 4) == 0 || strncmp(file, "/usr/", 5) == 0; }

/* With clang a sanitizer is a part of the program; it makes such calls when it looks for leaks. */
extern void __sanitizer_set_death_callback(void (*)(void)) __attribute__((weak));

int tracehost_is_sanitized(void) { return &__sanitizer_set_death_callback != NULL; }

int tracehost_is_sanitizer(const struct dl_phdr_info *info)
{
	const void *sanitizer = (const void *)(size_t)&__sanitizer_set_death_callback;
	return strstr(info->dlpi_name, "san.so") != NULL ||
		   (sanitizer != NULL && tracehost_base_of(sanitizer) == tracehost_base_of(info->dlpi_phdr));
}

/* The first caller outside of the C library, of those from `from` on. */
static const void *caller(const void *from)
{
	void *frames[64];
	const void *libc = tracehost_libc();
	int count = backtrace(frames, 64), i = 0;
	if (libc == NULL || tracehost_base_of(from) != libc)
		return from;
	while (i < count && tracehost_base_of(frames[i]) != libc)
		i++;
	while (i < count && tracehost_base_of(frames[i]) == libc)
		i++;
	return i < count ? frames[i] : from;
}

static void __attribute__((noreturn)) tell(const char *call, const void *from)
{
	Dl_info info;
	const void *where = caller(from);
	const char *file = dladdr(where, &info) != 0 ? info.dli_fname : "an unknown place";
	if (own.fd < 0)
		tracehost_say("%s calls %s past the runtime", file, call);
	else
		tracehost_ask(where, "outside %s %s", call, file);
	_exit(EXIT_REFUSED);
}

/* ---- by an instruction, or by a function of the C library's */

/* What a process does to itself: abort(3), and a look at its own memory. */
static int is_about_itself(const siginfo_t *info, const long arguments[6])
{
	const int number = info->si_syscall;
	if (info->si_arch != AUDIT_ARCH_X86_64 || (pid_t)arguments[0] != syscall(SYS_getpid))
		return 0;
	return number == SYS_process_vm_readv || number == SYS_process_vm_writev ||
		   (number == SYS_tgkill && (int)arguments[2] == SIGABRT && (pid_t)arguments[1] == syscall(SYS_gettid));
}

void tracehost_held_call(const siginfo_t *info, void *context)
{
	greg_t *registers = ((ucontext_t *)context)->uc_mcontext.gregs;
	const long arguments[6] = {
		registers[REG_RDI], registers[REG_RSI], registers[REG_RDX], registers[REG_R10], registers[REG_R8], registers[REG_R9]};
	if (is_about_itself(info, arguments)) {
		registers[REG_RAX] = tracehost_host_call(info->si_syscall, arguments);
		return;
	}
	for (size_t i = 0; i < sizeof held / sizeof held[0] && info->si_arch == AUDIT_ARCH_X86_64; i++)
		if (held[i].number == info->si_syscall)
			tell(held[i].name, info->si_call_addr);
	tell("int80", info->si_call_addr); /* the instruction of 32-bit calls, whatever it asks for */
}

/* The C library's fork(2), of somebody else than the runtime. */
void tracehost_before_fork(void)
{
	if (!own.forking && own.fd >= 0)
		tell("fork", (const void *)(size_t)dlsym(RTLD_DEFAULT, "gnu_get_libc_version"));
}

/* The C library's clone(2), of a library; its own threads don't come by here. */
int clone(int (*)(void *), void *, int, void *, ...) __attribute__((weak));
int clone(int (*function)(void *), void *stack, int flags, void *argument, ...)
{
	(void)function, (void)stack, (void)flags, (void)argument;
	tell("clone", __builtin_return_address(0));
}

/* ---- by the name of a function */

static __thread volatile int
	is_own; /* a call of the runtime's, to the host: it comes back here, though the headers call it a leaf */

/* The C library's function, or a sanitizer's in front of it; NULL in a program that is linked statically. */
static void *next_of(const char *name) { return dlsym(RTLD_NEXT, name); }

/* A library of the system's has the host's function, and the run says so. All others are held. */
void *tracehost_by_name(const char *name, const void *from)
{
	Dl_info info;
	if (!is_own) {
		if (dladdr(from, &info) == 0 || !tracehost_is_of_the_system(info.dli_fname))
			tell(name, from);
		tracehost_remark_library(info.dli_fname, name);
	}
	return next_of(name);
}

extern int __sigaction(int number, const struct sigaction *new, struct sigaction *old);
extern pid_t __waitpid(pid_t which, int *status, int options);

int tracehost_host_sigaction(int number, const struct sigaction *new, struct sigaction *old)
{
	if (tracehost_libc() == NULL)
		return __sigaction(number, new, old);
	is_own++;
	int result = (sigaction)(number, new, old);
	is_own--;
	return result;
}

void tracehost_host_signal(int number, void (*handler)(int))
{
	struct sigaction action = {.sa_handler = handler, .sa_flags = SA_RESTART};
	tracehost_host_sigaction(number, &action, NULL);
}

pid_t tracehost_host_waitpid(pid_t which, int *status, int options) { return __waitpid(which, status, options); }
