/* Debug registers: the host's hardware breakpoints, of the thread that sets them. A mapping keeps an event, so that no
 * descriptor is left, and a fork has none. */
#define _GNU_SOURCE
#include <linux/hw_breakpoint.h>
#include <linux/perf_event.h>
#include <stdio.h>
#include <string.h>
#include <sys/mman.h>
#include <sys/syscall.h>
#include <unistd.h>
#include "runtime.h"

enum { PAGE = 4096, SI_PERF_DATA = 24 /* of siginfo_t, which the C library's header doesn't have */ };

static unsigned bits(const struct dbreg *registers, int shift, unsigned mask) { return registers->dr[7] >> shift & mask; }

/* The event of the breakpoint with this number, by its bits in the control register; NULL with errno. */
static void *make_event(const struct dbreg *registers, int number)
{
	static const unsigned kinds[] = {HW_BREAKPOINT_X, HW_BREAKPOINT_W, 0, HW_BREAKPOINT_RW}, lengths[] = {1, 2, 8, 4};
	const unsigned access = bits(registers, 16 + 4 * number, 3);
	struct perf_event_attr event = {.type = PERF_TYPE_BREAKPOINT,
		.size = sizeof event,
		.sample_period = 1,
		.exclude_kernel = 1,
		.exclude_hv = 1,
		.sigtrap = 1,
		.remove_on_exec = 1,
		.sig_data = number,
		.bp_addr = registers->dr[number],
		.bp_type = kinds[access],
		.bp_len = access == 0 ? sizeof(long) : lengths[bits(registers, 18 + 4 * number, 3)]};
	tracehost_lift_limits();
	int fd = (int)syscall(SYS_perf_event_open, &event, 0, -1, -1, PERF_FLAG_FD_CLOEXEC);
	void *made = fd < 0 ? MAP_FAILED : mmap(NULL, PAGE, PROT_READ, MAP_SHARED, fd, 0);
	tracehost_lower_limits();
	if (fd >= 0)
		close(fd);
	return made == MAP_FAILED ? NULL : made;
}

void tracehost_drop_hardware(void)
{
	for (int i = 0; i < 4; i++)
		if (own.hardware[i] != NULL)
			munmap(own.hardware[i], PAGE);
	memset(own.hardware, 0, sizeof own.hardware);
	own.debug = (struct dbreg){0};
}

/* 0, or the host's errno; then none is set. */
int tracehost_set_hardware(const struct dbreg *new)
{
	tracehost_drop_hardware();
	for (int i = 0; i < 4; i++)
		if (bits(new, 2 * i, 3) != 0 && (own.hardware[i] = make_event(new, i)) == NULL) {
			int error = errno;
			tracehost_drop_hardware();
			return error;
		}
	own.debug = *new;
	return 0;
}

void tracehost_hit(const siginfo_t *info)
{
	unsigned long number;
	memcpy(&number, (const char *)info + SI_PERF_DATA, sizeof number);
	own.debug.dr[6] |= 1UL << (number & 3);
}
