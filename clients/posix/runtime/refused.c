/* Calls that the model doesn't have: the first one ends the run, which says so. */
#define _GNU_SOURCE
#include <stdarg.h>
#include <unistd.h>
#include "freebsd.h"
#include "runtime.h"

#define REFUSED(name)                    \
	void tracehost_refused_##name(void); \
	void tracehost_refused_##name(void)  \
	{                                    \
		ask("refused %s", #name);        \
		tracehost_die();                 \
	}

#include "refused.inc" /* of <tracehost/names.h>: REFUSED(name) for each */

/* syscall(2), by FreeBSD's numbers. */
long tracehost_syscall(long number, ...)
{
	long a[6];
	va_list arguments;
	va_start(arguments, number);
	for (size_t i = 0; i < sizeof a / sizeof a[0]; i++)
		a[i] = va_arg(arguments, long);
	va_end(arguments);
	if (number == SYSCALL_FUTEX)
		return tracehost_futex(HERE, (const int *)a[0], (int)a[1], (int)a[2], (const struct timespec *)a[3]);
	return tracehost_system_call((int)number, a);
}
