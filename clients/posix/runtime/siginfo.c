/* What the program reads in its siginfo_t, which is FreeBSD's. */
#define _GNU_SOURCE
#include <string.h>
#include <unistd.h>
#include "freebsd.h"
#include "runtime.h"

/* the host's members */
#undef si_pid
#undef si_uid
#undef si_status
#undef si_addr

void tracehost_describe(struct __siginfo *info)
{
	info->si_code = (int)tracehost_number();
	const int sender = (int)tracehost_number(), status = (int)tracehost_number();
	const unsigned long address = (unsigned long)tracehost_number();
	if (sender == 0)
		info->si_addr = (void *)address;
	else {
		info->si_pid = sender, info->si_uid = getuid();
		if (info->si_signo == BSD_SIGCHLD)
			info->si_status = status;
	}
}

void tracehost_describe_child(struct __siginfo *info, pid_t pid, int status, int options)
{
	const int stopped = (status & 0xff) == 0x7f, continued = status == BSD_SIGCONT;
	memset(info, 0, sizeof *info);
	if (pid == 0)
		return;
	info->si_signo = BSD_SIGCHLD, info->si_pid = pid;
	info->si_code = continued ? CLD_CONTINUED : stopped ? CLD_STOPPED : status & 0x7f ? CLD_KILLED : CLD_EXITED;
	info->si_status = continued ? BSD_SIGCONT : stopped || !(status & 0x7f) ? status >> 8 & 0xff : status & 0x7f;
	if (stopped && options & BSD_WTRAPPED)
		info->si_code = CLD_TRAPPED;
}
