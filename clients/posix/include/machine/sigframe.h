/* FreeBSD's <machine/sigframe.h> for amd64, for sources that name it: no handler here has such a frame. */
#ifndef TRACEHOST_MACHINE_SIGFRAME_H
#define TRACEHOST_MACHINE_SIGFRAME_H

#include <signal.h>
#include <ucontext.h>

struct sigframe {
	union {
		void (*sf_action)(int, siginfo_t *, void *);
		void (*sf_handler)(int);
	} sf_ahu;
	ucontext_t sf_uc;
	siginfo_t sf_si;
};

#endif
