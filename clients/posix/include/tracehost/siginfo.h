/* FreeBSD's siginfo_t. The runtime has the host's too, whose members are macros. */
#ifndef TRACEHOST_SIGINFO_H
#define TRACEHOST_SIGINFO_H

#include <bits/types.h>
#include <bits/types/__sigval_t.h>

#pragma push_macro("si_pid")
#pragma push_macro("si_uid")
#pragma push_macro("si_status")
#pragma push_macro("si_addr")
#pragma push_macro("si_value")
#undef si_pid
#undef si_uid
#undef si_status
#undef si_addr
#undef si_value

struct __siginfo {
	int si_signo;
	int si_errno;
	int si_code;
	__pid_t si_pid;
	__uid_t si_uid;
	int si_status;
	void *si_addr;
	union sigval si_value;
	union {
		struct {
			int _trapno;
		} _fault;
		struct {
			int _timerid;
			int _overrun;
		} _timer;
		struct {
			int _mqd;
		} _mesgq;
		struct {
			long _band;
		} _poll;
		struct {
			long __spare1__;
			int __spare2__[7];
		} __spare__;
	} _reason;
};

#pragma pop_macro("si_pid")
#pragma pop_macro("si_uid")
#pragma pop_macro("si_status")
#pragma pop_macro("si_addr")
#pragma pop_macro("si_value")

#endif
