/* Calls under PT_SYSCALL, whose entries come before their functions begin. */
#include "calls.h"

/* Into a call: the thread looks at its registers, and makes the call, once its debugger has let it go on. */
BODY(begin_call)
{
	(void)call;
	l->begins = true;
	enter(l, code_of(l, arguments[0]), NULL);
	l->begins = false, l->begun = true;
	say("ok");
}

/* The debugger has made another call of it: this one, if the runtime has it. */
BODY(replace_call)
{
	(void)call;
	l->replaced = (int)arguments[0];
	if (!arguments[1])
		remark("a debugger has made call %d of another one, which only a kernel has: ENOSYS", l->replaced);
	say("ok");
}

/* Out of it, unless the call has done so itself; with a signal that is sent to the LWP. */
BODY(end_call)
{
	(void)call;
	if (l->begun) {
		l->begun = false;
		change(IO);
		leave(l);
		if (arguments[0] != 0)
			send_to_lwp(l, l->tid, arguments[0]);
		back(l);
	}
	say("ok");
}

/* A call that a debugger has asked to see, and doesn't. */
void not_reported(const struct lwp *l, const char *call)
{
	if (l->process->reports && l->process->tracer != 0)
		remark("calls that PT_SYSCALL doesn't report: %s", call);
}
