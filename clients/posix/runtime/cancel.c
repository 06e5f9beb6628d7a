/* pthread_cancel(3): a cancelled thread ends at its next cancellation point; in a call that waits it is woken. */
#define _GNU_SOURCE
#include "freebsd.h"
#include "runtime.h"

void tracehost_cancel_point(void)
{
	if (!own.cancelled || own.uncancellable)
		return;
	own.uncancellable = 1, own.cancels_at_once = 0;
	tracehost_leave_runtime();
	pthread_exit(PTHREAD_CANCELED);
}

int tracehost_pthread_cancel(pthread_t thread)
{
	struct own *other = tracehost_own_of(thread);
	if (other == NULL)
		return tracehost_tid_of(thread) != 0 ? 0 : ESRCH; /* it has ended, and isn't joined yet */
	other->cancelled = 1;
	if (other->uncancellable)
		ask("point");
	else
		ask("cancel %d", other->tid);
	return 0;
}

void tracehost_pthread_testcancel(void)
{
	ask("point");
	tracehost_cancel_point();
}

int tracehost_pthread_setcancelstate(int state, int *old)
{
	if (state != PTHREAD_CANCEL_ENABLE && state != PTHREAD_CANCEL_DISABLE)
		return EINVAL;
	if (old != NULL)
		*old = own.uncancellable ? PTHREAD_CANCEL_DISABLE : PTHREAD_CANCEL_ENABLE;
	own.uncancellable = state == PTHREAD_CANCEL_DISABLE;
	if (own.cancels_at_once)
		tracehost_cancel_point();
	return 0;
}

int tracehost_pthread_setcanceltype(int type, int *old)
{
	if (type != PTHREAD_CANCEL_DEFERRED && type != PTHREAD_CANCEL_ASYNCHRONOUS)
		return EINVAL;
	if (old != NULL)
		*old = own.cancels_at_once ? PTHREAD_CANCEL_ASYNCHRONOUS : PTHREAD_CANCEL_DEFERRED;
	own.cancels_at_once = type == PTHREAD_CANCEL_ASYNCHRONOUS;
	if (own.cancels_at_once)
		tracehost_cancel_point();
	return 0;
}
