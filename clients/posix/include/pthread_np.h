/* Of FreeBSD's <pthread_np.h>: names of threads, and pthread_getthreadid_np(3). */
#ifndef TRACEHOST_PTHREAD_NP_H
#define TRACEHOST_PTHREAD_NP_H

#include <tracehost/posix.h>

/* The host's names have 15 characters. */
static inline void pthread_set_name_np(pthread_t thread, const char *name)
{
	char text[16];

	snprintf(text, sizeof(text), "%s", name);
	pthread_setname_np(thread, text);
}

static inline void pthread_get_name_np(pthread_t thread, char *name, size_t size)
{
	char text[16];

	if (pthread_getname_np(thread, text, sizeof(text)) == 0)
		snprintf(name, size, "%s", text);
}

#endif
