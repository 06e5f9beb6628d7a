/* For programs in C++: the C++ library's own calls of these functions, as std::thread's, become the runtime's. A file of
 * C++ that is compiled with <tracehost/posix.h> refers to tracehost_cplusplus. */
#define _GNU_SOURCE
#include <dlfcn.h>
#include "freebsd.h"
#include "runtime.h"

const char tracehost_cplusplus = 1;

/* The host's function of this name: the C library's, or a sanitizer's in front of it. */
void *tracehost_host(const char *name)
{
	void *found = dlsym(RTLD_NEXT, name);
	if (found == NULL) {
		errno = ENOSYS;
		tracehost_broken("threads of a program in C++ that is linked statically");
	}
	return found;
}

#define FORWARD(name, parameters, arguments) \
	int tracehost_##name parameters;         \
	int name parameters { return tracehost_##name arguments; }

FORWARD(pthread_create, (pthread_t * made, const pthread_attr_t *attributes, void *(*routine)(void *), void *argument),
	(made, attributes, routine, argument))
FORWARD(pthread_join, (pthread_t thread, void **value), (thread, value))
FORWARD(pthread_detach, (pthread_t thread), (thread))
FORWARD(pthread_cond_init, (pthread_cond_t * condition, const pthread_condattr_t *attributes), (condition, attributes))
FORWARD(pthread_cond_destroy, (pthread_cond_t * condition), (condition))
FORWARD(pthread_cond_wait, (pthread_cond_t * condition, pthread_mutex_t *mutex), (condition, mutex))
FORWARD(pthread_cond_timedwait, (pthread_cond_t * condition, pthread_mutex_t *mutex, const struct timespec *until),
	(condition, mutex, until))
FORWARD(pthread_cond_signal, (pthread_cond_t * condition), (condition))
FORWARD(pthread_cond_broadcast, (pthread_cond_t * condition), (condition))
FORWARD(nanosleep, (const struct timespec *time, struct timespec *left), (time, left))

/* The C++ library has the host's numbers of clocks. */
int tracehost_pthread_cond_clockwait(pthread_cond_t *, pthread_mutex_t *, clockid_t, const struct timespec *);
int pthread_cond_clockwait(pthread_cond_t *condition, pthread_mutex_t *mutex, clockid_t clock, const struct timespec *until)
{
	const clockid_t number = clock == CLOCK_MONOTONIC ? BSD_CLOCK_MONOTONIC : BSD_CLOCK_REALTIME;
	return tracehost_pthread_cond_clockwait(condition, mutex, number, until);
}
