/* The kernel that this is compiled for. */
#if defined __FreeBSD__ || defined TRACEHOST_POSIX_H /* tracehost-cc */
#include "freebsd.c"
#else
#include "linux.c"
#endif

#if !defined ON_MODEL || ON_MODEL
/* ---- threads of pthread_create(3), which have storage of their own */

static __thread struct slot *self;

struct slot *system_self(void) { return self; }
void system_set_self(struct slot *slot) { self = slot; }

static void *run_thread(void *slot) { puppet_live((int)((struct slot *)slot - stage->slots)); }

int system_thread(int slot)
{
    pthread_t thread;
    pthread_attr_t attributes;
    pthread_attr_init(&attributes);
    pthread_attr_setdetachstate(&attributes, PTHREAD_CREATE_DETACHED);
    errno = pthread_create(&thread, &attributes, run_thread, &stage->slots[slot]);
    return errno != 0 ? -1 : 0;
}
#endif
