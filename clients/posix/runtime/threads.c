/* Threads: the host's, with numbers of the model. */
#define _GNU_SOURCE
#include <limits.h>
#include <semaphore.h>
#include <string.h>
#include <unistd.h>
#include "freebsd.h"
#include "runtime.h"

/* The threads of this process that a pthread_t may name: until they are joined, or have ended detached. */
static struct thread {
	pthread_t thread;
	int tid, detached, ended;
	struct own *own;
	struct {
		void *lowest;
		size_t size;
	} stack; /* what the program has asked for, if the host's is another; else no size */
} threads[THREADS];
static int used; /* places behind these are empty */
static int living; /* threads that haven't begun to end */
static pthread_key_t ending;

static struct thread *find(pthread_t thread)
{
	for (int i = 0; i < used; i++)
		if (threads[i].tid != 0 && pthread_equal(threads[i].thread, thread))
			return &threads[i];
	return NULL;
}

static void note(struct thread thread)
{
	int i;
	for (i = 0; i < THREADS && threads[i].tid != 0; i++)
		;
	if (i == THREADS) {
		errno = EAGAIN;
		tracehost_broken("too many threads");
	}
	threads[i] = thread;
	used = i < used ? used : i + 1;
	living++;
}

struct own *tracehost_own_of(pthread_t thread)
{
	struct thread *found = find(thread);
	return found != NULL && !found->ended ? found->own : NULL;
}

/* The calling thread has begun. */
static void be_noted(void)
{
	struct thread *self = find(pthread_self());
	if (self != NULL)
		self->own = &own;
	pthread_setspecific(ending, (void *)1);
}

int tracehost_tid_of(pthread_t thread)
{
	struct thread *found = find(thread);
	return found != NULL ? found->tid : 0;
}

/* ---- the end: cleanup handlers and the destructors of keys have run, and may have asked */

void tracehost_end_thread(void) { tracehost_ask(NULL, "thr_exit"); }

static void end(void)
{
	if (--living == 0)
		exit(0);
	enter_end_thread();
	struct thread *self = find(pthread_self());
	if (self != NULL && self->detached)
		self->tid = 0;
	else if (self != NULL)
		self->ended = 1;
	tracehost_let_go();
}

/* The destructor of a key of ours: it comes again in each round of destructors, and ends the thread in the last one. */
static void next_round(void *round)
{
	if ((size_t)round < PTHREAD_DESTRUCTOR_ITERATIONS)
		pthread_setspecific(ending, (void *)((size_t)round + 1));
	else
		end();
}

/* The program's first key is 0, as it is natively. */
void tracehost_make_key(void)
{
	pthread_key_t first;
	errno = pthread_key_create(&first, NULL);
	if (errno != 0 || (errno = pthread_key_create(&ending, next_round)) != 0)
		tracehost_broken("pthread_key_create");
	pthread_key_delete(first);
}

void tracehost_only_thread(int tid)
{
	memset(threads, 0, used * sizeof threads[0]); /* not all: each page that a fork's child writes to costs time */
	used = living = 0;
	note((struct thread){.thread = pthread_self(), .tid = tid});
	be_noted();
}

void tracehost_pthread_exit(void *value)
{
	tracehost_leave_runtime();
	pthread_exit(value);
}

/* ---- birth: the host's thread is there first, and waits for its number; it ends if there is none for it */

struct birth {
	void *(*routine)(void *);
	void *argument;
	int fd, tid;
	sem_t given;
};

static void *run(void *given)
{
	struct birth *waiting = given, birth;
	while (sem_wait(&waiting->given) != 0)
		;
	birth = *waiting;
	free(waiting);
	if (birth.fd < 0)
		return NULL;
	be_noted();
	tracehost_make_stacks();
	own.birth = &birth;
	return tracehost_be_born(birth.routine, birth.argument);
}

/* The thread is at its routine's first instruction. */
void tracehost_say_hello(void *context)
{
	struct birth *birth = own.birth;
	own.birth = NULL;
	own.now.context = own.now.interrupted = context;
	tracehost_begin(birth->fd, own_pid, birth->tid);
	own.now.context = own.now.interrupted = NULL;
}

/* The host's function. In a program in C++ its name means the runtime's (cplusplus.c). */
extern void *tracehost_host(const char *name) __attribute__((weak));
#define HOST(name) (tracehost_host != NULL ? (__typeof__(&name))tracehost_host(#name) : &name)

enum { ROOM = 256 * 1024 };

/* What was asked for, except the stack's place, which can't be taken back. */
static void copy_attributes(pthread_attr_t *to, const pthread_attr_t *from)
{
	int value;
	size_t size;
	struct sched_param parameter;
	pthread_attr_init(to);
	if (pthread_attr_getdetachstate(from, &value) == 0)
		pthread_attr_setdetachstate(to, value);
	if (pthread_attr_getguardsize(from, &size) == 0)
		pthread_attr_setguardsize(to, size);
	if (pthread_attr_getinheritsched(from, &value) == 0)
		pthread_attr_setinheritsched(to, value);
	if (pthread_attr_getschedpolicy(from, &value) == 0)
		pthread_attr_setschedpolicy(to, value);
	if (pthread_attr_getschedparam(from, &parameter) == 0)
		pthread_attr_setschedparam(to, &parameter);
	if (pthread_attr_getscope(from, &value) == 0)
		pthread_attr_setscope(to, value);
}

/* A thread of the host's. The runtime needs room on its stack too: a small one is replaced. */
static int host_thread(struct thread *made, const pthread_attr_t *wanted, struct birth *birth)
{
	pthread_attr_t wider;
	void *lowest;
	size_t size;
	if (wanted == NULL || pthread_attr_getstack(wanted, &lowest, &size) != 0 || size >= ROOM)
		return HOST(pthread_create)(&made->thread, wanted, run, birth);
	made->stack.lowest = (size_t)lowest + size != 0 ? lowest : NULL, made->stack.size = size;
	copy_attributes(&wider, wanted);
	pthread_attr_setstacksize(&wider, size + ROOM);
	int error = HOST(pthread_create)(&made->thread, &wider, run, birth);
	pthread_attr_destroy(&wider);
	return error;
}

int tracehost_pthread_create(pthread_t *made, const pthread_attr_t *attributes, void *(*routine)(void *), void *argument)
{
	struct birth *birth = calloc(1, sizeof *birth);
	struct thread thread = {.tid = 0};
	int detached = PTHREAD_CREATE_JOINABLE, error = EAGAIN;
	if (attributes != NULL)
		pthread_attr_getdetachstate(attributes, &detached);
	if (birth != NULL) {
		sem_init(&birth->given, 0, 0);
		birth->routine = routine, birth->argument = argument;
		error = host_thread(&thread, attributes, birth);
	}
	if (error != 0) {
		free(birth);
		ask("call %d", SYSCALL_THR_NEW);
		return error;
	}
	tracehost_free_spare();
	error = ask("thr_new") != 0 ? errno : 0;
	birth->fd = -1;
	if (error == 0) {
		tracehost_number();
		birth->fd = own.passed, birth->tid = (int)tracehost_number();
		thread.tid = birth->tid, thread.detached = detached == PTHREAD_CREATE_DETACHED;
		note(thread);
		*made = thread.thread;
	}
	tracehost_fill_spare();
	sem_post(&birth->given);
	if (error == 0 && !(own.now.lands & LANDS_ASKING))
		ask("user");
	else if (error != 0 && detached == PTHREAD_CREATE_JOINABLE)
		HOST(pthread_join)(thread.thread, NULL);
	return error;
}

/* The stack that the program has asked for is the upper end of the host's. */
int tracehost_pthread_getattr_np(pthread_t thread, pthread_attr_t *attributes)
{
	const struct thread *found = find(thread);
	void *lowest;
	size_t size;
	int error = pthread_getattr_np(thread, attributes);
	if (error != 0 || found == NULL || found->stack.size == 0 || pthread_attr_getstack(attributes, &lowest, &size) != 0)
		return error;
	if (found->stack.lowest != NULL)
		lowest = found->stack.lowest;
	else
		lowest = (char *)lowest + size - found->stack.size;
	return pthread_attr_setstack(attributes, lowest, found->stack.size);
}

/* FreeBSD's, into attributes that are there already. */
int tracehost_pthread_attr_get_np(pthread_t thread, pthread_attr_t *attributes)
{
	return tracehost_pthread_getattr_np(thread, attributes);
}

static int join(const void *where, pthread_t thread, void **value, long long until)
{
	struct thread *other = find(thread);
	if (pthread_equal(thread, pthread_self()))
		return EDEADLK;
	if (other == NULL)
		return ESRCH;
	if (other->detached)
		return EINVAL;
	if (tracehost_ask(where, "join %d %lld", other->tid, until) != 0)
		return errno;
	if ((other = find(thread)) != NULL)
		other->tid = 0;
	return HOST(pthread_join)(thread, value);
}

int tracehost_pthread_join(pthread_t thread, void **value) { return join(HERE, thread, value, -1); }

int tracehost_pthread_timedjoin_np(pthread_t thread, void **value, const struct timespec *until)
{
	return tracehost_no_time(until) ? EINVAL : join(HERE, thread, value, tracehost_moment(CLOCK_REALTIME, until));
}

int tracehost_pthread_clockjoin_np(pthread_t thread, void **value, clockid_t clock, const struct timespec *until)
{
	if (tracehost_no_time(until))
		return EINVAL;
	return join(HERE, thread, value, tracehost_moment(tracehost_host_clock(clock), until));
}

/* Whether the thread has ended: 0, EBUSY, or another errno. */
static int look(const void *where, pthread_t thread)
{
	tracehost_ask(where, "point");
	const struct thread *other = find(thread);
	return other == NULL ? ESRCH : other->detached ? EINVAL : other->ended ? 0 : EBUSY;
}

int tracehost_pthread_tryjoin_np(pthread_t thread, void **value)
{
	int error = look(HERE, thread);
	return error != 0 ? error : join(HERE, thread, value, -1);
}

/* The value stays for a join, and isn't known before. */
int tracehost_pthread_peekjoin_np(pthread_t thread, void **value)
{
	if (value != NULL)
		*value = NULL;
	return look(HERE, thread);
}

int tracehost_pthread_main_np(void) { return gettid() == getpid(); }

int tracehost_pthread_detach(pthread_t thread)
{
	struct thread *other = find(thread);
	if (other == NULL)
		return ESRCH;
	if (other->detached)
		return EINVAL;
	other->detached = 1;
	if (other->ended)
		other->tid = 0;
	return HOST(pthread_detach)(thread);
}

int tracehost_gettid(void) { return own.tid; }

int tracehost_thr_self(long *tid)
{
	ask("call %d", SYSCALL_THR_SELF);
	*tid = own.tid;
	return 0;
}

int tracehost_sched_yield(void) { return ask("yield"); }
void tracehost_compute(void) { ask("compute"); }
