/*
 * Refuses chosen allocations, reads, writes and starts of threads of the program that it is loaded before (LD_PRELOAD),
 * as these words of the environment say:
 *
 *   SHIM_ALLOCATION=CALLS    these allocations are refused
 *   SHIM_LEAST=BYTES         smaller allocations aren't counted, and never refused
 *   SHIM_READ=CALLS          these reads fail
 *   SHIM_WRITE=CALLS         these writes to standard output or standard error fail
 *   SHIM_THREAD=CALLS        these threads can't be started
 *   SHIM_ERROR=NUMBER        the errno of the reads and writes that fail; without it they move one byte
 *   SHIM_MOST=NUMBER         each read and write moves at most so many bytes
 *   SHIM_CHANCE=NUMBER       of a thousand allocations about so many are refused, by the dice of SHIM_SEED=NUMBER
 *   SHIM_REPORT=FILE         at the end the numbers of allocations, reads, writes, threads and failures are written
 *                            here, and how many allocations there were when the first thread was to start
 *
 * CALLS are counted from 1 for each kind: N is only the Nth, N-M those from N to M, N- all from N on.
 */
#define _GNU_SOURCE
#include <dlfcn.h>
#include <errno.h>
#include <fcntl.h>
#include <limits.h>
#include <pthread.h>
#include <stdatomic.h>
#include <stdbool.h>
#include <stddef.h>
#include <stdint.h>
#include <stdio.h>
#include <stdlib.h>
#include <sys/syscall.h>
#include <unistd.h>

/* the allocator of the C library, by names that it exports */
extern void *__libc_malloc(size_t size);
extern void *__libc_calloc(size_t count, size_t size);
extern void *__libc_realloc(void *old, size_t size);
extern void *__libc_memalign(size_t alignment, size_t size);

enum kind { ALLOCATION, READ, WRITE, THREAD, KINDS };

/* the calls of a kind: how many there were, and which ones fail */
static struct {
  atomic_long made;
  long first, last;
} calls[KINDS];

static atomic_long failures, before_threads;
static int error;
static size_t most = SIZE_MAX, least;
static long chance, seed;

static long number_of(const char *name, long otherwise) {
  const char *text = getenv(name);
  return text ? strtol(text, NULL, 10) : otherwise;
}

__attribute__((constructor)) static void begin(void) {
  static const char *const names[KINDS] = {"SHIM_ALLOCATION", "SHIM_READ", "SHIM_WRITE", "SHIM_THREAD"};
  error = (int)number_of("SHIM_ERROR", 0);
  most = (size_t)number_of("SHIM_MOST", LONG_MAX);
  least = (size_t)number_of("SHIM_LEAST", 0);
  chance = number_of("SHIM_CHANCE", 0);
  seed = number_of("SHIM_SEED", 0);
  for (int kind = 0; kind < KINDS; kind++) {
    const char *text = getenv(names[kind]);
    if (!text)
      continue;
    char *rest;
    calls[kind].first = strtol(text, &rest, 10);
    calls[kind].last = *rest != '-' ? calls[kind].first : rest[1] ? strtol(rest + 1, NULL, 10) : LONG_MAX;
  }
}

/* At the end of a program that returns from main. */
__attribute__((destructor)) static void report(void) {
  const char *name = getenv("SHIM_REPORT");
  int file = name ? open(name, O_WRONLY | O_CREAT | O_TRUNC, 0644) : -1;
  if (file >= 0) {
    char text[120];
    int length = snprintf(text, sizeof text, "%ld %ld %ld %ld %ld %ld\n", calls[ALLOCATION].made, calls[READ].made,
                          calls[WRITE].made, calls[THREAD].made, failures, before_threads);
    syscall(SYS_write, file, text, (size_t)length);
  }
}

/* A program with threads ends by this, so no destructor runs. */
_Noreturn void _exit(int status) {
  report();
  syscall(SYS_exit_group, status);
  __builtin_unreachable();
}

/* whether the dice refuse the call with this number (the mixing of splitmix64) */
static bool is_unlucky(long call) {
  uint64_t x = (uint64_t)seed * 1000003 + (uint64_t)call;
  x = (x + 0x9e3779b97f4a7c15) * 0xbf58476d1ce4e5b9;
  x = (x ^ (x >> 27)) * 0x94d049bb133111eb;
  return (long)((x ^ (x >> 31)) % 1000) < chance;
}

/* counts a call, and says whether it fails */
static bool fails(enum kind kind) {
  long call = atomic_fetch_add(&calls[kind].made, 1) + 1;
  bool chosen = calls[kind].first > 0 && call >= calls[kind].first && call <= calls[kind].last;
  if (!chosen && !(kind == ALLOCATION && is_unlucky(call)))
    return false;
  atomic_fetch_add(&failures, 1);
  return true;
}

static bool is_refused(size_t size) {
  if (size < least || !fails(ALLOCATION))
    return false;
  errno = ENOMEM;
  return true;
}

void *malloc(size_t size) { return is_refused(size) ? NULL : __libc_malloc(size); }

void *calloc(size_t count, size_t size) { return is_refused(count * size) ? NULL : __libc_calloc(count, size); }

void *realloc(void *old, size_t size) { return is_refused(size) ? NULL : __libc_realloc(old, size); }

void *memalign(size_t alignment, size_t size) { return is_refused(size) ? NULL : __libc_memalign(alignment, size); }

void *aligned_alloc(size_t alignment, size_t size) { return memalign(alignment, size); }

int posix_memalign(void **result, size_t alignment, size_t size) {
  void *made = memalign(alignment, size);
  if (made)
    *result = made;
  return made ? 0 : ENOMEM;
}

/* how many of so many bytes a read or write moves, or -1 if it fails with `error` */
static ssize_t room_of(enum kind kind, size_t bytes) {
  if (fails(kind)) {
    if (error) {
      errno = error;
      return -1;
    }
    bytes = bytes > 1 ? 1 : bytes;
  }
  return (ssize_t)(bytes < most ? bytes : most);
}

ssize_t read(int file, void *bytes, size_t size) {
  ssize_t room = room_of(READ, size);
  return room < 0 ? room : syscall(SYS_read, file, bytes, (size_t)room);
}

ssize_t write(int file, const void *bytes, size_t size) {
  ssize_t room = file == STDOUT_FILENO || file == STDERR_FILENO ? room_of(WRITE, size) : (ssize_t)size;
  return room < 0 ? room : syscall(SYS_write, file, bytes, (size_t)room);
}

int pthread_create(pthread_t *thread, const pthread_attr_t *attributes, void *(*body)(void *), void *argument) {
  if (calls[THREAD].made == 0)
    before_threads = calls[ALLOCATION].made;
  if (fails(THREAD))
    return EAGAIN;
  int (*real)(pthread_t *, const pthread_attr_t *, void *(*)(void *), void *);
  *(void **)&real = dlsym(RTLD_NEXT, "pthread_create");
  return real(thread, attributes, body, argument);
}
