/*
 * The allocations that a library makes, counted, and one of them refused. The library takes malloc, realloc and free from
 * the program that it is linked into: with --wrap=malloc,--wrap=realloc,--wrap=free they are those below.
 */
#ifndef MEMORY_H
#define MEMORY_H

#include <stddef.h>

static long allocations; /* made since it was set to 0 */
static long refused;     /* the number of the one to refuse, from 1; or 0 */
static long blocks;      /* not freed so far */

void *__real_malloc(size_t size);
void *__real_realloc(void *old, size_t size);
void __real_free(void *block);
void *__wrap_malloc(size_t size);
void *__wrap_realloc(void *old, size_t size);
void __wrap_free(void *block);

void *__wrap_malloc(size_t size)
{
    void *made = ++allocations == refused ? NULL : __real_malloc(size);
    blocks += made != NULL;
    return made;
}

void *__wrap_realloc(void *old, size_t size)
{
    void *made = ++allocations == refused ? NULL : __real_realloc(old, size);
    blocks += made != NULL && old == NULL;
    return made;
}

void __wrap_free(void *block)
{
    blocks -= block != NULL;
    __real_free(block);
}

/* Makes a call with the allocation of this number refused, and returns whether it was: REFUSED(1, code, call). */
#define REFUSED(number, code, call) \
    (allocations = 0, refused = (number), (code) = (call), refused = 0, allocations >= (number))

#endif
