/* The host's <setjmp.h>. FreeBSD's setjmp(3) saves the mask of signals, as sigsetjmp(3) does; _setjmp(3) doesn't. */
#include_next <setjmp.h>
#ifndef TRACEHOST_SETJMP_H
#define TRACEHOST_SETJMP_H

#ifdef __cplusplus
extern "C"
#endif
void tracehost_save_mask(jmp_buf, int);

#undef setjmp
#undef _setjmp
#undef sigsetjmp
#define setjmp(at) (tracehost_save_mask(at, 1), __sigsetjmp(at, 0))
#define _setjmp(at) (tracehost_save_mask(at, 0), __sigsetjmp(at, 0))
#define sigsetjmp(at, wanted) (tracehost_save_mask(at, wanted), __sigsetjmp(at, 0))

#endif
