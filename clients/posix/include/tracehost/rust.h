/* For tracehost-ld, in the form of names.h: calls of Rust's own library, which has the host's numbers. */
#ifndef TRACEHOST_RUST_H
#define TRACEHOST_RUST_H

#pragma redefine_extname clock_gettime tracehost_rust_clock_gettime
#pragma redefine_extname clock_nanosleep tracehost_rust_clock_nanosleep
#pragma redefine_extname posix_spawnattr_setflags tracehost_rust_posix_spawnattr_setflags
#pragma redefine_extname pthread_sigmask tracehost_rust_pthread_sigmask
#pragma redefine_extname sigaction tracehost_rust_sigaction
#pragma redefine_extname sigaltstack tracehost_rust_sigaltstack
#pragma redefine_extname syscall tracehost_rust_syscall
#pragma redefine_extname waitid tracehost_rust_waitid

#endif
