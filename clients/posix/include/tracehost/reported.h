/* Calls that are the host's, and that PT_SYSCALL reports: the number of FreeBSD's system call, and how many arguments it has. If
 * several functions make one, that which has its arguments comes first. */
#ifndef TRACEHOST_REPORTED_H
#define TRACEHOST_REPORTED_H

#pragma redefine_extname openat tracehost_host_openat /* 499 4 */
#pragma redefine_extname open tracehost_host_open /* 499 4 */
#pragma redefine_extname creat tracehost_host_creat /* 499 4 */
#pragma redefine_extname fstatat tracehost_host_fstatat /* 552 4 */
#pragma redefine_extname stat tracehost_host_stat /* 552 4 */
#pragma redefine_extname lstat tracehost_host_lstat /* 552 4 */
#pragma redefine_extname fstat tracehost_host_fstat /* 551 2 */
#pragma redefine_extname lseek tracehost_host_lseek /* 478 3 */
#pragma redefine_extname pread tracehost_host_pread /* 475 4 */
#pragma redefine_extname pwrite tracehost_host_pwrite /* 476 4 */
#pragma redefine_extname preadv tracehost_host_preadv /* 289 4 */
#pragma redefine_extname pwritev tracehost_host_pwritev /* 290 4 */
#pragma redefine_extname truncate tracehost_host_truncate /* 479 2 */
#pragma redefine_extname ftruncate tracehost_host_ftruncate /* 480 2 */
#pragma redefine_extname fsync tracehost_host_fsync /* 95 1 */
#pragma redefine_extname fdatasync tracehost_host_fdatasync /* 550 1 */
#pragma redefine_extname flock tracehost_host_flock /* 131 2 */
#pragma redefine_extname fcntl tracehost_host_fcntl /* 92 3 */
#pragma redefine_extname ioctl tracehost_host_ioctl /* 54 3 */

#pragma redefine_extname access tracehost_host_access /* 33 2 */
#pragma redefine_extname faccessat tracehost_host_faccessat /* 489 4 */
#pragma redefine_extname chdir tracehost_host_chdir /* 12 1 */
#pragma redefine_extname fchdir tracehost_host_fchdir /* 13 1 */
#pragma redefine_extname chroot tracehost_host_chroot /* 61 1 */
#pragma redefine_extname chmod tracehost_host_chmod /* 15 2 */
#pragma redefine_extname fchmod tracehost_host_fchmod /* 124 2 */
#pragma redefine_extname fchmodat tracehost_host_fchmodat /* 490 4 */
#pragma redefine_extname chown tracehost_host_chown /* 16 3 */
#pragma redefine_extname fchown tracehost_host_fchown /* 123 3 */
#pragma redefine_extname lchown tracehost_host_lchown /* 254 3 */
#pragma redefine_extname fchownat tracehost_host_fchownat /* 491 5 */
#pragma redefine_extname link tracehost_host_link /* 9 2 */
#pragma redefine_extname linkat tracehost_host_linkat /* 495 5 */
#pragma redefine_extname symlink tracehost_host_symlink /* 57 2 */
#pragma redefine_extname symlinkat tracehost_host_symlinkat /* 502 3 */
#pragma redefine_extname readlink tracehost_host_readlink /* 58 3 */
#pragma redefine_extname readlinkat tracehost_host_readlinkat /* 500 4 */
#pragma redefine_extname unlink tracehost_host_unlink /* 10 1 */
#pragma redefine_extname unlinkat tracehost_host_unlinkat /* 503 3 */
#pragma redefine_extname rename tracehost_host_rename /* 128 2 */
#pragma redefine_extname renameat tracehost_host_renameat /* 501 4 */
#pragma redefine_extname mkdir tracehost_host_mkdir /* 136 2 */
#pragma redefine_extname mkdirat tracehost_host_mkdirat /* 496 3 */
#pragma redefine_extname rmdir tracehost_host_rmdir /* 137 1 */
#pragma redefine_extname mkfifo tracehost_host_mkfifo /* 132 2 */
#pragma redefine_extname umask tracehost_host_umask /* 60 1 */

#pragma redefine_extname mmap tracehost_host_mmap /* 477 6 */
#pragma redefine_extname munmap tracehost_host_munmap /* 73 2 */
#pragma redefine_extname mprotect tracehost_host_mprotect /* 74 3 */
#pragma redefine_extname madvise tracehost_host_madvise /* 75 3 */
#pragma redefine_extname msync tracehost_host_msync /* 65 3 */
#pragma redefine_extname mlock tracehost_host_mlock /* 203 2 */
#pragma redefine_extname munlock tracehost_host_munlock /* 204 2 */

#pragma redefine_extname socket tracehost_host_socket /* 97 3 */
#pragma redefine_extname bind tracehost_host_bind /* 104 3 */
#pragma redefine_extname listen tracehost_host_listen /* 106 2 */
#pragma redefine_extname accept tracehost_host_accept /* 30 3 */
#pragma redefine_extname accept4 tracehost_host_accept4 /* 541 4 */
#pragma redefine_extname connect tracehost_host_connect /* 98 3 */
#pragma redefine_extname sendto tracehost_host_sendto /* 133 6 */
#pragma redefine_extname send tracehost_host_send /* 133 6 */
#pragma redefine_extname sendmsg tracehost_host_sendmsg /* 28 3 */
#pragma redefine_extname recvfrom tracehost_host_recvfrom /* 29 6 */
#pragma redefine_extname recv tracehost_host_recv /* 29 6 */
#pragma redefine_extname recvmsg tracehost_host_recvmsg /* 27 3 */
#pragma redefine_extname shutdown tracehost_host_shutdown /* 134 2 */
#pragma redefine_extname getsockname tracehost_host_getsockname /* 32 3 */
#pragma redefine_extname getpeername tracehost_host_getpeername /* 31 3 */
#pragma redefine_extname setsockopt tracehost_host_setsockopt /* 105 5 */
#pragma redefine_extname getsockopt tracehost_host_getsockopt /* 118 5 */

#pragma redefine_extname getuid tracehost_host_getuid /* 24 0 */
#pragma redefine_extname geteuid tracehost_host_geteuid /* 25 0 */
#pragma redefine_extname getgid tracehost_host_getgid /* 47 0 */
#pragma redefine_extname getegid tracehost_host_getegid /* 43 0 */
#pragma redefine_extname setuid tracehost_host_setuid /* 23 1 */
#pragma redefine_extname seteuid tracehost_host_seteuid /* 183 1 */
#pragma redefine_extname setgid tracehost_host_setgid /* 181 1 */
#pragma redefine_extname setegid tracehost_host_setegid /* 182 1 */
#pragma redefine_extname getrusage tracehost_host_getrusage /* 117 2 */

#endif
