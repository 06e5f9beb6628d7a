/* Calls of the host's that touch other processes, or the host itself: HELD(name, number, number of 32 bits, kind). The runtime
 * holds them by seccomp(2), and the broker answers those of programs without the runtime. */
#ifndef BEHIND_ANOTHER
#define BEHIND_ANOTHER 0x7472 /* flags of pidfd_send_signal(2) that say: a program without the runtime has started one with it */
#define BEHIND_ENDS 0x7473 /* and: the one that a program without the runtime has started is at its end */
#endif
#ifndef HELD
#define HELD(name, number, number_of_32, kind)
#endif

/* to processes: what is theirs is the model's */
HELD(kill, 62, 37, KILLS)
HELD(tkill, 200, 238, SIGNALS_THREAD)
HELD(tgkill, 234, 270, SIGNALS_THREAD)
HELD(sigqueue, 129, 178, QUEUES)
HELD(pthread_sigqueue, 297, 335, QUEUES)
HELD(pidfd_send_signal, 424, 424, PIDFD)
HELD(pidfd_open, 434, 434, PIDFD)
HELD(pidfd_getfd, 438, 438, PIDFD)

/* new ones */
HELD(fork, 57, 2, FORKS)
HELD(vfork, 58, 190, FORKS)
HELD(setpgid, 109, 57, GROUPS)
HELD(setsid, 112, 66, GROUPS)

/* into other processes */
HELD(ptrace, 101, 26, TRACES)
HELD(process_vm_readv, 310, 347, READS)
HELD(process_vm_writev, 311, 348, READS)
HELD(process_madvise, 440, 440, HOST)
HELD(process_mrelease, 448, 448, HOST)
HELD(setpriority, 141, 97, OTHERS_PRIORITY)
HELD(ioprio_set, 251, 289, OTHERS_PRIORITY)
HELD(sched_setparam, 142, 154, PRIORITY)
HELD(sched_setscheduler, 144, 156, PRIORITY)
HELD(sched_setaffinity, 203, 241, PRIORITY)
HELD(sched_setattr, 314, 351, PRIORITY)
HELD(prlimit, 302, 340, PRIORITY)

/* the host itself */
HELD(clock_settime, 227, 264, HOST)
HELD(settimeofday, 164, 79, HOST)
HELD(adjtimex, 159, 124, HOST)
HELD(clock_adjtime, 305, 343, HOST)
HELD(reboot, 169, 88, HOST)
HELD(sethostname, 170, 74, HOST)
HELD(setdomainname, 171, 121, HOST)
HELD(kexec_load, 246, 283, HOST)
HELD(kexec_file_load, 320, -1, HOST)
HELD(init_module, 175, 128, HOST)
HELD(finit_module, 313, 350, HOST)
HELD(delete_module, 176, 129, HOST)
HELD(swapon, 167, 87, HOST)
HELD(swapoff, 168, 115, HOST)
HELD(acct, 163, 51, HOST)
HELD(iopl, 172, 110, HOST)
/* of 32 bits only: stime, clock_settime64, clock_adjtime64 */
HELD(stime, -1, 25, HOST)
HELD(clock_settime, -1, 404, HOST)
HELD(clock_adjtime, -1, 405, HOST)
#undef HELD
