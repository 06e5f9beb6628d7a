/* Of FreeBSD's <sys/proc.h>: ki_stat and ki_flag. */
#ifndef TRACEHOST_SYS_PROC_H
#define TRACEHOST_SYS_PROC_H

#define SIDL 1
#define SRUN 2
#define SSLEEP 3
#define SSTOP 4
#define SZOMB 5
#define SWAIT 6 /* of none, as the next one */
#define SLOCK 7

#define P_PPWAIT 0x00010 /* of none */
#define P_TRACED 0x00800
#define P_WEXIT 0x02000 /* of none */
#define P_STOPPED_SIG 0x20000
#define P_STOPPED_TRACE 0x40000

#define TDP_RFPPWAIT 0x02000000 /* PT_FOLLOW_FORK is there */

#endif
