/* Of FreeBSD's <sys/user.h> what is known of a process here, by FreeBSD's names; not its layout. */
#ifndef TRACEHOST_SYS_USER_H
#define TRACEHOST_SYS_USER_H

#include <limits.h>
#include <signal.h>
#include <stdint.h>
#include "proc.h"
#include <sys/resource.h>
#include <sys/socket.h>
#include <sys/time.h>
#include <sys/types.h>

#define COMMLEN 19
#define TDNAMLEN 16
#define KI_NGROUPS 16

struct kinfo_proc {
	int ki_structsize;
	pid_t ki_pid, ki_ppid;
	pid_t ki_pgid, ki_sid, ki_tracer, ki_reaper;
	uid_t ki_uid, ki_ruid, ki_svuid;
	gid_t ki_rgid, ki_svgid;
	short ki_ngroups;
	gid_t ki_groups[KI_NGROUPS]; /* the caller's, as its user */
	int ki_numthreads;
	lwpid_t ki_tid; /* of its first thread, or of each with KERN_PROC_INC_THREAD: then ki_siglist is the thread's own too */
	sigset_t ki_siglist, ki_sigmask, ki_sigignore, ki_sigcatch;
	long ki_flag; /* P_TRACED, P_STOPPED_SIG, P_STOPPED_TRACE */
	char ki_stat; /* SRUN, SSTOP, or SZOMB; of a thread SSLEEP too: suspended, or in vfork */
	char ki_comm[COMMLEN + 1], ki_tdname[TDNAMLEN + 1];
	/* not known here: 0 */
	pid_t ki_tpgid;
	uint64_t ki_tdev;
	size_t ki_size;
	long ki_rssize, ki_tsize, ki_dsize, ki_ssize;
	signed char ki_nice;
	struct timeval ki_start;
	struct rusage ki_rusage, ki_rusage_ch;
};

#define KVME_TYPE_NONE 0
#define KVME_TYPE_DEFAULT 1
#define KVME_TYPE_VNODE 2
#define KVME_TYPE_SWAP 3
#define KVME_TYPE_PHYS 5
#define KVME_TYPE_UNKNOWN 255
#define KVME_PROT_READ 1
#define KVME_PROT_WRITE 2
#define KVME_PROT_EXEC 4
#define KVME_FLAG_COW 1
#define KVME_FLAG_NEEDS_COPY 2
#define KVME_FLAG_NOCOREDUMP 4

struct kinfo_vmentry {
	int kve_structsize; /* of this entry, which is cut off behind its path */
	int kve_type, kve_flags, kve_protection;
	uint64_t kve_start, kve_end, kve_offset, kve_vn_fileid;
	char kve_path[PATH_MAX];
};

#define KF_TYPE_NONE 0
#define KF_TYPE_VNODE 1
#define KF_TYPE_SOCKET 2
#define KF_TYPE_PIPE 3
#define KF_TYPE_FIFO 4
#define KF_TYPE_KQUEUE 5
#define KF_TYPE_UNKNOWN 255
#define KF_FD_TYPE_CWD -1
#define KF_FD_TYPE_ROOT -2
#define KF_FD_TYPE_TEXT -5

struct kinfo_file { /* no call has one yet */
	int kf_structsize, kf_type, kf_fd, kf_flags;
	int64_t kf_offset;
	int kf_vnode_type, kf_sock_domain, kf_sock_type, kf_sock_protocol;
	struct sockaddr_storage kf_sa_local, kf_sa_peer;
	char kf_path[PATH_MAX];
};

#endif
