/* In place of the host's header of this name: its sigset_t, with FreeBSD's member too. Both have signal n as bit n - 1. */
#ifndef ____sigset_t_defined
#define ____sigset_t_defined

#define _SIGSET_NWORDS (1024 / (8 * sizeof(unsigned long)))
#define _SIG_WORDS 4
typedef struct __sigset {
	__extension__ union {
		unsigned long __val[_SIGSET_NWORDS];
		unsigned __bits[_SIG_WORDS];
	};
} __sigset_t;

#endif
