/* What the files of the runtime share. They see the host's headers and numbers; FreeBSD's are in freebsd.h. */
#ifndef TRACEHOST_RUNTIME_H
#define TRACEHOST_RUNTIME_H

#include <errno.h>
#include <pthread.h>
#include <setjmp.h>
#include <signal.h>
#include <stddef.h>
#include <stdlib.h>
#include <sys/types.h>
#include <sys/wait.h>
#include <time.h>
#include <ucontext.h>
#include "../include/machine/reg.h"
#include "../include/tracehost/siginfo.h"

enum {
	FIRST_FD = 1000, /* the runtime's descriptors have this number or a greater one */
	DESCRIPTORS = 4096, /* of a process: the same on each host */
	THREADS = 1024,
	EXIT_REFUSED = 125, /* of a program that can't be run here; its reason is on standard error */
};

/* The host's signals: one makes a thread in user mode ask; and one tells that the process's parent has ended. */
#define POKE (SIGRTMIN + 3)
#define PARENT_ENDS (SIGRTMIN + 4)

/* The program may have such names too: the linker sees these. */
#define own tracehost_own
#define own_pid tracehost_own_pid
#define own_real tracehost_own_real
#define own_fds tracehost_own_fds

/* A call of the program's: its registers, as entry.S keeps them. */
struct frame {
	unsigned long r15, r14, r13, r12, r11, r10, r9, r8, rdi, rsi, rbp, rbx, rdx, rcx, rax, flags;
	void *function;
	const void **at; /* the program's stack, with the address that the call returns to */
	struct frame *outer;
	unsigned was_inside, asked; /* asked: a question of its function's is under way, or is over */
};

/* What is due as the call returns: the first four are a landing's. */
enum { LANDS_ASKING = 1, LANDS_STEPPED = 2, LANDS_STEPPING = 4, LANDS_SET = 8, LANDS_SET_FLOATS = 16 };

/* Where a thread is; entry.S knows the first seven. */
struct now {
	struct frame *frame; /* of the call that is under way, or of the last one */
	char *top; /* of the stack that the next call runs on */
	int inside; /* a call is under way */
	int lands;
	int reports; /* a debugger has asked for stops at calls */
	volatile char selector; /* 1: the host dispatches the thread's system calls, which are the program's now (dispatch.c) */
	char watches; /* what it is in the program */
	char handles; /* a handler of the host's signals is under way */
	char *signals; /* where the host's signals begin */
	void *context; /* of the program, which a signal of the host's has interrupted; NULL in a call */
	void *interrupted; /* the same, in a call too */
};

/* What a debugger reads of a thread, and writes there. */
struct record {
	struct reg general;
	struct fpreg floats __attribute__((aligned(16)));
	unsigned long fs, gs;
	struct dbreg debug;
	long arguments[6]; /* of its last call */
	int error; /* of its last call, as it lands */
	int refused; /* the host's errno, if it makes no hardware breakpoint */
};
enum { GENERAL, FLOATS, BASES, DEBUG };

/* A function of the program's, called on its stack. */
struct outcall {
	void *stack, *function;
	unsigned long frame_pointer;
	long arguments[3];
};

/* What a thread knows of itself. */
struct own {
	struct now now;
	int fd; /* its socket, or -1 */
	int tid;
	volatile int busy; /* in a question: a poke is of no use, and a fault is the runtime's own */
	unsigned questions, seen; /* asked, and asked at the last tick */
	long used, computed; /* processor time at the last tick, and since that question; in ms */
	gregset_t sample; /* registers at the last tick */
	long faults; /* of pages, then */
	int has_sample;
	int steps; /* single ones that are left (ticks.c) */
	int passed; /* a descriptor that came with the answer, or -1 */
	char *at; /* the rest of the answer */
	const void *where; /* the program's call of exit(3), which asks later */
	timer_t tick;
	stack_t other_stack; /* sigaltstack(2); no address if there is none */
	char *stacks; /* the runtime's */
	stack_t former_stack; /* of the host's signals */
	struct birth *birth; /* of a thread whose routine hasn't begun */
	int error; /* of the last call that landed */
	struct record record, later; /* of a stopped thread; and what is set as its call returns */
	const struct frame *reported; /* the call that PT_SYSCALL reports, and the arguments of its system call */
	long arguments[6];
	const struct frame *dispatched; /* of a call that the host has dispatched, and the program's stack pointer there */
	char *dispatched_stack;
	int dispatches; /* the host does: 1; it can't: -1 */
	int at_entry, set_at_entry; /* as a debugger has last read its registers; and set them */
	jmp_buf *anew; /* where it begins again, until its first question was answered */
	int begun; /* it is under way, and no question of it has ended it */
	struct dbreg debug;
	void *hardware[4]; /* the host's breakpoints (hardware.c) */
	int cancelled, uncancellable, cancels_at_once; /* pthread_cancel(3) */
	int forking; /* a fork of the runtime's is under way */
	char answer[8192];
};
extern __thread struct own own;
extern int own_pid;
extern pid_t own_real; /* the host's number of this process */
extern int own_fds[THREADS]; /* the sockets of this process's threads; 0 is free */
extern const char tracehost_marker[]; /* an exec looks for it in the file */

/* A question: 0, or -1 with errno. `where` is the program's call, for reports. */
int tracehost_ask(const void *where, const char *format, ...) __attribute__((format(printf, 2, 3)));
#define ask(...) tracehost_ask(HERE, __VA_ARGS__)
#define HERE (own.now.inside ? own.now.frame->at[0] : NULL) /* a function that asks is called by its entry: names.h */

/* The next number of the answer. */
long tracehost_number(void);

/* tracehost-run and what it starts may read this process's memory, in /proc: its number, or 0. */
extern int tracehost_reader;
void tracehost_let_read(void);

/* This thread has this socket from now on: it says hello, and returns once it may run. */
void tracehost_begin(int fd, int pid, int tid);

/* Questions of the runtime's own that are calls of the program, by their entries (entry.S): a debugger may look at them. */
void enter_begin_image(int fd, int pid, int tid) __asm__("tracehost_begin_image");
void enter_end_process(void) __asm__("tracehost_end_process");
void enter_end_thread(void) __asm__("tracehost_end_thread");
void enter_call_again(void) __asm__("tracehost_call_again");
long tracehost_call_again(void);
void tracehost_begin_image(int fd, int pid, int tid);
void tracehost_end_process(void);
void tracehost_end_thread(void);

/* Ends this process, and all that others can see of it before its socket. */
void tracehost_die(void) __attribute__((noreturn));

/* The host has failed: one line, and the end. */
void tracehost_broken(const char *what) __attribute__((noreturn));

/* Stacks (stack.c): of a thread that begins, and of one that ends. */
void tracehost_make_stacks(void);
void tracehost_drop_stacks(void);

/* Calls a function of the program's; and to be called before the runtime goes back there without a return. */
void tracehost_call_program(struct outcall *call, int on_other_stack);
void tracehost_leave_runtime(void);
void tracehost_back_to(char *top, char *signals);

/* entry.S: how these are called, and the places of its int3. */
void tracehost_on_stack(struct outcall *call);
void tracehost_restart(struct frame *frame) __attribute__((noreturn)); /* its function is left, and begins anew */
void *tracehost_be_born(void *(*routine)(void *), void *argument);
extern const char tracehost_landing[], tracehost_birth[], tracehost_born[], tracehost_handled[];
extern const char tracehost_restorer[], tracehost_restorer_end[];
extern const char __start_tracehost_entry[], __stop_tracehost_entry[];

/* Registers (registers.c). */
void tracehost_fetch(int code);
void tracehost_apply(int kind);
void tracehost_go_on(int steps, int lands);
void tracehost_land(void *context);
int tracehost_goes_back(void *context, const void *behind);
void tracehost_fill_frame(struct frame *frame, void *context);
int tracehost_trap(siginfo_t *info, void *context);
void tracehost_handle(int number);
void tracehost_describe_child(struct __siginfo *info, pid_t pid, int status, int options); /* by its status */
void tracehost_describe(struct __siginfo *info); /* by the next four numbers of the answer */
void tracehost_say_hello(void *context);

/* Calls under PT_SYSCALL (reports.c): in place of the call's function; and the arguments of its system call. */
long tracehost_reported_call(struct frame *frame);
long tracehost_restarted_call(struct frame *frame);
int tracehost_may_restart(const struct frame *frame);
void tracehost_find_arguments(long to[6], const struct frame *frame);
long tracehost_reported_code(const struct frame *frame, int code, int number, const long arguments[6]);

long tracehost_system_call(int code, const long arguments[6]);

/* Calls that come by no function of the runtime's (dispatch.c). */
int tracehost_dispatch(const siginfo_t *info, void *context);
void tracehost_watch_calls(void);
char *tracehost_stack_of(const struct frame *frame);
long tracehost_futex(const void *where, const int *word, int operation, int value, const struct timespec *until);

/* Debug registers (hardware.c), and that one was hit. */
int tracehost_set_hardware(const struct dbreg *new);
void tracehost_drop_hardware(void);
void tracehost_hit(const siginfo_t *info);
enum { HOST_TRAP_PERF = 6 }; /* si_code of a hardware breakpoint */

/* The map of a process's memory (look.c). */
struct ptrace_vm_entry;
int tracehost_map_version(const void *where, pid_t target);
int tracehost_map_entry(const void *where, pid_t target, struct ptrace_vm_entry *entry);

/* A question at any place of the program, or in the midst of a call. */
void tracehost_ask_between(const void *where, const char *question, void *context);

/* A cancellation point: a cancelled thread ends here. */
void tracehost_cancel_point(void);

/* The host's children (children.c): a fork, those that have ended, those of the image before, and the end of one: its status. */
pid_t tracehost_host_fork(void);
void tracehost_collect(void);
void tracehost_list_children(char *list, size_t size);
void tracehost_find_children(void);
int tracehost_looks_for_leaks(void);
int tracehost_await_child(pid_t child);

/* A child, by the question `fork` or `vfork`; and an exec, which returns -1 if it fails. */
pid_t tracehost_make_child(const void *where, const char *call);
int tracehost_replace(const void *where, const char *file, int by_name, char *const argv[], char *const envp[]);

/* Calls of the program's that the runtime makes too. */
void tracehost__exit(int status) __attribute__((noreturn));
pid_t tracehost_waitpid(pid_t which, int *status, int options);
int tracehost_close(int fd);
int tracehost_dup2(int from, int to);
int tracehost_sigprocmask(int how, const sigset_t *new, sigset_t *old);
void (*tracehost_signal(int number, void (*handler)(int)))(int);

int tracehost_setpgid(pid_t pid, pid_t group);
pid_t tracehost_setsid(void);

/* The last handler of exit(3) runs. */
extern int tracehost_exiting;

/* One line on standard error. */
void tracehost_say(const char *format, ...) __attribute__((format(printf, 1, 2)));

void tracehost_host_signals(void);
int tracehost_is_in_entry(void *context);

/* One that asks nothing (ticks.c). */
void tracehost_start_ticks(void);
const char *tracehost_question_of_tick(void *context);
int tracehost_step_of_loop(void *context, const char **question);

int tracehost_send_fault(int host_signal);
int tracehost_own_descriptor(int fd);

/* Limits (limits.c) that the program has set: the runtime may need more meanwhile; a fork's child; and an exec. */
struct pollfd;
struct stat;
void tracehost_lift_limits(void);
void tracehost_lower_limits(void);
void tracehost_limits_of_child(void);
unsigned long tracehost_most_processes(void);
size_t tracehost_room_in(int fd, size_t count);
int tracehost_is_standard(const struct stat *of);
void tracehost_note_outside(void);
void tracehost_write_outside(char *text, size_t room);
const char *tracehost_read_outside(const char *text);
int tracehost_open(const char *path, int flags);
int tracehost_look(struct pollfd *ready);
void tracehost_write_limits(char *text, size_t room);
void tracehost_read_limits(const char *text);
void tracehost_give_limits(void);
size_t tracehost_memory_of_stacks(void);

/* Around a question whose answer comes with a descriptor: the program may have used up its own. */
void tracehost_free_spare(void);
void tracehost_fill_spare(void);

/* This thread has ended in the model, and lets its socket go. */
void tracehost_let_go(void);

/* Libraries (libraries.c). Adds a line for each that calls what the runtime has, and wasn't compiled for it; not the system's.
 * And one if calls past the runtime aren't held. */
void tracehost_report_libraries(char *text, size_t room);
void tracehost_report(char *text, size_t room);
void tracehost_look_at_loaded(void);
extern int tracehost_has_loaded;
void *tracehost_host_dlopen(void);
void tracehost_remark_library(const char *file, const char *call);
void *tracehost_found(const char *name); /* a function of by_name.S, or NULL */

/* A line for the broker, without an answer; and a remark, which the run prints at its end. */
void tracehost_tell(const char *format, ...) __attribute__((format(printf, 1, 2)));
#define tracehost_remark(format, ...) tracehost_tell("0 remark " format __VA_OPT__(, ) __VA_ARGS__)

/* Calls past the runtime (filter.c): they are held from now on, unless the image that is `known` by this number has done so.
 * Of the first image's filter there is a listener, or -1. And the runtime's own calls of these. */
struct dl_phdr_info;
void tracehost_hold_calls(unsigned long known);
void tracehost_hold_library(const struct dl_phdr_info *info);
void tracehost_tell_filter(void);
extern unsigned long tracehost_held; /* whose addresses are held; 0 for none */
extern int tracehost_listener;
long tracehost_host_call(long number, const long arguments[6]);
int tracehost_host_kill(pid_t pid, int number);

/* The same (outside.c): one that is held is told; and functions that are held by their names. */
void tracehost_held_call(const siginfo_t *info, void *context);
void *tracehost_by_name(const char *name, const void *from);
void tracehost_before_fork(void);
const void *tracehost_libc(void);
const void *tracehost_base_of(const void *address);
int tracehost_is_of_the_system(const char *file);
int tracehost_is_sanitizer(const struct dl_phdr_info *info);
int tracehost_is_sanitized(void);
int tracehost_host_sigaction(int number, const struct sigaction *new, struct sigaction *old);
void tracehost_host_signal(int number, void (*handler)(int));
pid_t tracehost_host_waitpid(pid_t which, int *status, int options);
#define sigaction(number, new, old) tracehost_host_sigaction(number, new, old)
#define signal(number, handler) tracehost_host_signal(number, handler)
#define waitpid(which, status, options) tracehost_host_waitpid(which, status, options)

/* Before the first thread is noted. */
void tracehost_make_key(void);

/* The calling thread is the only one, and has this number: at the start, and in a fork's child. */
void tracehost_only_thread(int tid);

/* What a live thread knows of itself, or NULL. */
struct own *tracehost_own_of(pthread_t thread);

/* 0 for a pthread_t that names no thread. */
int tracehost_tid_of(pthread_t thread);

void tracehost_no_timers(void);

/* kqueue(2) and process descriptors: a look at both before poll(2); a descriptor is closed; a fork's child has none. */
void tracehost_refresh_kqueues(const void *where);
void tracehost_forget_descriptor(int fd);
void tracehost_no_kqueues(void);
int tracehost_described(int fd);
int tracehost_is_peer(int fd);
int tracehost_has_descriptors(void);
void tracehost_described_end(int pid);
void tracehost_close_described(int fd);
void tracehost_no_descriptors(void);

/* Time: whether this is none; the host's clock of FreeBSD's number; and its time on the clock of the broker, which begins at 0. */
int tracehost_no_time(const struct timespec *time);
clockid_t tracehost_host_clock(clockid_t number);
int tracehost_clock_gettime(clockid_t number, struct timespec *to);
long long tracehost_moment(clockid_t clock, const struct timespec *time);

/* The program's dispositions, by FreeBSD's numbers. */
extern struct sigaction tracehost_actions[32];
unsigned tracehost_bits(const sigset_t *set);
void tracehost_set(sigset_t *set, unsigned long bits);

#endif
