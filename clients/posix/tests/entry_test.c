/*
 * The entry of a system call, under PT_TO_SCE: nothing of the call is done, and it takes what the debugger sets there, in
 * memory and in registers (sys/kern/subr_syscall.c: ptracestop, then TDB_USERWR).
 */
#include "debugger.h"
#include "registers.h"
#include <sys/event.h>
#include <sys/mman.h>
#include <sys/select.h>
#include <sys/socket.h>
#include <sys/stat.h>
#include <sys/syscall.h>
#include <sys/uio.h>
#include <fcntl.h>
#include <poll.h>

static int own, others; /* the target's end of a pair of sockets, and the debugger's */
static char text[8], more[8];
static long result;

static void
make_pair(void)
{
	int ends[2];

	ATF_REQUIRE(socketpair(AF_UNIX, SOCK_STREAM, 0, ends) == 0);
	own = ends[0], others = ends[1];
	memcpy(text, "secret!", 8);
}

static int
readable(int fd)
{
	struct pollfd p = { .fd = fd, .events = POLLIN };

	return (poll(&p, 1, 0));
}

/* Until the target stops at the entry of this call. */
static struct ptrace_lwpinfo
until_entry(pid_t pid, int code)
{
	struct ptrace_lwpinfo pl;

	do {
		ATF_REQUIRE(request(PT_TO_SCE, pid, 0) && wait_stop(pid, SIGTRAP));
		pl = info(pid);
		ATF_REQUIRE(pl.pl_flags & PL_FLAG_SCE);
	} while ((int)pl.pl_syscall_code != code);
	return (pl);
}

static void
write_memory(pid_t pid, void *at, const void *bytes, size_t count)
{
	struct ptrace_io_desc desc = { PIOD_WRITE_D, at, (void *)(uintptr_t)bytes, count };

	ATF_REQUIRE(ptrace(PT_IO, pid, (caddr_t)&desc, 0) == 0 && desc.piod_len == count);
}

static long
read_memory(pid_t pid, const void *at)
{
	long word;
	struct ptrace_io_desc desc = { PIOD_READ_D, (void *)(uintptr_t)at, &word, sizeof(word) };

	ATF_REQUIRE(ptrace(PT_IO, pid, (caddr_t)&desc, 0) == 0 && desc.piod_len == sizeof(word));
	return (word);
}

static void
kill_target(pid_t pid)
{
	ATF_REQUIRE(ptrace(PT_KILL, pid, NULL, 0) == 0 && wait_signaled(pid, SIGKILL));
}

static struct iovec parts[2] = { { text, 4 }, { text + 4, 4 } };
static struct msghdr message = { .msg_iov = parts, .msg_iovlen = 2 };

/* ---- calls that write: a target that is killed at the entry has written nothing, and the text is what the debugger has set */

static void calls_write(void) { result = write(own, text, 8); }
static void calls_writev(void) { result = writev(own, parts, 2); }
static void calls_send(void) { result = send(own, text, 8, 0); }
static void calls_sendmsg(void) { result = sendmsg(own, &message, 0); }

static void
writes(void (*body)(void), int code)
{
	char got[8] = "";
	pid_t pid;

	make_pair();
	pid = start_traced(body);
	until_entry(pid, code);
	ATF_REQUIRE(readable(others) == 0);
	kill_target(pid);
	ATF_REQUIRE(readable(others) == 0);
	pid = start_traced(body);
	until_entry(pid, code);
	write_memory(pid, text, "allowed", 8);
	ATF_REQUIRE(request(PT_TO_SCX, pid, 0) && wait_stop(pid, SIGTRAP));
	ATF_REQUIRE(info(pid).pl_flags & PL_FLAG_SCX && readable(others) == 1);
	ATF_REQUIRE(read(others, got, 8) == 8 && memcmp(got, "allowed", 8) == 0);
	kill_target(pid);
}

/* ---- calls that read: the bytes are there until the target goes on */

static void calls_read(void) { result = read(own, text, 8); }
static void calls_readv(void) { result = readv(own, parts, 2); }
static void calls_recv(void) { result = recv(own, text, 8, 0); }
static void calls_recvmsg(void) { result = recvmsg(own, &message, 0); }

static void
reads(void (*body)(void), int code)
{
	pid_t pid;

	make_pair();
	ATF_REQUIRE(write(others, "letters", 8) == 8);
	pid = start_traced(body);
	until_entry(pid, code);
	ATF_REQUIRE(readable(own) == 1 && memcmp((long[]){ read_memory(pid, text) }, "secret!", 8) == 0);
	kill_target(pid);
	ATF_REQUIRE(readable(own) == 1);
	pid = start_traced(body);
	until_entry(pid, code);
	ATF_REQUIRE(request(PT_TO_SCX, pid, 0) && wait_stop(pid, SIGTRAP));
	ATF_REQUIRE(info(pid).pl_flags & PL_FLAG_SCX && readable(own) == 0);
	ATF_REQUIRE(memcmp((long[]){ read_memory(pid, text) }, "letters", 8) == 0);
	kill_target(pid);
}

/* ---- calls that look at descriptors: what they report isn't written yet, and they look at what the debugger has set */

static struct pollfd polled;
static fd_set selected;
static struct kevent change, event;
static int queue;
static int count;

static void calls_poll(void) { result = poll(&polled, 1, 1000); }
static void calls_select(void) { result = select(count, &selected, NULL, NULL, NULL); }

static void
calls_kevent(void)
{
	CHILD_REQUIRE((queue = kqueue()) != -1);
	result = kevent(queue, &change, 1, &event, 1, NULL);
}

static void
looks(void (*body)(void), int code, const void *written, void *set, const void *bytes, size_t size)
{
	pid_t pid = start_traced(body);
	long before;

	until_entry(pid, code);
	before = read_memory(pid, written);
	write_memory(pid, set, bytes, size);
	ATF_REQUIRE(request(PT_TO_SCX, pid, 0) && wait_stop(pid, SIGTRAP));
	ATF_REQUIRE(info(pid).pl_flags & PL_FLAG_SCX && info(pid).pl_syscall_code == (unsigned)code);
	ATF_REQUIRE(registers(pid).r_rax == 1 && read_memory(pid, written) != before);
	kill_target(pid);
}

#define CASE(name, ...) \
	ATF_TC_WITHOUT_HEAD(name); \
	ATF_TC_BODY(name, tc) { __VA_ARGS__; }

CASE(entry_of_write, writes(calls_write, SYS_write))
CASE(entry_of_writev, writes(calls_writev, SYS_writev))
CASE(entry_of_send, writes(calls_send, SYS_sendto))
CASE(entry_of_sendmsg, writes(calls_sendmsg, SYS_sendmsg))
CASE(entry_of_read, reads(calls_read, SYS_read))
CASE(entry_of_readv, reads(calls_readv, SYS_readv))
CASE(entry_of_recv, reads(calls_recv, SYS_recvfrom))
CASE(entry_of_recvmsg, reads(calls_recvmsg, SYS_recvmsg))

/* Only the other end is readable: the debugger makes the target look there. */
ATF_TC_WITHOUT_HEAD(entry_of_poll);
ATF_TC_BODY(entry_of_poll, tc)
{
	struct pollfd wanted;

	make_pair();
	ATF_REQUIRE(write(own, "x", 1) == 1);
	polled = (struct pollfd){ .fd = own, .events = POLLIN };
	wanted = (struct pollfd){ .fd = others, .events = POLLIN };
	looks(calls_poll, SYS_poll, &polled, &polled, &wanted, sizeof(wanted));
}

ATF_TC_WITHOUT_HEAD(entry_of_select);
ATF_TC_BODY(entry_of_select, tc)
{
	fd_set wanted;

	make_pair();
	ATF_REQUIRE(write(own, "x", 1) == 1);
	FD_ZERO(&selected);
	FD_SET(own, &selected);
	FD_ZERO(&wanted);
	FD_SET(own, &wanted);
	FD_SET(others, &wanted);
	count = (own > others ? own : others) + 1;
	looks(calls_select, SYS_select, &selected, &selected, &wanted, sizeof(wanted));
}

ATF_TC_WITHOUT_HEAD(entry_of_kevent);
ATF_TC_BODY(entry_of_kevent, tc)
{
	struct kevent wanted;

	make_pair();
	ATF_REQUIRE(write(own, "x", 1) == 1);
	EV_SET(&change, own, EVFILT_READ, EV_ADD, 0, 0, NULL);
	EV_SET(&wanted, others, EVFILT_READ, EV_ADD, 0, 0, NULL);
	looks(calls_kevent, SYS_kevent, &event, &change, &wanted, sizeof(wanted));
}

/* ---- registers */

static volatile sig_atomic_t caught;
static void note(int sig) { caught = sig; }

static void
calls_kill(void)
{
	CHILD_REQUIRE(signal(SIGUSR1, note) != SIG_ERR && signal(SIGUSR2, note) != SIG_ERR);
	_exit(kill(getpid(), SIGUSR1) == 0 ? caught : 99);
}

/* Another signal's number, which the call takes; at its exit it is shown. */
ATF_TC_WITHOUT_HEAD(argument_is_set);
ATF_TC_BODY(argument_is_set, tc)
{
	pid_t pid = start_traced(calls_kill);
	syscallarg_t arguments[2] = { 0, 0 };
	struct reg r;

	until_entry(pid, SYS_kill);
	r = registers(pid);
	ATF_REQUIRE(r.r_rax == SYS_kill && r.r_rdi == pid && r.r_rsi == SIGUSR1);
	r.r_rsi = SIGUSR2;
	set_registers(pid, &r);
	ATF_REQUIRE(request(PT_TO_SCX, pid, 0) && wait_stop(pid, SIGTRAP));
	ATF_REQUIRE(ptrace(PT_GET_SC_ARGS, pid, (caddr_t)arguments, sizeof(arguments)) == 0);
	ATF_REQUIRE(arguments[0] == pid && arguments[1] == SIGUSR2);
	set_events(pid, 0);
	ATF_REQUIRE(go_on(pid) && wait_stop(pid, SIGUSR2));
	ATF_REQUIRE(request(PT_CONTINUE, pid, SIGUSR2) && wait_exit(pid, SIGUSR2));
}

static void
calls_write_of_8(void)
{
	_exit((int)write(own, text, 8));
}

/* A smaller count, and another buffer. */
ATF_TC_WITHOUT_HEAD(buffer_is_set);
ATF_TC_BODY(buffer_is_set, tc)
{
	char got[8] = "";
	struct reg r;
	pid_t pid;

	make_pair();
	memcpy(more, "allowed", 8);
	pid = start_traced(calls_write_of_8);
	until_entry(pid, SYS_write);
	r = registers(pid);
	ATF_REQUIRE(r.r_rdi == own && r.r_rsi == address(text) && r.r_rdx == 8);
	r.r_rsi = address(more), r.r_rdx = 5;
	set_registers(pid, &r);
	set_events(pid, 0);
	ATF_REQUIRE(go_on(pid) && wait_exit(pid, 5));
	ATF_REQUIRE(read(others, got, sizeof(got)) == 5 && memcmp(got, "allow", 5) == 0);
}

static void
calls_getppid(void)
{
	_exit(getppid() == getpid() ? 3 : 4);
}

/* Another call: rax has its number. */
ATF_TC_WITHOUT_HEAD(number_is_set);
ATF_TC_BODY(number_is_set, tc)
{
	pid_t pid = start_traced(calls_getppid);
	struct reg r;

	until_entry(pid, SYS_getppid);
	r = registers(pid);
	r.r_rax = SYS_getpid;
	set_registers(pid, &r);
	ATF_REQUIRE(request(PT_TO_SCX, pid, 0) && wait_stop(pid, SIGTRAP));
	ATF_REQUIRE(info(pid).pl_syscall_code == SYS_getpid && registers(pid).r_rax == pid);
	set_events(pid, 0);
	ATF_REQUIRE(go_on(pid) && wait_exit(pid, 3));
}

/* At the exit the target is set back to the call's instruction: it makes the call that its registers say. */
ATF_TC_WITHOUT_HEAD(call_is_made_again);
ATF_TC_BODY(call_is_made_again, tc)
{
	pid_t pid = start_traced(calls_getppid);
	struct reg r;

	until_entry(pid, SYS_getppid);
	ATF_REQUIRE(request(PT_TO_SCX, pid, 0) && wait_stop(pid, SIGTRAP));
	r = registers(pid);
	r.r_rip -= 2, r.r_rax = SYS_getpid;
	set_registers(pid, &r);
	until_entry(pid, SYS_getpid);
	ATF_REQUIRE(request(PT_TO_SCX, pid, 0) && wait_stop(pid, SIGTRAP));
	ATF_REQUIRE(registers(pid).r_rax == pid);
	set_events(pid, 0);
	ATF_REQUIRE(go_on(pid) && wait_exit(pid, 3));
}

static char folder[] = "/tmp/entry.XXXXXX", path[64], other_path[64];

static void
make_folder(void)
{
	strcpy(folder, "/tmp/entry.XXXXXX");
	ATF_REQUIRE(mkdtemp(folder) != NULL);
	snprintf(path, sizeof(path), "%s/a", folder);
	snprintf(other_path, sizeof(other_path), "%s/b", folder);
}

static void
calls_mkdir(void)
{
	_exit(mkdir(path, 0700) == 0 ? 0 : errno == ENOSYS ? 5 : 6);
}

/* A number that no call has: the call fails, and SIGSYS is sent. */
ATF_TC_WITHOUT_HEAD(call_is_denied);
ATF_TC_BODY(call_is_denied, tc)
{
	struct reg r;
	pid_t pid;

	make_folder();
	pid = start_traced(calls_mkdir);
	until_entry(pid, SYS_mkdir);
	ATF_REQUIRE(access(path, F_OK) == -1);
	r = registers(pid);
	r.r_rax = -1;
	set_registers(pid, &r);
	set_events(pid, 0);
	ATF_REQUIRE(go_on(pid) && wait_stop(pid, SIGSYS));
	ATF_REQUIRE(go_on(pid) && wait_exit(pid, 5));
	ATF_REQUIRE(access(path, F_OK) == -1 && rmdir(folder) == 0);
}

static void
calls_open(void)
{
	_exit(open(path, O_CREAT | O_WRONLY, 0600) >= 0 ? 7 : 8);
}

/* open(2) is openat(2) in the kernel; its path is written over, and then its register set. */
ATF_TC_WITHOUT_HEAD(path_is_set);
ATF_TC_BODY(path_is_set, tc)
{
	struct reg r;
	pid_t pid;

	make_folder();
	pid = start_traced(calls_open);
	until_entry(pid, SYS_openat);
	ATF_REQUIRE(access(path, F_OK) == -1);
	write_memory(pid, path, other_path, sizeof(path));
	set_events(pid, 0);
	ATF_REQUIRE(go_on(pid) && wait_exit(pid, 7));
	ATF_REQUIRE(access(path, F_OK) == -1 && unlink(other_path) == 0);
	pid = start_traced(calls_open);
	until_entry(pid, SYS_openat);
	r = registers(pid);
	ATF_REQUIRE(r.r_rdi == AT_FDCWD && r.r_rsi == address(path));
	r.r_rsi = address(other_path);
	set_registers(pid, &r);
	set_events(pid, 0);
	ATF_REQUIRE(go_on(pid) && wait_exit(pid, 7));
	ATF_REQUIRE(access(path, F_OK) == -1 && unlink(other_path) == 0 && rmdir(folder) == 0);
}

static struct sigaction action;

static void
calls_sigaction(void)
{
	struct sigaction old;

	action.sa_handler = SIG_IGN;
	CHILD_REQUIRE(sigaction(SIGUSR1, &action, &old) == 0 && old.sa_handler == SIG_DFL);
	CHILD_REQUIRE(sigaction(SIGUSR1, NULL, &old) == 0);
	_exit(old.sa_handler == note ? 9 : 10);
}

/* What a call only points to is read behind the entry too. */
ATF_TC_WITHOUT_HEAD(structure_is_set);
ATF_TC_BODY(structure_is_set, tc)
{
	struct sigaction wanted = { .sa_handler = note };
	pid_t pid = start_traced(calls_sigaction);

	until_entry(pid, SYS_sigaction);
	write_memory(pid, &action, &wanted, sizeof(wanted));
	set_events(pid, 0);
	ATF_REQUIRE(go_on(pid) && wait_exit(pid, 9));
}

/* ---- all calls are reported */

static int number;

static void
calls_one(void)
{
	struct stat st;
	char buffer[4];

	switch (number) {
	case SYS_openat: open("/nonexistent/x", O_RDONLY); break;
	case SYS_fstat: fstat(0, &st); break;
	case SYS_fstatat: stat("/nonexistent/x", &st); break;
	case SYS_lseek: lseek(-1, 0, SEEK_CUR); break;
	case SYS_mmap: mmap(NULL, 4096, PROT_READ, MAP_ANON | MAP_PRIVATE, -1, 0); break;
	case SYS_munmap: munmap(NULL, 0); break;
	case SYS_mprotect: mprotect(NULL, 0, PROT_READ); break;
	case SYS_unlink: unlink("/nonexistent/x"); break;
	case SYS_mkdir: mkdir("/nonexistent/x", 0700); break;
	case SYS_rename: rename("/nonexistent/a", "/nonexistent/b"); break;
	case SYS_chmod: chmod("/nonexistent/x", 0600); break;
	case SYS_socket: socket(AF_UNIX, SOCK_STREAM, 0); break;
	case SYS_connect: connect(-1, NULL, 0); break;
	case SYS_bind: bind(-1, NULL, 0); break;
	case SYS_accept: accept(-1, NULL, NULL); break;
	case SYS_fcntl: fcntl(0, F_GETFD); break;
	case SYS_getuid: getuid(); break;
	case SYS_chdir: chdir("/nonexistent"); break;
	case SYS_readlink: readlink("/nonexistent/x", buffer, 3); break;
	case SYS_umask: umask(022); break;
	case SYS_access: access("/nonexistent", F_OK); break;
	default: _exit(99);
	}
}

/* Each has an entry and an exit. */
ATF_TC_WITHOUT_HEAD(calls_on_files_and_sockets);
ATF_TC_BODY(calls_on_files_and_sockets, tc)
{
	static const int numbers[] = { SYS_openat, SYS_fstat, SYS_fstatat, SYS_lseek, SYS_mmap, SYS_munmap, SYS_mprotect, SYS_unlink,
		SYS_mkdir, SYS_rename, SYS_chmod, SYS_socket, SYS_connect, SYS_bind, SYS_accept, SYS_fcntl, SYS_getuid, SYS_chdir,
		SYS_readlink, SYS_umask, SYS_access };
	pid_t pid;

	for (unsigned i = 0; i < nitems(numbers); i++) {
		number = numbers[i];
		pid = start_traced(calls_one);
		until_entry(pid, number);
		ATF_REQUIRE(request(PT_TO_SCX, pid, 0) && wait_stop(pid, SIGTRAP));
		ATF_REQUIRE(info(pid).pl_flags & PL_FLAG_SCX && (int)info(pid).pl_syscall_code == number);
		kill_target(pid);
	}
}

ATF_TP_ADD_TCS(tp)
{
	ATF_TP_ADD_TC(tp, entry_of_write);
	ATF_TP_ADD_TC(tp, entry_of_writev);
	ATF_TP_ADD_TC(tp, entry_of_send);
	ATF_TP_ADD_TC(tp, entry_of_sendmsg);
	ATF_TP_ADD_TC(tp, entry_of_read);
	ATF_TP_ADD_TC(tp, entry_of_readv);
	ATF_TP_ADD_TC(tp, entry_of_recv);
	ATF_TP_ADD_TC(tp, entry_of_recvmsg);
	ATF_TP_ADD_TC(tp, entry_of_poll);
	ATF_TP_ADD_TC(tp, entry_of_select);
	ATF_TP_ADD_TC(tp, entry_of_kevent);
	ATF_TP_ADD_TC(tp, argument_is_set);
	ATF_TP_ADD_TC(tp, buffer_is_set);
	ATF_TP_ADD_TC(tp, number_is_set);
	ATF_TP_ADD_TC(tp, call_is_made_again);
	ATF_TP_ADD_TC(tp, call_is_denied);
	ATF_TP_ADD_TC(tp, path_is_set);
	ATF_TP_ADD_TC(tp, structure_is_set);
	ATF_TP_ADD_TC(tp, calls_on_files_and_sockets);
	return (atf_no_error());
}
