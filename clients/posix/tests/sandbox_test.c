/*
 * A sandbox that denies open(2) by PT_SYSCALL: the entry is reported whichever function makes the call, of the program's or of
 * the C library's, and a number that no call has keeps the call from being made.
 */
#include "debugger.h"
#include "registers.h"
#include <sys/stat.h>
#include <sys/syscall.h>
#include <dirent.h>
#include <dlfcn.h>
#include <fcntl.h>
#include <pthread.h>
#include <spawn.h>

static char folder[32], path[64], template[64];
static bool opened; /* by a handler, or by a thread */

static void
make_file(void)
{
	FILE *file;

	strcpy(folder, "/tmp/sandbox.XXXXXX");
	ATF_REQUIRE(mkdtemp(folder) != NULL);
	snprintf(path, sizeof(path), "%s/file", folder);
	snprintf(template, sizeof(template), "%s/made.XXXXXX", folder);
	ATF_REQUIRE((file = fopen(path, "w")) != NULL && fputs("secret", file) >= 0 && fclose(file) == 0);
}

/* ---- the ways: whether a file was opened */

static bool by_open(void) { return (open(path, O_RDONLY) >= 0); }
static bool by_openat(void) { return (openat(AT_FDCWD, path, O_RDONLY) >= 0); }
static bool by_creat(void) { return (creat(path, 0600) >= 0); }
static bool by_fopen(void) { return (fopen(path, "r") != NULL); }
static bool by_freopen(void) { return (freopen(path, "r", stdin) != NULL); }
static bool by_opendir(void) { return (opendir(folder) != NULL); }
static bool by_mkstemp(void) { return (mkstemp(template) >= 0); }
static bool by_dlopen(void) { return (dlopen(path, RTLD_NOW) != NULL); }
static bool by_number(void) { return (syscall(SYS_openat, AT_FDCWD, path, O_RDONLY) >= 0); }
static bool by_old_number(void) { return (syscall(SYS_open, path, O_RDONLY) >= 0); }

static void
open_it(int sig)
{
	(void)sig;
	opened = by_open();
}

static bool
by_handler(void)
{
	CHILD_REQUIRE(signal(SIGUSR1, open_it) != SIG_ERR && raise(SIGUSR1) == 0);
	return (opened);
}

static void *
run_thread(void *unused)
{
	open_it(0);
	return (unused);
}

static bool
by_thread(void)
{
	pthread_t thread;

	CHILD_REQUIRE(pthread_create(&thread, NULL, run_thread, NULL) == 0 && pthread_join(thread, NULL) == 0);
	return (opened);
}

static bool
by_spawn(void)
{
	posix_spawn_file_actions_t actions;
	char name[] = "true", *words[] = { name, NULL }, *none[] = { NULL };
	pid_t made;

	CHILD_REQUIRE(posix_spawn_file_actions_init(&actions) == 0);
	CHILD_REQUIRE(posix_spawn_file_actions_addopen(&actions, 9, path, O_RDONLY, 0) == 0);
	return (posix_spawn(&made, "/usr/bin/true", &actions, NULL, words, none) == 0);
}

/* ---- the debugger */

static bool (*way)(void);
static void try_way(void) { _exit(way() ? 1 : 0); }

static bool
opens(const struct ptrace_lwpinfo *pl)
{
	return (pl->pl_flags & PL_FLAG_SCE && (pl->pl_syscall_code == SYS_openat || pl->pl_syscall_code == SYS_open));
}

/* What is done at the entry and the exit of each open(2) of the target and its children. */
typedef void act_fn(pid_t pid, const struct ptrace_lwpinfo *pl);

static bool
is_of_call(int status, const struct ptrace_lwpinfo *pl)
{
	return (WSTOPSIG(status) == SIGTRAP && pl->pl_flags & (PL_FLAG_SCE | PL_FLAG_SCX));
}

static int
status_under(act_fn *at_entry, act_fn *at_exit)
{
	pid_t pid = start_traced(try_way), got;
	struct ptrace_lwpinfo pl;
	bool in_open = false;
	int status, sig = 0;

	set_events(pid, PTRACE_SYSCALL | PTRACE_FORK);
	ATF_REQUIRE(go_on(pid));
	while ((got = waitpid(-1, &status, 0)) != pid || WIFSTOPPED(status)) {
		ATF_REQUIRE(got > 0);
		if (!WIFSTOPPED(status))
			continue;
		pl = info(got);
		if (pl.pl_flags & PL_FLAG_CHILD)
			set_events(got, PTRACE_SYSCALL);
		if (in_open && pl.pl_flags & PL_FLAG_SCX && at_exit != NULL)
			at_exit(got, &pl);
		in_open = opens(&pl);
		if (in_open && at_entry != NULL)
			at_entry(got, &pl);
		sig = is_of_call(status, &pl) || WSTOPSIG(status) != SIGUSR1 ? 0 : SIGUSR1;
		ATF_REQUIRE(request(PT_CONTINUE, got, sig));
	}
	ATF_REQUIRE(WIFEXITED(status));
	return (WEXITSTATUS(status));
}

static int denied;

static void
deny(pid_t pid, const struct ptrace_lwpinfo *pl)
{
	struct reg r = registers(pl->pl_lwpid);

	(void)pid;
	ATF_REQUIRE(r.r_rax == (int64_t)pl->pl_syscall_code);
	r.r_rax = -1;
	set_registers(pl->pl_lwpid, &r);
	denied++;
}

static void
is_denied(bool (*tried)(void))
{
	struct stat st;

	make_file();
	way = tried;
	ATF_REQUIRE(status_under(deny, NULL) == 0 && denied > 0);
	ATF_REQUIRE(stat(path, &st) == 0 && st.st_size == 6 && unlink(path) == 0);
	ATF_REQUIRE_MSG(rmdir(folder) == 0, "a file was made");
}

#define CASE(name) \
	ATF_TC_WITHOUT_HEAD(name); \
	ATF_TC_BODY(name, tc) { is_denied(name); }

CASE(by_open)
CASE(by_openat)
CASE(by_creat)
CASE(by_fopen)
CASE(by_freopen)
CASE(by_opendir)
CASE(by_mkstemp)
CASE(by_dlopen)
CASE(by_number)
CASE(by_old_number)
CASE(by_handler)
CASE(by_thread)
CASE(by_spawn)

/* ---- a call of the C library's own takes what a debugger sets */

static char other_path[64];

static void
set_path(pid_t pid, const struct ptrace_lwpinfo *pl)
{
	struct reg r = registers(pl->pl_lwpid);

	(void)pid;
	r.r_rsi = address(other_path);
	set_registers(pl->pl_lwpid, &r);
}

static bool
reads_other(void)
{
	char text[8] = "";
	FILE *file = fopen(path, "r");

	return (file != NULL && fgets(text, sizeof(text), file) != NULL && strcmp(text, "others") == 0);
}

ATF_TC_WITHOUT_HEAD(path_of_fopen);
ATF_TC_BODY(path_of_fopen, tc)
{
	FILE *file;

	make_file();
	snprintf(other_path, sizeof(other_path), "%s/other", folder);
	ATF_REQUIRE((file = fopen(other_path, "w")) != NULL && fputs("others", file) >= 0 && fclose(file) == 0);
	way = reads_other;
	ATF_REQUIRE(status_under(set_path, NULL) == 1);
	ATF_REQUIRE(unlink(path) == 0 && unlink(other_path) == 0 && rmdir(folder) == 0);
}

/* Another result: the program gets it, though the call was made. */
static void
set_result(pid_t pid, const struct ptrace_lwpinfo *pl)
{
	struct reg r = registers(pl->pl_lwpid);

	(void)pid;
	ATF_REQUIRE(r.r_rax > 2);
	r.r_rax = 77;
	set_registers(pl->pl_lwpid, &r);
}

static bool opens_77(void) { return (fileno(fopen(path, "r")) == 77); }

ATF_TC_WITHOUT_HEAD(result_of_fopen);
ATF_TC_BODY(result_of_fopen, tc)
{
	make_file();
	way = opens_77;
	ATF_REQUIRE(status_under(NULL, set_result) == 1);
	ATF_REQUIRE(unlink(path) == 0 && rmdir(folder) == 0);
}

ATF_TP_ADD_TCS(tp)
{
	ATF_TP_ADD_TC(tp, by_open);
	ATF_TP_ADD_TC(tp, by_openat);
	ATF_TP_ADD_TC(tp, by_creat);
	ATF_TP_ADD_TC(tp, by_fopen);
	ATF_TP_ADD_TC(tp, by_freopen);
	ATF_TP_ADD_TC(tp, by_opendir);
	ATF_TP_ADD_TC(tp, by_mkstemp);
	ATF_TP_ADD_TC(tp, by_dlopen);
	ATF_TP_ADD_TC(tp, by_number);
	ATF_TP_ADD_TC(tp, by_old_number);
	ATF_TP_ADD_TC(tp, by_handler);
	ATF_TP_ADD_TC(tp, by_thread);
	ATF_TP_ADD_TC(tp, by_spawn);
	ATF_TP_ADD_TC(tp, path_of_fopen);
	ATF_TP_ADD_TC(tp, result_of_fopen);
	return (atf_no_error());
}
