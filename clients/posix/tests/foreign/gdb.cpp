// Drives gdb's FreeBSD target, fbsd-nat.c with inf-ptrace.c, threads and inferiors, in the order of gdb's infrun.c. What is
// expected was written before the first run.
//
//   gdb MODE          threads: each of three threads meets a breakpoint twice, and is stepped over it
//                     signal: the target's SIGUSR1 is told with its sender, and passed on
//                     fork, vfork: the child is told, and let go
//                     attach: to three threads, and detached
//   gdb MODE target   the process that is debugged
#include "defs.h"
#include "fbsd-nat.h"
#include "gdbarch.h"
#include "gdbthread.h"
#include "inferior.h"
#include "infrun.h"
#include "target.h"
#include <cstdarg>
#include <map>
#include <pthread.h>
#include <signal.h>
#include <string>
#include <sys/ptrace.h>
#include <sys/wait.h>
#include <unistd.h>

namespace {

enum { THREADS = 3, ROUNDS = 2, TARGET_ENDS = 7, CHILD_ENDS = 3, BREAKPOINT = 0xcc };

std::string mode;

bool is(const char *name) { return mode == name; }

// ---- the target

volatile sig_atomic_t signals, goes_on;

extern "C" __attribute__((noinline)) int place(int n) {
  __asm__ volatile("");
  return n + 1;
}

void on_signal(int) { signals = signals + 1; }

void *work(void *argument) {
  int *sum = static_cast<int *>(argument);
  for (int i = 0; i < ROUNDS; i++)
    *sum += place(i);
  return nullptr;
}

bool works() {
  pthread_t threads[THREADS];
  int sums[THREADS] = {}, sum = 0;
  for (int i = 0; i < THREADS; i++)
    if (pthread_create(&threads[i], nullptr, work, &sums[i]) != 0)
      return false;
  for (int i = 0; i < THREADS; i++)
    sum += pthread_join(threads[i], nullptr) == 0 ? sums[i] : 0;
  return sum == THREADS * (1 + 2);
}

bool has_child(pid_t pid) {
  int status;
  if (pid == 0)
    _exit(CHILD_ENDS);
  while (waitpid(pid, &status, 0) == -1)
    if (errno != EINTR)
      return false;
  return WIFEXITED(status) && WEXITSTATUS(status) == CHILD_ENDS;
}

void *waits(void *) {
  while (!goes_on)
    usleep(1000);
  return nullptr;
}

// A debugger attaches while these wait. It lets them go on by writing `goes_on`.
bool waits_with_threads() {
  pthread_t threads[THREADS - 1];
  for (pthread_t &thread : threads)
    if (pthread_create(&thread, nullptr, waits, nullptr) != 0)
      return false;
  waits(nullptr);
  for (pthread_t thread : threads)
    if (pthread_join(thread, nullptr) != 0)
      return false;
  return true;
}

int target() {
  bool right = false;
  if (is("threads"))
    right = works();
  else if (is("signal"))
    right = signal(SIGUSR1, on_signal) != SIG_ERR && raise(SIGUSR1) == 0 && signals == 1;
  else if (is("fork"))
    right = has_child(fork());
  else if (is("vfork"))
    right = has_child(vfork());
  else if (is("attach"))
    right = waits_with_threads();
  return right ? TARGET_ENDS : 2;
}

// ---- the debugger

void require(bool right, const char *what) {
  if (right)
    return;
  fprintf(stderr, "gdb %s: %s\n", mode.c_str(), what);
  _exit(3);
}

reg registers_of(pid_t lwp) {
  reg found;
  require(::ptrace(PT_GETREGS, lwp, reinterpret_cast<caddr_t>(&found), 0) == 0, "PT_GETREGS");
  return found;
}

// What gdb has for each machine besides: registers are the kernel's.
class driven_target final : public fbsd_nat_target {
public:
  void started(pid_t pid) { post_startup_inferior(ptid_t(pid)); }
  void fetch_registers(regcache *, int) override {}
  void store_registers(regcache *, int) override {}
};

driven_target the_target;

void transfer(target_object object, const char *annex, gdb_byte *read, const gdb_byte *written, ULONGEST at, ULONGEST size) {
  ULONGEST done = 0;
  const auto result = the_target.xfer_partial(object, annex, read, written, at, size, &done);
  require(result == TARGET_XFER_OK && done == size, "xfer_partial");
}

void write_byte(const void *at, gdb_byte byte) {
  transfer(TARGET_OBJECT_MEMORY, nullptr, nullptr, &byte, reinterpret_cast<ULONGEST>(at), 1);
}

ptid_t wait_for(ptid_t which, target_waitstatus *status) {
  const ptid_t found = the_target.wait(which, status, 0);
  inferior_ptid = found;
  return found;
}

void go_on(ptid_t which, bool step = false, gdb_signal sig = GDB_SIGNAL_0) { the_target.resume(which, step, sig); }

// startup_inferior: up to the stop of its exec.
pid_t launch(const char *program) {
  const pid_t pid = fork();
  if (pid == 0) {
    ptrace(PT_TRACE_ME, 0, nullptr, 0);
    execl(program, program, mode.c_str(), "target", nullptr);
    _exit(127);
  }
  inferior_appeared(current_inferior(), pid);
  current_inferior()->push_target(&the_target);
  switch_to_thread(add_thread_silent(&the_target, ptid_t(pid)));
  target_waitstatus status;
  wait_for(ptid_t(pid), &status);
  require(status.kind() == TARGET_WAITKIND_STOPPED || status.kind() == TARGET_WAITKIND_EXECD, "the stop of the exec");
  the_target.started(pid);
  return pid;
}

void ends(const target_waitstatus &status) {
  require(status.kind() == TARGET_WAITKIND_EXITED && status.exit_status() == TARGET_ENDS, status.to_string().c_str());
}

// ---- the modes

// One thread is stepped without its breakpoint, while the others are suspended.
void step_over(ptid_t thread, gdb_byte original) {
  target_waitstatus status;
  write_byte(reinterpret_cast<void *>(place), original);
  for (;;) {
    inferior_ptid = thread;
    go_on(thread, true);
    const ptid_t stopped = wait_for(ptid_t(thread.pid()), &status);
    if (status.kind() == TARGET_WAITKIND_SPURIOUS) // a new thread
      continue;
    require(stopped == thread && status.kind() == TARGET_WAITKIND_STOPPED && status.sig() == GDB_SIGNAL_TRAP, "a step");
    break;
  }
  write_byte(reinterpret_cast<void *>(place), BREAKPOINT);
}

void run_threads(const char *program) {
  const ptid_t process(launch(program));
  gdb_byte original;
  std::map<long, int> hits;
  transfer(TARGET_OBJECT_MEMORY, nullptr, &original, nullptr, reinterpret_cast<ULONGEST>(place), 1);
  write_byte(reinterpret_cast<void *>(place), BREAKPOINT);
  target_waitstatus status;
  for (;;) {
    go_on(process);
    const ptid_t stopped = wait_for(process, &status);
    if (status.kind() == TARGET_WAITKIND_SPURIOUS)
      continue;
    if (status.kind() != TARGET_WAITKIND_STOPPED)
      break;
    require(status.sig() == GDB_SIGNAL_TRAP && the_target.stopped_by_sw_breakpoint(), "a breakpoint");
    require(registers_of(stopped.lwp()).r_rip == reinterpret_cast<long>(place), "its place");
    hits[stopped.lwp()]++;
    step_over(stopped, original);
  }
  ends(status);
  require(hits.size() == THREADS, "threads that meet the breakpoint");
  for (const auto &each : hits)
    require(each.second == ROUNDS, "meetings of a thread");
}

void run_signal(const char *program) {
  const ptid_t process(launch(program));
  target_waitstatus status;
  siginfo_t info;
  go_on(process);
  wait_for(process, &status);
  require(status.kind() == TARGET_WAITKIND_STOPPED && status.sig() == GDB_SIGNAL_USR1, "SIGUSR1");
  transfer(TARGET_OBJECT_SIGNAL_INFO, nullptr, reinterpret_cast<gdb_byte *>(&info), nullptr, 0, sizeof info);
  require(sizeof info == 80 && info.si_signo == SIGUSR1 && info.si_code == SI_LWP && info.si_pid == process.pid(), "siginfo");
  go_on(process, false, status.sig());
  wait_for(process, &status);
  ends(status);
}

void run_fork(const char *program, target_waitkind kind) {
  const ptid_t process(launch(program));
  target_waitstatus status;
  go_on(process);
  wait_for(process, &status);
  require(status.kind() == kind, "the fork's report");
  const ptid_t child = status.child_ptid();
  require(child.pid() != process.pid() && child.lwp_p(), "the child");
  the_target.follow_fork(nullptr, child, kind, false, true);
  go_on(process);
  wait_for(process, &status);
  if (kind == TARGET_WAITKIND_VFORKED) {
    require(status.kind() == TARGET_WAITKIND_VFORK_DONE, "the vfork's end");
    go_on(process);
    wait_for(process, &status);
  }
  ends(status);
}

void run_attached() {
  const pid_t pid = fork();
  if (pid == 0)
    _exit(target());
  usleep(100000);
  the_target.attach(std::to_string(pid).c_str(), 0);
  target_waitstatus status;
  wait_for(ptid_t(pid), &status);
  require(status.kind() == TARGET_WAITKIND_STOPPED && status.sig() == GDB_SIGNAL_STOP, "the stop of an attach");
  the_target.post_attach(pid);
  int found = 0;
  for (thread_info *thread : current_inferior()->non_exited_threads())
    found += thread->ptid.lwp_p() && the_target.thread_alive(thread->ptid);
  require(found >= 1 && found <= THREADS, "threads");
  write_byte(const_cast<sig_atomic_t *>(&goes_on), 1);
  the_target.detach(current_inferior(), 0);
  int ended;
  require(waitpid(pid, &ended, 0) == pid && WIFEXITED(ended) && WEXITSTATUS(ended) == TARGET_ENDS, "the end");
}

} // namespace

// ---- what gdb's other files do for these

static std::string text_of(const char *format, va_list arguments) {
  char text[512];
  vsnprintf(text, sizeof text, format, arguments);
  return text;
}

#define TEXT(format) \
  va_list arguments; \
  va_start(arguments, format); \
  const std::string text = text_of(format, arguments); \
  va_end(arguments)

void error(const char *format, ...) {
  TEXT(format);
  require(false, text.c_str());
  abort();
}

void warning(const char *format, ...) {
  TEXT(format);
  require(false, text.c_str());
}

void internal_error_loc(const char *file, int line, const char *format, ...) {
  TEXT(format);
  fprintf(stderr, "%s:%d: ", file, line);
  require(false, text.c_str());
  abort();
}

void perror_with_name(const char *what) { error("%s: %s", what, safe_strerror(errno)); }
const char *safe_strerror(int number) { return strerror(number); }
void gdb_printf(ui_file *, const char *, ...) {}
void gdb_printf(const char *, ...) {}

struct regcache *get_thread_regcache(process_stratum_target *, ptid_t thread) {
  return reinterpret_cast<struct regcache *>(thread.lwp()); // a number of the thread, as its registers
}

static reg read_of(struct regcache *of) { return registers_of(static_cast<pid_t>(reinterpret_cast<intptr_t>(of))); }

CORE_ADDR regcache_read_pc(struct regcache *of) { return read_of(of).r_rip; }

void regcache_write_pc(struct regcache *of, CORE_ADDR pc) {
  reg changed = read_of(of);
  changed.r_rip = pc;
  const pid_t lwp = static_cast<pid_t>(reinterpret_cast<intptr_t>(of));
  require(::ptrace(PT_SETREGS, lwp, reinterpret_cast<caddr_t>(&changed), 0) == 0, "PT_SETREGS");
}

gdbarch *reg_buffer::arch() const { return nullptr; }
gdbarch *get_frame_arch(frame_info_ptr) { return nullptr; }
frame_info_ptr get_current_frame() { return nullptr; }
intrusive_list<frame_info_ptr> frame_info_ptr::frame_list;
CORE_ADDR gdbarch_decr_pc_after_break(gdbarch *) { return 1; }
int gdbarch_long_bit(gdbarch *) { return 64; }

void set_sigint_trap() {}
void clear_sigint_trap() {}
void set_current_program_space(program_space *) {}
void reinit_frame_cache() {}
void registers_changed() {}
void annotate_new_thread() {}
void delete_longjmp_breakpoint_at_next_stop(int) {}
void bpstat_clear(bpstat **) {}
void btrace_teardown(thread_info *) {}
void clear_inline_frame_state(thread_info *) {}
void clear_inline_frame_state(process_stratum_target *, ptid_t) {}
void registers_changed_ptid(process_stratum_target *, ptid_t) {}
int catch_syscall_enabled() { return 0; }
int parse_pid_to_attach(const char *text) { return atoi(text); }

ptid_t inferior_ptid;
const frame_id null_frame_id = {};
program_space *current_program_space;
bool non_stop, info_verbose;
bool debug_infrun;

extern "C" {
void *xmalloc(size_t size) { return malloc(size); }
void *xcalloc(size_t count, size_t size) { return calloc(count, size); }
void *xrealloc(void *at, size_t size) { return realloc(at, size); }
char *xstrdup(const char *text) { return strdup(text); }
}

int main(int argc, char *argv[]) {
  mode = argc > 1 ? argv[1] : "";
  if (argc > 2)
    return target();
  set_current_inferior(add_inferior_silent(0));
  if (is("threads"))
    run_threads(argv[0]);
  else if (is("signal"))
    run_signal(argv[0]);
  else if (is("fork"))
    run_fork(argv[0], TARGET_WAITKIND_FORKED);
  else if (is("vfork"))
    run_fork(argv[0], TARGET_WAITKIND_VFORKED);
  else if (is("attach"))
    run_attached();
  else
    return 2;
  return 0;
}
