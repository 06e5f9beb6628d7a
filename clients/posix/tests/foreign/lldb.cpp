// Drives LLDB's NativeProcessFreeBSD as lldb-server does: this process launches its own program again, or attaches to a child
// of itself, and meets a breakpoint, a step over it, a signal, and what the mode adds. What is expected was written before the
// first run.
//
//   lldb MODE          launch, attach, watch, fork, vfork or threads
//   lldb MODE target   the process that is debugged
#include "Plugins/Process/FreeBSD/NativeProcessFreeBSD.h"
#include "lldb/Host/FileSystem.h"
#include "lldb/Host/HostInfo.h"
#include "lldb/Host/MainLoop.h"
#include "lldb/Host/ProcessLaunchInfo.h"
#include <cerrno>
#include <csignal>
#include <cstdio>
#include <cstdlib>
#include <cstring>
#include <memory>
#include <pthread.h>
#include <string>
#include <sys/wait.h>
#include <unistd.h>
#include <vector>

using namespace lldb;
using namespace lldb_private;
using process_freebsd::NativeProcessFreeBSD;

namespace {

// ---- the target

enum { TARGET_ENDS = 7, CHILD_ENDS = 3, WRONG = 20 };

volatile int watched, signals;
std::string mode;

bool is(const char *name) { return mode == name; }

extern "C" __attribute__((noinline)) int place(int n) {
  __asm__ volatile("");
  return n + 1;
}

void on_signal(int) { signals = signals + 1; }

void *run_thread(void *argument) {
  for (int i = 0; i < 2; i++)
    getpid();
  if (is("threads"))
    place(3);
  return argument;
}

bool child_ends(::pid_t pid) {
  int status;
  if (pid == 0)
    _exit(CHILD_ENDS);
  while (waitpid(pid, &status, 0) == -1)
    if (errno != EINTR)
      return false;
  return WIFEXITED(status) && WEXITSTATUS(status) == CHILD_ENDS;
}

int target() {
  pthread_t threads[2];
  signal(SIGUSR1, on_signal);
  const int sum = place(1) + place(2);
  watched = 7;
  for (pthread_t &thread : threads)
    pthread_create(&thread, nullptr, run_thread, nullptr);
  if (is("fork") && !child_ends(fork()))
    return WRONG;
  if (is("vfork") && !child_ends(vfork()))
    return WRONG + 1;
  raise(SIGUSR1);
  for (pthread_t thread : threads)
    pthread_join(thread, nullptr);
  return signals == 1 && sum == 5 ? TARGET_ENDS : WRONG + 2;
}

// ---- the debugger

struct Counts {
  int breakpoints, steps, watchpoints, forks, vforks, vforks_done;
};

Counts expected() {
  const int hits = is("threads") ? 4 : 2;
  return {hits, hits, is("watch"), is("fork"), is("vfork"), is("vfork")};
}

bool same(const Counts &a, const Counts &b) {
  return a.breakpoints == b.breakpoints && a.steps == b.steps && a.watchpoints == b.watchpoints && a.forks == b.forks &&
         a.vforks == b.vforks && a.vforks_done == b.vforks_done;
}

const addr_t breakpoint = reinterpret_cast<addr_t>(&place);

class Driver : public NativeProcessProtocol::NativeDelegate {
public:
  explicit Driver(MainLoop &loop) : m_loop(loop) {}

  void InitializeDelegate(NativeProcessProtocol *) override {}
  void DidExec(NativeProcessProtocol *) override {}
  void NewSubprocess(NativeProcessProtocol *, std::unique_ptr<NativeProcessProtocol> child) override {
    m_children.push_back(std::move(child));
  }

  void begin(NativeProcessProtocol &process) {
    m_process = &process;
    require(process.SetBreakpoint(breakpoint, 1, false), "SetBreakpoint");
    if (is("watch"))
      require(process.SetWatchpoint(reinterpret_cast<addr_t>(&watched), sizeof watched, 1, true), "SetWatchpoint");
    resume(eStateRunning);
  }

  void ProcessStateChanged(NativeProcessProtocol *process, StateType state) override {
    if (process != m_process)
      return;
    if (state == eStateExited) {
      const auto status = process->GetExitStatus();
      m_code = status && status->type == WaitStatus::Exit ? status->status : -1;
      m_loop.RequestTermination();
    } else if (state == eStateStopped)
      stopped();
  }

  bool report() const {
    const Counts wanted = expected();
    const bool right = m_code == TARGET_ENDS && !m_failed && m_signals > 0 && same(m_counts, wanted);
    fprintf(stderr, "exit code %d, breakpoints %d, steps %d, watchpoints %d, forks %d, vforks %d and %d, signals %d\n", m_code,
            m_counts.breakpoints, m_counts.steps, m_counts.watchpoints, m_counts.forks, m_counts.vforks, m_counts.vforks_done,
            m_signals);
    return right;
  }

private:
  MainLoop &m_loop;
  NativeProcessProtocol *m_process = nullptr;
  std::vector<std::unique_ptr<NativeProcessProtocol>> m_children;
  Counts m_counts = {};
  int m_signals = 0, m_code = -1;
  bool m_failed = false;

  void fail(const char *what, const char *why) {
    fprintf(stderr, "%s: %s\n", what, why);
    m_failed = true;
    m_loop.RequestTermination();
  }

  void require(const Status &status, const char *what) {
    if (status.Fail())
      fail(what, status.AsCString());
  }

  void resume(StateType how, int signal = LLDB_INVALID_SIGNAL_NUMBER, tid_t only = LLDB_INVALID_THREAD_ID) {
    ResumeActionList actions;
    actions.Append({only, how, signal});
    require(m_process->Resume(actions), "Resume");
  }

  // Of a fork; the child of a vfork has its parent's memory, and LLDB removes breakpoints there.
  void let_children_go(bool own_memory) {
    if (!own_memory)
      require(m_process->RemoveBreakpoint(breakpoint), "RemoveBreakpoint in the parent");
    for (auto &child : m_children) {
      if (own_memory)
        require(child->RemoveBreakpoint(breakpoint), "RemoveBreakpoint in a child");
      require(child->Detach(), "Detach");
    }
    m_children.clear();
  }

  void stopped() {
    NativeThreadProtocol *thread = m_process->GetThreadByID(m_process->GetCurrentThreadID());
    ThreadStopInfo info;
    std::string description;
    if (thread == nullptr || !thread->GetStopReason(info, description))
      return fail("a stop", "without a thread, or a reason");
    switch (info.reason) {
    case eStopReasonBreakpoint:
      m_counts.breakpoints++;
      if (thread->GetRegisterContext().GetPC() != breakpoint)
        return fail("a breakpoint", "the program counter is elsewhere");
      require(m_process->RemoveBreakpoint(breakpoint), "RemoveBreakpoint");
      return resume(eStateStepping, LLDB_INVALID_SIGNAL_NUMBER, thread->GetID());
    case eStopReasonTrace:
      m_counts.steps++;
      require(m_process->SetBreakpoint(breakpoint, 1, false), "SetBreakpoint");
      return resume(eStateRunning);
    case eStopReasonWatchpoint: m_counts.watchpoints++; break;
    case eStopReasonFork:
      m_counts.forks++;
      let_children_go(true);
      break;
    case eStopReasonVFork:
      m_counts.vforks++;
      let_children_go(false);
      break;
    case eStopReasonVForkDone:
      m_counts.vforks_done++;
      require(m_process->SetBreakpoint(breakpoint, 1, false), "SetBreakpoint");
      break;
    case eStopReasonSignal:
      m_signals++;
      if (info.details.signal.signo == SIGUSR1)
        return resume(eStateRunning, SIGUSR1);
      break;
    default: break;
    }
    resume(eStateRunning);
  }
};

// A child that goes on once the debugger has attached.
llvm::Expected<std::unique_ptr<NativeProcessProtocol>> attach(NativeProcessFreeBSD::Factory &factory, Driver &driver,
                                                              MainLoop &loop) {
  int ends[2];
  if (pipe(ends) != 0)
    abort();
  const ::pid_t child = fork();
  if (child == 0) {
    char byte;
    close(ends[1]);
    while (read(ends[0], &byte, 1) < 0 && errno == EINTR)
      ;
    _exit(target());
  }
  close(ends[0]);
  auto process = factory.Attach(child, driver, loop);
  close(ends[1]);
  return process;
}

llvm::Expected<std::unique_ptr<NativeProcessProtocol>> launch(NativeProcessFreeBSD::Factory &factory, Driver &driver,
                                                              MainLoop &loop, const char *program) {
  char path[4096];
  if (realpath(program, path) == nullptr)
    abort();
  ProcessLaunchInfo info;
  info.SetExecutableFile(FileSpec(path), true);
  info.GetArguments().AppendArgument(mode);
  info.GetArguments().AppendArgument("target");
  info.GetEnvironment() = Environment(environ);
  info.GetFlags().Set(eLaunchFlagDebug | eLaunchFlagDisableASLR);
  return factory.Launch(info, driver, loop);
}

} // namespace

int main(int argc, char **argv) {
  mode = argc > 1 ? argv[1] : "launch";
  if (argc > 2)
    return target();
  FileSystem::Initialize();
  HostInfo::Initialize();
  MainLoop loop;
  Driver driver(loop);
  NativeProcessFreeBSD::Factory factory;
  auto process = is("attach") ? attach(factory, driver, loop) : launch(factory, driver, loop, argv[0]);
  if (!process) {
    fprintf(stderr, "%s\n", llvm::toString(process.takeError()).c_str());
    return 2;
  }
  (*process)->SetEnabledExtensions(factory.GetSupportedExtensions());
  driver.begin(**process);
  const Status status = loop.Run();
  if (status.Fail()) {
    fprintf(stderr, "%s\n", status.AsCString());
    return 3;
  }
  _exit(driver.report() ? 0 : 1);
}
