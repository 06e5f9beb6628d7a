// What the tests that fail, or pass, do.
#include <cstdint>
#include <cstdlib>
#include <fstream>
#include <string>

// Makes the steps of the lines of the file $STEPS: how many there are.
template <typename Session> int make_steps(Session &session)
{
    std::ifstream file(std::getenv("STEPS"));
    int count = 0;
    for (std::string line; std::getline(file, line); count++)
        session.line(line);
    return count;
}

// A debugger that takes a SIGSEGV of its target for the end of a PT_STEP:
// the signal of its second stop
template <typename Session> std::uint32_t signal_after_step(Session &session)
{
    const auto debugger = session.call(tracehost_spawn, 1001), target = session.call(tracehost_spawn, 1001);
    session.call(tracehost_ptrace, 1001, debugger.pid, TRACEHOST_PT_ATTACH, target.pid, 0);
    session.call(tracehost_wait4, 1001, debugger.pid, -1, 0);
    session.call(tracehost_ptrace, 1001, debugger.pid, TRACEHOST_PT_STEP, target.pid, 0);
    session.call(tracehost_turn, 1001, target.lwp, TRACEHOST_RAISE, 0, 11);
    session.call(tracehost_turn, 1001, target.lwp, TRACEHOST_COMPUTE, 0, 0);
    return session.call(tracehost_wait4, 1001, debugger.pid, -1, 0).status >> 8;
}

constexpr std::uint32_t sigtrap = 5, sigsegv = 11;
