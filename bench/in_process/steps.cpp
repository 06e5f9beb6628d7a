// Makes steps by tracehost.hpp, attach, wait4 and detach in turn, and prints how many nanoseconds a step took.
//
//     steps typed STEPS
//
// bench/in_process.py compiles and runs it.
#include <chrono>
#include <cstdio>
#include <cstdlib>
#include <tracehost.hpp>

static const uint32_t user = 1001, debugger = 1000, target = 1001;

static void wanted(bool truth)
{
    if (!truth)
        std::abort();
}

int main(int argc, char **argv)
{
    wanted(argc == 3);
    const long rounds = std::atol(argv[2]) / 3;
    tracehost_session session;
    for (int i = 0; i < 2; i++)
        wanted(session.call(tracehost_spawn, user).kind == TRACEHOST_NEW);
    const auto began = std::chrono::steady_clock::now();
    for (long i = 0; i < rounds; i++) {
        wanted(session.call(tracehost_ptrace, user, debugger, TRACEHOST_PT_ATTACH, target, 0).kind == TRACEHOST_OK);
        wanted(session.call(tracehost_wait4, user, debugger, target, 0).kind == TRACEHOST_STATUS);
        wanted(session.call(tracehost_ptrace, user, debugger, TRACEHOST_PT_DETACH, target, 0).kind == TRACEHOST_OK);
    }
    const std::chrono::duration<double, std::nano> took = std::chrono::steady_clock::now() - began;
    std::printf("%.1f\n", took.count() / double(rounds * 3));
}
