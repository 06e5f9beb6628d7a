// tracehost.hpp: lifetimes, copies, errors, threads. C++11 and later.
#include <tracehost.hpp>

#include <cstdio>
#include <cstdlib>
#include <fstream>
#include <iterator>
#include <string>
#include <thread>
#include <type_traits>
#include <utility>
#include <vector>

#include <unistd.h>

static_assert(!std::is_copy_constructible<tracehost_session>::value, "a session is not copied by accident");
static_assert(!std::is_copy_assignable<tracehost_session>::value, "a session is not copied by accident");
static_assert(std::is_nothrow_move_constructible<tracehost_session>::value, "a session moves");
static_assert(std::is_nothrow_move_assignable<tracehost_session>::value, "a session moves");
static_assert(!std::is_convertible<bool, tracehost_session>::value, "a session is opened by name");

static int failed;

#define CHECK(truth) \
    do { \
        if (!(truth)) { \
            std::printf("FAILED: line %d: %s\n", __LINE__, #truth); \
            failed = 1; \
        } \
    } while (0)

// the call throws std::system_error with this condition
#define THROWS(condition, call) \
    do { \
        bool thrown = false; \
        try { \
            call; \
        } catch (const std::system_error &error) { \
            thrown = error.code() == (condition); \
        } \
        CHECK(thrown && #call); \
    } while (0)

static std::string line(tracehost_session &session, const std::string &step)
{
    uint8_t out[256];
    size_t length = 0;
    const uint8_t *bytes = reinterpret_cast<const uint8_t *>(step.data());
    tracehost_session::check(tracehost_line(session.get(), false, bytes, step.size(), out, sizeof out, &length));
    return std::string(out, out + length);
}

static std::vector<uint32_t> pids(tracehost_session &session)
{
    std::vector<uint32_t> list(session.call(tracehost_list, 1001, 1000).count);
    size_t length = 0;
    tracehost_session::check(tracehost_numbers(session.get(), list.data(), list.size(), &length));
    CHECK(length == list.size());
    return list;
}

// a session whose process 1000 has attached to process 1001
static tracehost_session attached()
{
    tracehost_session session;
    const tracehost_reply debugger = session.call(tracehost_spawn, 1001), target = session.call(tracehost_spawn, 1001);
    CHECK(debugger.kind == TRACEHOST_NEW && debugger.pid == 1000 && debugger.lwp == 100000 && target.pid == 1001);
    const auto reply = session.call(tracehost_ptrace, 1001, debugger.pid, TRACEHOST_PT_ATTACH, target.pid, 0);
    CHECK(reply.kind == TRACEHOST_OK);
    return session;
}

static bool reports_stop(tracehost_session &session)
{
    const auto reply = session.call(tracehost_wait4, 1001, 1000, -1, 0);
    return reply.kind == TRACEHOST_STATUS && reply.pid == 1001 && reply.status == 17 * 256 + 127;
}

static void replies()
{
    tracehost_session session = attached();
    CHECK(reports_stop(session));
    const auto refused = session.call(tracehost_ptrace, 1001, 1000, TRACEHOST_PT_ATTACH, 99, 0);
    CHECK(refused.kind == TRACEHOST_ERROR && refused.error == 3);
    CHECK((pids(session) == std::vector<uint32_t>{1000, 1001}));
    CHECK(line(session, "{\"user\":1001,\"op\":\"spawn\"}") == "1001 7 new 1002 100002\n");
    CHECK(line(session, "{}") == "refused BadShape\n");
    const tracehost_rule leave[17] = {{0, 0, TRACEHOST_LEAVE, 0}};
    CHECK(session.call(tracehost_install, 1001, 1000, leave, 1).kind == TRACEHOST_OK);
    THROWS(std::errc::invalid_argument, session.call(tracehost_install, 1001, 1000, leave, 17));
    THROWS(std::errc::invalid_argument, session.call(tracehost_spawn, 1065));
    CHECK(line(session, "{\"user\":1001,\"op\":\"spawn\"}") == "1001 9 new 1003 100003\n");
}

static void handlers()
{
    tracehost_session session = attached();
    const tracehost_rule rules[2] = {{0, 5, TRACEHOST_KILL, 0}, {0, 17, TRACEHOST_CONTINUE, 0}};
    CHECK(session.call(tracehost_install, 1001, 1000, rules, 2).kind == TRACEHOST_OK);
    const auto reply = session.call(tracehost_handle, 1001, 1000);
    CHECK(reply.kind == TRACEHOST_HANDLED && reply.pid == 1001 && reply.status == 17 * 256 + 127);
    CHECK(reply.stop_pid == 1001 && reply.lwp == 100001 && reply.signal == 17);
    CHECK(reply.has_handler == 1 && reply.handler == 0 && reply.decision == TRACEHOST_CONTINUE && reply.pass == 0);
    CHECK(session.call(tracehost_handle, 1001, 1000).kind == TRACEHOST_NOTHING);
}

static void settings()
{
    for (bool kills : {false, true}) {
        tracehost_session session(kills);
        for (int i = 0; i < 3; i++)
            session.call(tracehost_spawn, 1001);
        session.call(tracehost_ptrace, 1001, 1000, TRACEHOST_PT_ATTACH, 1001, 0);
        CHECK(session.call(tracehost_turn, 1001, 100000, TRACEHOST_RAISE, 0, 9).kind == TRACEHOST_ENDED);
        CHECK(session.call(tracehost_list, 1001, 1002).count == (kills ? 1u : 2u));
    }
}

static void copies()
{
    tracehost_session session = attached(), copy = session.copy();
    CHECK(reports_stop(copy) && reports_stop(session));
    copy.call(tracehost_spawn, 1001);
    CHECK((pids(copy) == std::vector<uint32_t>{1000, 1001, 1002}));
    CHECK((pids(session) == std::vector<uint32_t>{1000, 1001}));
}

static void moves()
{
    tracehost_session session = attached(), other;
    tracehost_session moved(std::move(session));
    THROWS(std::errc::bad_file_descriptor, session.call(tracehost_spawn, 1001));
    THROWS(std::errc::bad_file_descriptor, session.copy());
    other = std::move(moved);
    THROWS(std::errc::bad_file_descriptor, moved.call(tracehost_spawn, 1001));
    CHECK(reports_stop(other));
    tracehost_session &self = other;
    other = std::move(self);
    CHECK((pids(other) == std::vector<uint32_t>{1000, 1001}));
    std::vector<tracehost_session> sessions;
    for (int i = 0; i < 20; i++)
        sessions.push_back(attached());
    for (auto &each : sessions)
        CHECK(reports_stop(each));
}

static void threads()
{
    tracehost_session session = attached();
    bool reported = false;
    std::thread([&session, &reported] {
        tracehost_session here(std::move(session));
        reported = reports_stop(here);
        session = std::move(here);
    }).join();
    CHECK(reported && (pids(session) == std::vector<uint32_t>{1000, 1001}));
}

/* a function decides by system call: reads go on, an exec ends the process; rules come first, and what is left remains */
static void deciding()
{
    const uint32_t read = 3, execve = 59;
    tracehost_session session = attached();
    CHECK(reports_stop(session));
    session.call(tracehost_ptrace, 1001, 1000, TRACEHOST_PT_SYSCALL, 1001, 0);
    std::vector<uint32_t> seen;
    auto decide = [&seen](const tracehost_reply &stop) -> tracehost_session::verdict {
        seen.push_back(stop.code);
        if (stop.code == 59)
            return TRACEHOST_KILL;
        if (stop.signal == 5)
            return TRACEHOST_CONTINUE;
        return tracehost_session::passing(TRACEHOST_DETACH, stop.signal);
    };
    CHECK(session.handle_with(1001, 1000, decide).kind == TRACEHOST_NOTHING);
    session.call(tracehost_turn, 1001, 100001, TRACEHOST_ENTER, TRACEHOST_OTHER, read);
    tracehost_reply reply = session.handle_with(1001, 1000, decide);
    CHECK(reply.kind == TRACEHOST_HANDLED && reply.decision == TRACEHOST_CONTINUE && reply.code == read);
    session.call(tracehost_turn, 1001, 100001, TRACEHOST_LEAVE_CALL, 0, 0);
    session.handle_with(1001, 1000, decide);
    session.call(tracehost_turn, 1001, 100001, TRACEHOST_RAISE, 0, 30);
    session.call(tracehost_turn, 1001, 100001, TRACEHOST_COMPUTE, 0, 0);
    reply = session.handle_with(1001, 1000, [](const tracehost_reply &) { return TRACEHOST_LEAVE; });
    CHECK(reply.kind == TRACEHOST_HANDLED && reply.decision == TRACEHOST_LEAVE && reply.signal == 30);
    CHECK(session.call(tracehost_turn, 1001, 100001, TRACEHOST_COMPUTE, 0, 0).kind == TRACEHOST_HELD);
    session.call(tracehost_ptrace, 1001, 1000, TRACEHOST_PT_CONTINUE, 1001, 0);
    session.call(tracehost_turn, 1001, 100001, TRACEHOST_ENTER, TRACEHOST_EXEC, 0);
    reply = session.handle_with(1001, 1000, decide);
    CHECK(reply.decision == TRACEHOST_KILL && reply.code == execve);
    reply = session.handle_with(1001, 1000, decide);
    CHECK(reply.kind == TRACEHOST_STATUS && reply.status == 9);
    CHECK((seen == std::vector<uint32_t>{read, read, execve}));
    CHECK(session.handle_with(1001, 7, decide).error == 3);
}

static std::string text_of(const std::string &path)
{
    std::ifstream file(path);
    return std::string(std::istreambuf_iterator<char>(file), std::istreambuf_iterator<char>());
}

// The scenario is whole after each step, and moves with its session. A copy isn't recorded.
static void records()
{
    char folder[] = "/tmp/tracehost-cpp-XXXXXX";
    CHECK(mkdtemp(folder) != nullptr);
    const std::string scenario = std::string(folder) + "/s.json", lines = std::string(folder) + "/s.out";
    const std::string spawn = "{\"user\":1001,\"op\":\"spawn\"}", head = "{\"kill_on_debugger_exit\":0,\"steps\":[\n";
    tracehost_session session(false);
    session.record(scenario, lines);
    THROWS(std::errc::device_or_resource_busy, session.record(scenario));
    session.call(tracehost_spawn, 1001);
    tracehost_session moved(std::move(session)), copy = moved.copy();
    copy.call(tracehost_spawn, 1001);
    CHECK(moved.line("spawn").compare(0, 8, "refused ") == 0);
    CHECK(moved.line(spawn) == "1001 2 new 1001 100001" && moved.last_line() == "1001 2 new 1001 100001");
    // PT_TRACE_ME ignores the process and the data
    CHECK(moved.call(tracehost_ptrace, 1001, 1001, TRACEHOST_PT_TRACE_ME, 1001, 7).error == 1);
    const std::string trace_me = "{\"user\":1001,\"op\":\"ptrace\",\"caller\":1001,\"request\":\"PT_TRACE_ME\"}";
    CHECK(text_of(scenario) == head + spawn + ",\n" + spawn + ",\n" + trace_me + "\n]}\n");
    CHECK(text_of(lines) == "1001 1 new 1000 100000\n1001 2 new 1001 100001\n1001 3 error EPERM 1\n");
    THROWS(std::errc::device_or_resource_busy, moved.record(scenario));
    THROWS(std::errc::no_such_file_or_directory, tracehost_session().record("/nowhere/s.json"));

    // a step that can't be written ends the session, and the scenario is as before
    tracehost_session full;
    full.record(scenario, "/dev/full");
    THROWS(std::errc::no_space_on_device, full.call(tracehost_spawn, 1001));
    THROWS(std::errc::bad_file_descriptor, full.call(tracehost_spawn, 1001));
    CHECK(text_of(scenario) == "{\"kill_on_debugger_exit\":1,\"steps\":[\n]}\n");
    std::remove(scenario.c_str());
    std::remove(lines.c_str());
    rmdir(folder);
}

int main()
{
    replies();
    handlers();
    deciding();
    settings();
    copies();
    moves();
    records();
    threads();
    if (!failed)
        std::printf("the tests of tracehost.hpp passed\n");
    return failed;
}
