// Why a session's last step was answered by an errno, or held: tracehost_session::explain, for C++11 and later.
//
// A call has conditions, in order; the first that holds gives the answer. The user's rows decide which one it was. The
// tables are made from format/refusals.toml.
#ifndef TRACEHOST_EXPLAIN_HPP
#define TRACEHOST_EXPLAIN_HPP

#include "tracehost.h"

#include <algorithm>
#include <cstdint>
#include <cstdlib>
#include <cstring>
#include <string>
#include <utility>
#include <vector>

namespace tracehost_refusals {

// the line that a call of tracehost.h stores; empty if it returns another code
template <typename Store> std::string line_of(Store store)
{
    std::string room(256, '\0');
    std::size_t length = 0;
    while (store(reinterpret_cast<std::uint8_t *>(&room[0]), room.size(), &length) == TRACEHOST_ANSWERED) {
        const bool fits = length <= room.size();
        room.resize(length);
        if (fits)
            return room;
    }
    return "";
}

// tools/format sets
inline bool passes_signal(std::int64_t request) { return request == 7 || request == 9 || request == 20 || request == 21 || request == 22 || request == 11; }
inline bool takes_data(std::int64_t request) { return request == 7 || request == 9 || request == 20 || request == 21 || request == 22 || request == 11 || request == 23 || request == 24 || request == 15; }
// end

// A step that was made, by its line, as tracehost_last_step stores it: a JSON object without spaces.
class asked {
public:
    explicit asked(std::string given) : line(std::move(given)), op(text("op"))
    {
        user = number("user");
        caller = number("caller");
        target = number("target");
        which = op == "handle" ? -1 : number("which");
        lwp = number("lwp");
        data = number("data");
        signal = op == "ptrace" ? data : number("signal");
        request = op == "ptrace" ? request_named(text("request")) : -1;
        act = place(text("act"), {"compute", "raise", "block", "enter", "leave"});
        action = place(text("action"), {"default", "ignore", "catch"});
    }

    // an argument, as a person writes it
    std::string word(const std::string &name) const
    {
        if (name == "signal")
            return signal_name(signal);
        if (name == "data")
            return data == 0 || !takes_data(request) ? "" : ", " + (passes_signal(request) ? signal_name(data) : std::to_string(data));
        if (name == "act")
            return text("act") + (act == 1 ? " " + signal_name(signal) : act == 3 ? " " + text("call") : "");
        if (name == "rules")
            return rules() + (rules() == "1" ? " rule" : " rules");
        return name == "request" || name == "action" ? text(name) : std::to_string(number(name));
    }

    std::string line, op;
    std::int64_t user, caller, target, which, lwp, signal, data, request, act, action;
    std::int64_t unnamed = 0; // a line has names of events

    // a number that is no signal as it was given: -1 is sent as 4294967295
    static std::string signal_name(std::int64_t number)
    {
        // tools/format signals
        static const char *const names[] = {
            "SIGHUP", "SIGINT", "SIGQUIT", "SIGILL", "SIGTRAP", "SIGABRT", "SIGEMT", "SIGFPE", "SIGKILL", "SIGBUS",
            "SIGSEGV", "SIGSYS", "SIGPIPE", "SIGALRM", "SIGTERM", "SIGURG", "SIGSTOP", "SIGTSTP", "SIGCONT",
            "SIGCHLD", "SIGTTIN", "SIGTTOU", "SIGIO", "SIGXCPU", "SIGXFSZ", "SIGVTALRM", "SIGPROF", "SIGWINCH",
            "SIGINFO", "SIGUSR1", "SIGUSR2"
        };
        // end
        if (number >= 1 && number <= TRACEHOST_LAST_SIGNAL)
            return names[number - 1];
        return std::to_string(static_cast<std::int32_t>(number));
    }

private:
    // where the value of a key begins; npos if there is none
    std::size_t find(const std::string &key) const
    {
        const std::size_t at = line.find("\"" + key + "\":");
        return at == std::string::npos ? at : at + key.size() + 3;
    }

    std::int64_t number(const std::string &key) const
    {
        const std::size_t at = find(key);
        return at == std::string::npos ? 0 : std::strtoll(line.c_str() + at, nullptr, 10);
    }

    std::string text(const std::string &key) const
    {
        const std::size_t at = find(key);
        return at == std::string::npos ? "" : line.substr(at + 1, line.find('"', at + 1) - at - 1);
    }

    std::string rules() const
    {
        std::size_t count = 0;
        for (std::size_t at = line.find("\"decision\""); at != std::string::npos; at = line.find("\"decision\"", at + 1))
            count++;
        return std::to_string(count);
    }

    static std::int64_t place(const std::string &name, const std::vector<std::string> &names)
    {
        const auto found = std::find(names.begin(), names.end(), name);
        return found == names.end() ? 0 : found - names.begin();
    }

    static std::int64_t request_named(const std::string &name);
};

// A user's rows. What is asked of a process or an LWP that isn't there is 0 or false.
class rows {
public:
    rows(tracehost *session, std::uint32_t user)
    {
        std::size_t processes_length = 0, lwps_length = 0;
        while (tracehost_view(session, user, process_rows.data(), process_rows.size(), lwp_rows.data(), lwp_rows.size(),
                   &processes_length, &lwps_length) == TRACEHOST_ANSWERED &&
               (processes_length != process_rows.size() || lwps_length != lwp_rows.size())) {
            process_rows.resize(processes_length);
            lwp_rows.resize(lwps_length);
        }
    }

    std::int64_t processes() const { return static_cast<std::int64_t>(process_rows.size()); }
    std::int64_t lwps() const { return static_cast<std::int64_t>(lwp_rows.size()); }
    // the process that a target of ptrace(2) names, by its number or an LWP's
    std::int64_t process_of(std::int64_t number) const { return number <= TRACEHOST_LAST_PROCESS ? process(number).pid : owner(number); }
    std::int64_t state(std::int64_t pid) const { return process(pid).state; }
    std::int64_t parent(std::int64_t pid) const { return process(pid).parent; }
    std::int64_t tracer(std::int64_t pid) const { return process(pid).tracer; }
    bool was_told(std::int64_t pid) const { return process(pid).told != 0; }
    bool is_live(std::int64_t pid) const { return process(pid).pid != 0 && process(pid).state != zombie; }
    std::int64_t owner(std::int64_t number) const { return lwp(number).pid; }
    std::int64_t mode(std::int64_t number) const { return lwp(number).mode; }
    bool is_suspended(std::int64_t number) const { return lwp(number).suspended != 0; }
    // the call that it is in; -1 for none
    std::int64_t call_of(std::int64_t number) const { return mode(number) == in_call ? std::int64_t(lwp(number).call) : -1; }

    // directly or through others
    bool traces(std::int64_t by, std::int64_t pid) const
    {
        for (std::size_t i = 0; i < process_rows.size(); i++) {
            pid = tracer(pid);
            if (pid == 0 || pid == by)
                break;
        }
        return pid != 0 && pid == by;
    }

    // has a child, or traces a process, that `which` names
    bool has_child(std::int64_t caller, std::int64_t which) const
    {
        return std::any_of(process_rows.begin(), process_rows.end(), [=](const tracehost_process &row) {
            return (which == -1 || row.pid == which) && (row.parent == caller || row.tracer == caller);
        });
    }

private:
    enum { zombie = 3, in_call = 1 };

    const tracehost_process &process(std::int64_t pid) const
    {
        static const tracehost_process none{};
        const auto found = std::find_if(
            process_rows.begin(), process_rows.end(), [=](const tracehost_process &row) { return row.pid == pid; });
        return found == process_rows.end() ? none : *found;
    }

    const tracehost_lwp &lwp(std::int64_t number) const
    {
        static const tracehost_lwp none{};
        const auto found =
            std::find_if(lwp_rows.begin(), lwp_rows.end(), [=](const tracehost_lwp &row) { return row.lwp == number; });
        return found == lwp_rows.end() ? none : *found;
    }

    std::vector<tracehost_process> process_rows;
    std::vector<tracehost_lwp> lwp_rows;
};

struct condition {
    const char *answer, *words;
    bool (*possible)(const asked &); // what the arguments say of it
    bool (*holds)(const asked &, const rows &);
};

struct call {
    std::string op;
    std::int64_t request; // -1 for any
    std::string text;
    std::vector<const condition *> order;
};

inline const std::vector<call> &calls()
{
    // tools/format conditions
    static const condition caller_gone = {"ESRCH", "{caller} isn't a live process of user {user}",
        [](const asked &) { return true; },
        [](const asked &a, const rows &r) { return !r.is_live(a.caller); }};
    static const condition caller_in_trace_stop = {"held", "{caller} is in a trace stop",
        [](const asked &) { return true; },
        [](const asked &a, const rows &r) { return r.state(a.caller) == 1; }};
    static const condition caller_in_job_stop = {"held", "a stop signal has stopped {caller}",
        [](const asked &) { return true; },
        [](const asked &a, const rows &r) { return r.state(a.caller) == 2; }};
    static const condition no_number_of_lwp = {"ESRCH", "{lwp} is no LWP, whose numbers begin at 100000",
        [](const asked &a) { return a.lwp <= 99999; },
        [](const asked &, const rows &) { return true; }};
    static const condition lwp_gone = {"ESRCH", "user {user} has no LWP {lwp}",
        [](const asked &a) { return a.lwp > 99999; },
        [](const asked &a, const rows &r) { return r.owner(a.lwp) == 0; }};
    static const condition lwp_in_trace_stop = {"held", "the process of LWP {lwp} is in a trace stop",
        [](const asked &) { return true; },
        [](const asked &a, const rows &r) { return r.state(r.owner(a.lwp)) == 1; }};
    static const condition lwp_in_job_stop = {"held", "a stop signal has stopped the process of LWP {lwp}",
        [](const asked &) { return true; },
        [](const asked &a, const rows &r) { return r.state(r.owner(a.lwp)) == 2; }};
    static const condition lwp_suspended = {"held", "PT_SUSPEND holds LWP {lwp}",
        [](const asked &) { return true; },
        [](const asked &a, const rows &r) { return r.is_suspended(a.lwp); }};
    static const condition lwp_waits = {"held", "LWP {lwp} waits for the child of its vfork",
        [](const asked &) { return true; },
        [](const asked &a, const rows &r) { return r.mode(a.lwp) == 2; }};
    static const condition no_groups = {"EINVAL", "which is {which}, and there are no process groups",
        [](const asked &a) { return a.which == 0 || a.which < -1; },
        [](const asked &, const rows &) { return true; }};
    static const condition no_child = {"ECHILD", "{caller} has no child and traces no process",
        [](const asked &a) { return a.which == -1; },
        [](const asked &a, const rows &r) { return !r.has_child(a.caller, -1); }};
    static const condition no_child_of_number = {"ECHILD", "{which} is neither a child of {caller} nor traced by it",
        [](const asked &a) { return a.which != -1; },
        [](const asked &a, const rows &r) { return !r.has_child(a.caller, a.which); }};
    static const condition no_signal_to_post = {"EINVAL", "{signal} is no signal",
        [](const asked &a) { return !(0 <= a.signal && a.signal <= 31); },
        [](const asked &, const rows &) { return true; }};
    static const condition no_other_process = {"ESRCH", "user {user} has no process except {caller}",
        [](const asked &a) { return a.which == -1; },
        [](const asked &, const rows &r) { return r.processes() == 1; }};
    static const condition process_gone = {"ESRCH", "user {user} has no process {which}",
        [](const asked &a) { return a.which != -1; },
        [](const asked &a, const rows &r) { return a.which > 99999 || r.process_of(a.which) == 0; }};
    static const condition no_signal = {"EINVAL", "{signal} is no signal",
        [](const asked &a) { return !(1 <= a.signal && a.signal <= 31); },
        [](const asked &, const rows &) { return true; }};
    static const condition fixed_signal = {"EINVAL", "{signal} can be neither caught nor ignored",
        [](const asked &a) { return (a.signal == 9 || a.signal == 17) && a.action != 0; },
        [](const asked &, const rows &) { return true; }};
    static const condition most_handlers = {"EAGAIN", "user {user} has 64 stop handlers",
        [](const asked &) { return true; },
        [](const asked &, const rows &) { return true; }};
    static const condition in_no_call = {"EINVAL", "LWP {lwp} is in no system call",
        [](const asked &a) { return a.act == 4; },
        [](const asked &a, const rows &r) { return r.mode(a.lwp) != 1; }};
    static const condition in_a_call = {"EINVAL", "LWP {lwp} is in a system call, which it has to leave first",
        [](const asked &a) { return a.act != 4; },
        [](const asked &a, const rows &r) { return r.mode(a.lwp) == 1; }};
    static const condition no_signal_to_raise = {"EINVAL", "{signal} is no signal",
        [](const asked &a) { return a.act == 1 && !(1 <= a.signal && a.signal <= 31); },
        [](const asked &, const rows &) { return true; }};
    static const condition most_processes = {"EAGAIN", "user {user} has 250 processes",
        [](const asked &a) { return a.lwp == 0 || a.act == 4; },
        [](const asked &a, const rows &r) { return r.processes() >= 250 && (a.lwp == 0 || r.call_of(a.lwp) == 0 || r.call_of(a.lwp) == 1); }};
    static const condition most_lwps = {"EAGAIN", "user {user} has 1000 LWPs",
        [](const asked &a) { return a.lwp == 0 || a.act == 4; },
        [](const asked &a, const rows &r) { return r.lwps() >= 1000 && (a.lwp == 0 || r.call_of(a.lwp) == 0 || r.call_of(a.lwp) == 1 || r.call_of(a.lwp) == 3); }};
    static const condition no_memory = {"ENOMEM", "no memory is left",
        [](const asked &) { return true; },
        [](const asked &, const rows &) { return true; }};
    static const condition caller_traced = {"EBUSY", "{caller} is traced already",
        [](const asked &) { return true; },
        [](const asked &a, const rows &r) { return r.tracer(a.caller) != 0; }};
    static const condition parent_is_1 = {"EPERM", "the parent of {caller} is process 1",
        [](const asked &) { return true; },
        [](const asked &a, const rows &r) { return r.parent(a.caller) == 1; }};
    static const condition traces_its_parent = {"EINVAL", "{caller} traces its parent, directly or through others",
        [](const asked &) { return true; },
        [](const asked &a, const rows &r) { return r.traces(a.caller, r.parent(a.caller)); }};
    static const condition target_is_0 = {"ESRCH", "the target is 0, which is no process",
        [](const asked &a) { return a.target == 0; },
        [](const asked &, const rows &) { return true; }};
    static const condition target_process_gone = {"ESRCH", "user {user} has no process {target}",
        [](const asked &a) { return a.target != 0 && a.target <= 99999; },
        [](const asked &a, const rows &r) { return r.process_of(a.target) == 0; }};
    static const condition target_lwp_gone = {"ESRCH", "user {user} has no LWP {target}",
        [](const asked &a) { return a.target > 99999; },
        [](const asked &a, const rows &r) { return r.process_of(a.target) == 0; }};
    static const condition target_ended = {"ESRCH", "{target} has ended",
        [](const asked &) { return true; },
        [](const asked &a, const rows &r) { return r.state(r.process_of(a.target)) == 3; }};
    static const condition traces_itself = {"EINVAL", "a process can't trace itself",
        [](const asked &) { return true; },
        [](const asked &a, const rows &r) { return r.process_of(a.target) == a.caller; }};
    static const condition traced_already = {"EBUSY", "{target} is traced already",
        [](const asked &) { return true; },
        [](const asked &a, const rows &r) { return r.tracer(r.process_of(a.target)) != 0; }};
    static const condition traces_the_caller = {"EINVAL", "{target} traces {caller}, directly or through others",
        [](const asked &) { return true; },
        [](const asked &a, const rows &r) { return r.traces(r.process_of(a.target), a.caller); }};
    static const condition not_traced = {"EPERM", "{target} isn't traced",
        [](const asked &) { return true; },
        [](const asked &a, const rows &r) { return r.tracer(r.process_of(a.target)) == 0; }};
    static const condition traced_by_another = {"EBUSY", "another process traces {target}",
        [](const asked &) { return true; },
        [](const asked &a, const rows &r) { return r.tracer(r.process_of(a.target)) != a.caller; }};
    static const condition in_no_stop = {"EBUSY", "{target} is in no trace stop",
        [](const asked &) { return true; },
        [](const asked &a, const rows &r) { return r.state(r.process_of(a.target)) != 1; }};
    static const condition stop_not_told = {"EBUSY", "no wait has reported the stop of {target}",
        [](const asked &) { return true; },
        [](const asked &a, const rows &r) { return !r.was_told(r.process_of(a.target)); }};
    static const condition no_signal_to_pass = {"EINVAL", "{signal} is no signal",
        [](const asked &a) { return (a.request == 7 || a.request == 9 || a.request == 20 || a.request == 21 || a.request == 22 || a.request == 11) && !(0 <= a.data && a.data <= 31); },
        [](const asked &, const rows &) { return true; }};
    static const condition no_count = {"EINVAL", "data is 0, and has to be how many LWPs to list",
        [](const asked &a) { return a.request == 15 && a.data == 0; },
        [](const asked &, const rows &) { return true; }};
    static const condition unnamed_events = {"EINVAL", "the mask's {unnamed} is no event",
        [](const asked &a) { return a.request == 26 && a.unnamed != 0; },
        [](const asked &, const rows &) { return true; }};
    static const std::vector<call> made = {
        {"spawn", -1, "spawn() by user {user}", {&most_processes, &most_lwps, &no_memory}},
        {"list", -1, "list() by {caller}", {&caller_gone, &caller_in_trace_stop, &caller_in_job_stop, &no_memory}},
        {"wait4", -1, "wait4({which}) by {caller}", {&caller_gone, &caller_in_trace_stop, &caller_in_job_stop, &no_groups, &no_child, &no_child_of_number}},
        {"handle", -1, "handle() by {caller}", {&caller_gone, &caller_in_trace_stop, &caller_in_job_stop, &no_child}},
        {"kill", -1, "kill({which}, {signal}) by {caller}", {&caller_gone, &caller_in_trace_stop, &caller_in_job_stop, &no_signal_to_post, &no_groups, &no_other_process, &process_gone}},
        {"sigaction", -1, "sigaction({signal}, {action}) by {caller}", {&caller_gone, &caller_in_trace_stop, &caller_in_job_stop, &no_signal, &fixed_signal}},
        {"install", -1, "install({rules}) by {caller}", {&caller_gone, &caller_in_trace_stop, &caller_in_job_stop, &most_handlers, &no_memory}},
        {"turn", -1, "turn({lwp}, {act}) by user {user}", {&no_number_of_lwp, &lwp_gone, &lwp_in_trace_stop, &lwp_in_job_stop, &lwp_suspended, &lwp_waits, &in_no_call, &in_a_call, &no_signal_to_raise, &most_processes, &most_lwps, &no_memory}},
        {"ptrace", 0, "ptrace(PT_TRACE_ME) by {caller}", {&caller_gone, &caller_in_trace_stop, &caller_in_job_stop, &caller_traced, &parent_is_1, &traces_its_parent}},
        {"ptrace", 10, "ptrace({request}, {target}{data}) by {caller}", {&caller_gone, &caller_in_trace_stop, &caller_in_job_stop, &target_is_0, &target_process_gone, &target_lwp_gone, &target_ended, &traces_itself, &traced_already, &traces_the_caller}},
        {"ptrace", -1, "ptrace({request}, {target}{data}) by {caller}", {&caller_gone, &caller_in_trace_stop, &caller_in_job_stop, &target_is_0, &target_process_gone, &target_lwp_gone, &target_ended, &not_traced, &traced_by_another, &in_no_stop, &stop_not_told, &no_signal_to_pass, &no_count, &unnamed_events, &no_memory}},
    };
    // end
    return made;
}

inline std::int64_t asked::request_named(const std::string &name)
{
    // tools/format requests
    static const std::vector<std::pair<std::string, std::int64_t>> requests = {
        {"PT_TRACE_ME", 0}, {"PT_ATTACH", 10}, {"PT_CONTINUE", 7}, {"PT_STEP", 9}, {"PT_TO_SCE", 20},
        {"PT_TO_SCX", 21}, {"PT_SYSCALL", 22}, {"PT_DETACH", 11}, {"PT_KILL", 8}, {"PT_SUSPEND", 18},
        {"PT_RESUME", 19}, {"PT_SET_EVENT_MASK", 26}, {"PT_GET_EVENT_MASK", 25}, {"PT_FOLLOW_FORK", 23},
        {"PT_LWP_EVENTS", 24}, {"PT_LWPINFO", 13}, {"PT_GETNUMLWPS", 14}, {"PT_GETLWPLIST", 15},
    };
    // end
    for (const auto &request : requests)
        if (request.first == name)
            return request.second;
    return -1;
}

// words with arguments in place of their names in braces
inline std::string filled(const std::string &words, const asked &a)
{
    std::string text;
    std::size_t at = 0;
    for (std::size_t open = words.find('{'); open != std::string::npos; open = words.find('{', at)) {
        const std::size_t close = words.find('}', open);
        text += words.substr(at, open - at) + a.word(words.substr(open + 1, close - open - 1));
        at = close + 1;
    }
    return text + words.substr(at);
}

// the errno of the last answer, or `held`; empty for another answer
inline std::string last_refusal(tracehost *session)
{
    const std::string line = line_of([=](std::uint8_t *room, std::size_t size, std::size_t *length) {
        return tracehost_last_line(session, false, room, size, length);
    });
    const std::size_t held = line.find(" held\n"), error = line.find(" error ");
    if (held != std::string::npos)
        return "held";
    return error == std::string::npos ? "" : line.substr(error + 7, line.rfind(' ') - error - 7);
}

// the line of the last step; empty if it has none
inline std::string last_step(tracehost *session)
{
    return line_of([=](std::uint8_t *room, std::size_t size, std::size_t *length) {
        return tracehost_last_step(session, room, size, length);
    });
}

inline std::string explanation(tracehost *session)
{
    const std::string answer = last_refusal(session);
    const asked a(last_step(session));
    if (answer.empty() || a.line.empty())
        return answer;
    const auto made = std::find_if(calls().begin(), calls().end(),
        [&](const call &row) { return row.op == a.op && (row.request == -1 || row.request == a.request); });
    const rows r(session, static_cast<std::uint32_t>(a.user));
    std::string why;
    for (const condition *row : made->order)
        if (why.empty() && row->answer == answer && row->possible(a) && row->holds(a, r))
            why = ", " + filled(row->words, a);
    return filled(made->text, a) + ": " + answer + why;
}

} // namespace tracehost_refusals

#endif
