// A session of tracehost.h that closes itself, for C++11 and later.
//
//     tracehost_session session;
//     tracehost_reply debugger = session.call(tracehost_spawn, 1001), target = session.call(tracehost_spawn, 1001);
//     session.call(tracehost_ptrace, 1001, debugger.pid, TRACEHOST_PT_ATTACH, target.pid, 0);
//     session.call(tracehost_wait4, 1001, debugger.pid, -1, 0).status; // 17 * 256 + 127
//
// A session can be moved, also to another thread; one thread at a time may use it. `copy` copies it. What the model
// refuses is a reply too, TRACEHOST_ERROR. Where tracehost.h returns a code instead, std::system_error is thrown:
// bad_file_descriptor for NOT_OPEN (the session was moved away), invalid_argument for INVALID, value_too_large for
// TOO_MANY, and not_enough_memory.
#ifndef TRACEHOST_LIBRARY_HPP
#define TRACEHOST_LIBRARY_HPP

#include "tracehost.h"
#include "tracehost_explain.hpp"
#include "tracehost_record.hpp"

#include <cstdint>
#include <memory>
#include <string>
#include <system_error>
#include <type_traits>
#include <utility>

class tracehost_session {
public:
    explicit tracehost_session(bool kill_on_debugger_exit = true) : kills(kill_on_debugger_exit)
    {
        check(tracehost_open(kill_on_debugger_exit, &handle));
    }
    ~tracehost_session() { tracehost_close(&handle); }
    tracehost_session(tracehost_session &&other) noexcept : tracehost_session(unopened()) { swap(other); }
    tracehost_session &operator=(tracehost_session &&other) noexcept
    {
        tracehost_session moved(std::move(other));
        swap(moved);
        return *this;
    }

    // a session in the same state; both then go their own ways
    tracehost_session copy()
    {
        tracehost_session to{unopened()};
        to.kills = kills;
        check(tracehost_copy(&handle, &to.handle));
        return to;
    }

    // Keeps all steps, before the first one, in the file `scenario`, and their lines in the file `lines`, if it has a name. The
    // scenario is whole after each step: `tracehost scenario --expect lines` passes. Steps that are made by get() aren't kept.
    // std::system_error for a file that can't be made, and device_or_resource_busy after a step. If a step can't be written,
    // its call throws why, though it was made: the files are as before, and the session has ended.
    void record(const std::string &scenario, const std::string &lines = "")
    {
        if (recording || !last_line().empty())
            throw std::system_error(std::make_error_code(std::errc::device_or_resource_busy), scenario);
        const int file = tracehost_recording::opened(scenario);
        int lines_file = -1;
        try {
            lines_file = lines.empty() ? -1 : tracehost_recording::opened(lines);
        } catch (...) {
            close(file);
            throw;
        }
        record_in(file, lines_file);
    }

    // makes a call of tracehost.h, with these arguments between the session and the reply
    template <typename Call, typename... Arguments> tracehost_reply call(Call made, Arguments... arguments)
    {
        tracehost_reply reply;
        check(made(&handle, argument<Arguments>{arguments}..., &reply));
        if (recording)
            record_step();
        return reply;
    }

    // tracehost_handle. If the rules of the caller leave or decline the stop, a function decides. It gets the
    // reply of the stop, with the system call's number in `code`, and returns TRACEHOST_CONTINUE .. or such a decision with
    // the signal to pass on, `tracehost_session::passing(TRACEHOST_CONTINUE, 15)`. Then the request is made, which is a step
    // of its own; its reply is returned if it is an error. Else the reply is that of the stop, with that decision.
    template <typename Decide> tracehost_reply handle_with(uint32_t user, uint32_t caller, Decide decide)
    {
        tracehost_reply stop = call(tracehost_handle, user, caller);
        if (stop.kind != TRACEHOST_HANDLED || (stop.decision != TRACEHOST_LEAVE && stop.decision != TRACEHOST_DECLINE))
            return stop;
        const verdict made = decide(static_cast<const tracehost_reply &>(stop));
        stop.has_handler = stop.handler = 0;
        stop.decision = made.decision;
        stop.pass = made.pass;
        const uint32_t request = made.decision == TRACEHOST_CONTINUE ? TRACEHOST_PT_CONTINUE
                                 : made.decision == TRACEHOST_DETACH ? TRACEHOST_PT_DETACH
                                 : made.decision == TRACEHOST_KILL   ? TRACEHOST_PT_KILL
                                                                     : TRACEHOST_PT_TRACE_ME;
        if (request == TRACEHOST_PT_TRACE_ME) // the stop remains
            return stop;
        const tracehost_reply done = call(tracehost_ptrace, user, caller, request, stop.pid, made.pass);
        return done.kind == TRACEHOST_OK ? stop : done;
    }

    // what a function of handle_with returns: TRACEHOST_CONTINUE .. is one without a signal
    struct verdict {
        verdict(uint32_t made, uint32_t signal = 0) : decision(made), pass(signal) {}
        uint32_t decision, pass;
    };
    static verdict passing(uint32_t decision, uint32_t signal) { return verdict(decision, signal); }

    // makes the step of a line, and returns the line of its answer, without its line feed
    std::string line(const std::string &step)
    {
        std::size_t length = 0;
        const std::uint8_t *given = reinterpret_cast<const std::uint8_t *>(step.data());
        std::uint8_t answer[1];
        const uint32_t code = tracehost_line(&handle, false, given, step.size(), answer, 0, &length);
        if (code != TRACEHOST_NO_TEXT)
            check(code);
        if (recording)
            record_step();
        return last_line();
    }

    // the line of the last answer; empty before any
    std::string last_line()
    {
        std::string line = tracehost_refusals::line_of([this](std::uint8_t *room, std::size_t size, std::size_t *length) {
            const uint32_t code = tracehost_last_line(&handle, false, room, size, length);
            check(code);
            return code;
        });
        return line.empty() ? line : line.substr(0, line.size() - 1);
    }

    // Why the last step was answered by an errno, or held, in words: the call, the answer, and the condition that held. Empty
    // after another answer, and only the errno after a step that no line is (tracehost_last_step).
    std::string explain() { return tracehost_refusals::explanation(&handle); }

    // for tracehost_numbers and tracehost_view
    tracehost *get() noexcept { return &handle; }

    static void check(uint32_t code)
    {
        static const std::errc errors[] = {std::errc(), std::errc::bad_file_descriptor, std::errc::not_enough_memory,
            std::errc::invalid_argument, std::errc::not_enough_memory, std::errc::value_too_large};
        if (code != TRACEHOST_ANSWERED)
            throw std::system_error(std::make_error_code(errors[code]), "tracehost");
    }

protected:
    // records in files that are empty, and from now on the recording's
    void record_in(int scenario, int lines) { recording.reset(new tracehost_recording(scenario, lines, kills)); }
    std::unique_ptr<tracehost_recording> recording;
    // Called if a step can't be recorded. Without a function the session ends, and the error is thrown.
    void (*lose_record)(tracehost_session &, const std::system_error &) = nullptr;

private:
    void record_step()
    {
        const std::string step = tracehost_refusals::last_step(&handle);
        if (step.empty())
            return;
        try {
            recording->add(step, last_line());
        } catch (const std::system_error &error) {
            if (lose_record == nullptr) {
                tracehost_close(&handle);
                throw;
            }
            lose_record(*this, error);
            recording.reset();
        }
    }

    void swap(tracehost_session &other) noexcept
    {
        std::swap(handle, other.handle);
        std::swap(kills, other.kills);
        recording.swap(other.recording);
    }

    // a number of any type is converted to the call's, so that 0 and -1 may be given without a warning
    template <typename Given> struct argument {
        static_assert(!std::is_floating_point<Given>::value, "the calls have no argument with a fraction");
        Given given;
        template <typename Wanted> operator Wanted() const { return static_cast<Wanted>(given); }
    };

    struct unopened {};
    explicit tracehost_session(unopened) noexcept {}

    bool kills = true;
    tracehost handle = TRACEHOST_CLOSED;
};

#endif
