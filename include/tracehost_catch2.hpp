// A session for a test case of Catch2, version 2 or 3, which leaves its session if the test fails (tracehost_test.hpp). Include
// it in place of Catch2's header.
//
//     TEST_CASE("attaching stops the target")
//     {
//         tracehost_catch2 test;
//         test.call(tracehost_spawn, 1001);
//         CHECK(..);
//     }
#ifndef TRACEHOST_CATCH2_HPP
#define TRACEHOST_CATCH2_HPP

#include "tracehost_test.hpp"

#include <utility>
#include <vector>

#if __has_include(<catch2/catch_all.hpp>)
#include <catch2/catch_all.hpp>
using tracehost_catch2_listener_base = Catch::EventListenerBase;
#else
#define CATCH_CONFIG_EXTERNAL_INTERFACES
#include <catch2/catch.hpp>
using tracehost_catch2_listener_base = Catch::TestEventListenerBase;
#endif

class tracehost_catch2 : public tracehost_test {
public:
    explicit tracehost_catch2(
        const std::string &name = Catch::getResultCapture().getCurrentTestName(), bool kill_on_debugger_exit = true)
        : tracehost_test(name, kill_on_debugger_exit)
    {
        open().push_back(this);
    }
    ~tracehost_catch2() { open().erase(std::find(open().begin(), open().end(), this)); }

    // the sessions of the test case
    static std::vector<tracehost_catch2 *> &open()
    {
        static std::vector<tracehost_catch2 *> sessions;
        return sessions;
    }
};

namespace {

// It is registered in each source that includes this file; a session keeps the first failure that it is told.
class tracehost_catch2_listener : public tracehost_catch2_listener_base {
public:
    using tracehost_catch2_listener_base::tracehost_catch2_listener_base;

    // a bool in version 2
    decltype(std::declval<tracehost_catch2_listener_base &>().assertionEnded(std::declval<const Catch::AssertionStats &>()))
    assertionEnded(const Catch::AssertionStats &stats) override
    {
        const Catch::AssertionResult &result = stats.assertionResult;
        if (!result.isOk())
            for (tracehost_catch2 *session : tracehost_catch2::open())
                session->fail(result.getExpressionInMacro() + "\n" + result.getExpandedExpression(), result.getSourceInfo().file,
                    static_cast<int>(result.getSourceInfo().line));
        return tracehost_catch2_listener_base::assertionEnded(stats);
    }
};

CATCH_REGISTER_LISTENER(tracehost_catch2_listener)

} // namespace

#endif
