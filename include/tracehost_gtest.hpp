// A session for a test of GoogleTest, which leaves its session if the test fails (tracehost_test.hpp). It is in the test's
// function or its fixture:
//
//     TEST(debugger, attaches)
//     {
//         tracehost_gtest test;
//         test.call(tracehost_spawn, 1001);
//         EXPECT_EQ(..);
//     }
#ifndef TRACEHOST_GTEST_HPP
#define TRACEHOST_GTEST_HPP

#include "tracehost_test.hpp"

#include <gtest/gtest.h>

class tracehost_gtest : public tracehost_test, private testing::EmptyTestEventListener {
public:
    explicit tracehost_gtest(const std::string &name = name_of_test(), bool kill_on_debugger_exit = true)
        : tracehost_test(name, kill_on_debugger_exit)
    {
        testing::UnitTest::GetInstance()->listeners().Append(this);
    }
    ~tracehost_gtest() override
    {
        testing::UnitTest::GetInstance()->listeners().Release(this);
        if (testing::Test::HasFailure())
            fail("a check failed before the session began");
    }

    // SUITE.TEST
    static std::string name_of_test()
    {
        const testing::TestInfo *info = testing::UnitTest::GetInstance()->current_test_info();
        return info == nullptr ? "session" : std::string(info->test_suite_name()) + "." + info->name();
    }

private:
    void OnTestPartResult(const testing::TestPartResult &result) override
    {
        if (result.failed())
            fail(result.summary(), result.file_name(), result.line_number());
    }
};

#endif
