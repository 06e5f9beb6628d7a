// Tests of GoogleTest in the ways that their names say. tests/python/test_failed_tests.py looks at what they leave.
#include <tracehost_gtest.hpp>

#include "failing.hpp"

#include <atomic>
#include <stdexcept>
#include <thread>

TEST(debugger, passes)
{
    tracehost_gtest test;
    EXPECT_EQ(signal_after_step(test), sigsegv);
}

TEST(debugger, fails)
{
    tracehost_gtest test;
    EXPECT_EQ(signal_after_step(test), sigtrap);
}

// The page is of the step at which it failed, and not of the last one.
TEST(debugger, goes_on)
{
    tracehost_gtest test;
    EXPECT_EQ(signal_after_step(test), sigtrap);
    test.call(tracehost_spawn, 1001);
    EXPECT_EQ(1, 2);
}

TEST(debugger, asserts)
{
    tracehost_gtest test;
    ASSERT_EQ(signal_after_step(test), sigtrap);
}

TEST(debugger, throws)
{
    tracehost_gtest test;
    signal_after_step(test);
    throw std::runtime_error("the debugger is lost");
}

// The replies are printed in words.
TEST(debugger, compares_replies)
{
    tracehost_gtest test;
    signal_after_step(test);
    EXPECT_EQ(tracehost_words(test.call(tracehost_turn, 1001, 100001, TRACEHOST_COMPUTE, 0, 0)), "ok");
    EXPECT_EQ(tracehost_words(test.call(tracehost_ptrace, 1001, 1000, TRACEHOST_PT_ATTACH, 1234, 0)), "ok");
    EXPECT_TRUE(false) << test.call(tracehost_kill, 1001, 1000, 1001, 9) << ", " << test.call(tracehost_wait4, 1001, 1000, -1, 0);
}

// The check of another object comes before the session.
TEST(debugger, failed_before)
{
    EXPECT_EQ(1, 2);
    tracehost_gtest test;
    signal_after_step(test);
}

class fixture : public testing::Test {
protected:
    tracehost_gtest session;
};

TEST_F(fixture, fails) { EXPECT_EQ(signal_after_step(session), sigtrap); }

TEST_F(fixture, passes) { EXPECT_EQ(signal_after_step(session), sigsegv); }

TEST(debugger, dies)
{
    tracehost_gtest test;
    EXPECT_EQ(signal_after_step(test), sigsegv);
    EXPECT_DEATH(test.call(tracehost_spawn, 1001), ""); // it doesn't, and the child leaves nothing
}

// A check fails in another thread while the session makes steps.
TEST(debugger, fails_in_a_thread)
{
    tracehost_gtest test;
    std::atomic<bool> is_done{false};
    std::thread other([&] {
        EXPECT_EQ(1, 2);
        is_done = true;
    });
    while (!is_done)
        signal_after_step(test);
    other.join();
}

TEST(debugger, steps)
{
    tracehost_gtest test;
    EXPECT_EQ(make_steps(test), 0);
}

class numbered : public testing::TestWithParam<int> {};

TEST_P(numbered, fails)
{
    tracehost_gtest test;
    EXPECT_EQ(signal_after_step(test), sigtrap) << GetParam();
}

INSTANTIATE_TEST_SUITE_P(all, numbered, testing::Range(0, 3));
