// Test cases of Catch2, version 2 or 3, in the ways that their names say. tests/python/test_failed_tests.py looks at what
// they leave.
#define CATCH_CONFIG_MAIN // of version 2; version 3 has its main in a library
#include <tracehost_catch2.hpp>

#include "failing.hpp"

#include <stdexcept>

TEST_CASE("passes")
{
    tracehost_catch2 test;
    CHECK(signal_after_step(test) == sigsegv);
}

TEST_CASE("fails")
{
    tracehost_catch2 test;
    CHECK(signal_after_step(test) == sigtrap);
}

// The page is of the step at which it failed, and not of the last one.
TEST_CASE("goes on")
{
    tracehost_catch2 test;
    CHECK(signal_after_step(test) == sigtrap);
    test.call(tracehost_spawn, 1001);
    CHECK(1 == 2);
}

TEST_CASE("requires")
{
    tracehost_catch2 test;
    REQUIRE(signal_after_step(test) == sigtrap);
}

TEST_CASE("throws")
{
    tracehost_catch2 test;
    signal_after_step(test);
    throw std::runtime_error("the debugger is lost");
}

// Each section is a run of its own, with a session of its own.
TEST_CASE("sections")
{
    tracehost_catch2 test;
    SECTION("one") { CHECK(signal_after_step(test) == sigtrap); }
    SECTION("two") { CHECK(signal_after_step(test) == sigsegv); }
    SECTION("three") { CHECK(signal_after_step(test) == sigtrap); }
}

// A check that may fail isn't a failure.
TEST_CASE("may fail")
{
    tracehost_catch2 test;
    CHECK_NOFAIL(signal_after_step(test) == sigtrap);
}

TEST_CASE("steps")
{
    tracehost_catch2 test;
    CHECK(make_steps(test) == 0);
}
