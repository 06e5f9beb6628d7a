// Makes the steps of standard input, a line each, and prints the line of each answer. The line of one that was refused is
// followed by a line that says why.
//
//     explain 0|1 < STEPS
//
// The number is the setting of kern.kill_on_debugger_exit.
#include <tracehost.hpp>

#include <iostream>

int main(int, char **argv)
{
    tracehost_session session(argv[1][0] == '1');
    std::string step;
    while (std::getline(std::cin, step)) {
        std::cout << session.line(step) << '\n';
        const std::string why = session.explain();
        if (!why.empty())
            std::cout << "  " << why << '\n';
    }
}
