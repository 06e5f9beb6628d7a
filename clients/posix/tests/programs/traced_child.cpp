/* A debugger in C++.
 * natively: no
 * prints: x|3
 * schedules: 40 */
#include <sys/types.h>
#include <sys/ptrace.h>
#include <sys/wait.h>
#include <thread>
#include <mutex>
#include <condition_variable>
#include <vector>
#include <stdexcept>
#include <iostream>
#include <unistd.h>
#include <signal.h>
int main()
{
	try {
		throw std::runtime_error("x");
	} catch (std::exception &e) {
		std::cout << e.what() << "\n";
	}
	pid_t p = fork();
	if (p == 0) {
		ptrace(PT_TRACE_ME, 0, NULL, 0);
		raise(SIGSTOP);
		_exit(3);
	}
	int st;
	waitpid(p, &st, 0);
	ptrace(PT_CONTINUE, p, (caddr_t)1, 0);
	waitpid(p, &st, 0);
	std::cout << WEXITSTATUS(st) << std::endl;
	return 0;
}
