/* An exception, and a child.
 * prints: x|3
 * schedules: 40 */
#include <iostream>
#include <unistd.h>
#include <sys/wait.h>
#include <signal.h>
#include <stdexcept>
int main()
{
	try {
		throw std::runtime_error("x");
	} catch (std::exception &e) {
		std::cout << e.what() << "\n";
	}
	pid_t p = fork();
	if (!p)
		_exit(3);
	int st;
	waitpid(p, &st, 0);
	std::cout << WEXITSTATUS(st) << std::endl;
	return 0;
}
