/* std::thread and std::mutex.
 * prints: 20
 * schedules: 40 */
#include <thread>
#include <mutex>
#include <iostream>
#include <unistd.h>
#include <sys/wait.h>
std::mutex m;
int n;
int main()
{
	std::thread a([] {
		for (int i = 0; i < 10; i++) {
			std::lock_guard<std::mutex> g(m);
			n++;
			getpid();
		}
	});
	std::thread b([] {
		for (int i = 0; i < 10; i++) {
			std::lock_guard<std::mutex> g(m);
			n++;
			getpid();
		}
	});
	a.join();
	b.join();
	std::cout << n << std::endl;
	return n != 20;
}
