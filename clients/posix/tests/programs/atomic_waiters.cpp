/* Threads that wait for an atomic together, until the last one of them comes: C++20.
 * flags: -std=c++20
 * prints: 3 3 3
 * schedules: 40 */
#include <atomic>
#include <cstdio>
#include <thread>
#include <vector>
int main()
{
	enum { THREADS = 3 };
	std::atomic<int> arrived = 0;
	std::vector<int> seen(THREADS);
	std::vector<std::jthread> threads;
	for (int &place : seen)
		threads.emplace_back([&arrived, &place] {
			arrived++;
			arrived.notify_all();
			for (int now; (now = arrived) < THREADS;)
				arrived.wait(now);
			place = arrived;
		});
	threads.clear();
	std::printf("%d %d %d\n", seen[0], seen[1], seen[2]);
	return 0;
}
