/* An atomic that another thread waits for, a latch and a thread that is asked to stop: C++20.
 * flags: -std=c++20
 * prints: 3 1
 * schedules: 40 */
#include <atomic>
#include <cstdio>
#include <latch>
#include <thread>
int main()
{
	std::atomic<int> value = 0;
	std::latch latch(2);
	bool stopped = false;
	std::thread waiter([&] {
		value.wait(0);
		value++;
		latch.count_down();
	});
	std::jthread other([&](std::stop_token token) {
		latch.count_down();
		while (!token.stop_requested())
			std::this_thread::yield();
		stopped = true;
	});
	value = 2;
	value.notify_all();
	latch.wait();
	waiter.join();
	other.request_stop();
	other.join();
	std::printf("%d %d\n", value.load(), stopped);
	return 0;
}
