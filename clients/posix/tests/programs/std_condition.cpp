/* Conditions, sleeps, thread locals and futures of the C++ library.
 * prints: 4 7 */
#include <condition_variable>
#include <mutex>
#include <thread>
#include <chrono>
#include <future>
#include <atomic>
#include <cstdio>
static std::mutex m;
static std::condition_variable c;
static bool go;
static int done;
static void worker()
{
	std::unique_lock<std::mutex> l(m);
	c.wait(l, [] { return go; });
	done++;
	c.notify_all();
}
struct Tls {
	~Tls()
	{
		std::lock_guard<std::mutex> g(m);
		done++;
	}
};
static thread_local Tls tls;
int main()
{
	std::thread a(worker), b(worker);
	{
		std::lock_guard<std::mutex> g(m);
		go = true;
	}
	c.notify_all();
	{
		std::unique_lock<std::mutex> l(m);
		if (!c.wait_for(l, std::chrono::seconds(5), [] { return done == 2; }))
			return 1;
	}
	a.join();
	b.join();
	std::thread d([] {
		(void)&tls;
		std::this_thread::sleep_for(std::chrono::milliseconds(200));
	});
	d.join();
	auto f = std::async(std::launch::async, [] {
		std::this_thread::sleep_for(std::chrono::milliseconds(10));
		return 7;
	});
	int r = f.get();
	try {
		std::thread t([] {
			try {
				throw 1;
			} catch (int) {
				done++;
			}
		});
		t.join();
	} catch (...) {
		return 2;
	}
	std::printf("%d %d\n", done, r);
	return done == 4 && r == 7 ? 0 : 3;
}
