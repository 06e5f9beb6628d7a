/* While a process is stopped none of its threads goes on, neither in locks nor in looks at the clock: its debugger reads
 * the same value twice, and so does a parent that has sent SIGSTOP, by shared memory.
 * natively: no
 * schedules: 150 */
#include <sys/types.h>
#include <sys/mman.h>
#include <sys/ptrace.h>
#include <sys/wait.h>
#include <pthread.h>
#include <signal.h>
#include <stdlib.h>
#include <time.h>
#include <unistd.h>
static volatile int *counter;
static pthread_mutex_t mutex = PTHREAD_MUTEX_INITIALIZER;
static void *count_up(void *given)
{
	struct timespec now;

	for (int i = 0; i < 100; i++) {
		pthread_mutex_lock(&mutex);
		(*counter)++;
		pthread_mutex_unlock(&mutex);
		clock_gettime(CLOCK_MONOTONIC, &now);
		(*counter)++;
	}
	return given;
}
static void target(int traced)
{
	pthread_t thread;

	if (traced)
		ptrace(PT_TRACE_ME, 0, NULL, 0);
	pthread_create(&thread, NULL, count_up, NULL);
	raise(SIGSTOP);
	pthread_join(thread, NULL);
	_exit(7);
}
static int look(int traced)
{
	int status, first, second;
	pid_t pid = fork();

	*counter = 0;
	if (pid == 0)
		target(traced);
	if (waitpid(pid, &status, WUNTRACED) != pid || !WIFSTOPPED(status))
		return 1;
	first = traced ? ptrace(PT_READ_D, pid, (caddr_t)counter, 0) : *counter;
	for (int i = 0; i < 20; i++)
		getppid();
	second = traced ? ptrace(PT_READ_D, pid, (caddr_t)counter, 0) : *counter;
	if (first != second)
		return 2;
	if ((traced ? ptrace(PT_CONTINUE, pid, (caddr_t)1, 0) : kill(pid, SIGCONT)) != 0)
		return 3;
	return waitpid(pid, &status, 0) == pid && WIFEXITED(status) && WEXITSTATUS(status) == 7 ? 0 : 4;
}
int main(void)
{
	counter = mmap(NULL, 4096, PROT_READ | PROT_WRITE, MAP_SHARED | MAP_ANON, -1, 0);
	return look(1) + 10 * look(0);
}
