/* A thread that has a read-write lock for writing asks for it again; and the first key of a program.
 *
 * prints: EDEADLK EDEADLK 0
 */
#include <errno.h>
#include <pthread.h>
#include <stdio.h>

int main(void)
{
	pthread_rwlock_t lock = PTHREAD_RWLOCK_INITIALIZER;
	pthread_key_t key;
	if (pthread_rwlock_wrlock(&lock) != 0 || pthread_key_create(&key, NULL) != 0)
		return 1;
	int again = pthread_rwlock_wrlock(&lock), reading = pthread_rwlock_rdlock(&lock);
	printf("%s %s %u\n", again == EDEADLK ? "EDEADLK" : "?", reading == EDEADLK ? "EDEADLK" : "?", key);
	return 0;
}
