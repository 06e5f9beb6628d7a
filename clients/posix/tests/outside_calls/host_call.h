/* The host's calls, by their instructions. */
static long host_call(long number, long first, long second, long third, long fourth)
{
	long result;
	register long r10 __asm__("r10") = fourth;
	register long r8 __asm__("r8") = 0;

	__asm__ volatile("syscall"
					 : "=a"(result)
					 : "a"(number), "D"(first), "S"(second), "d"(third), "r"(r10), "r"(r8)
					 : "rcx", "r11", "memory");
	return (result);
}
