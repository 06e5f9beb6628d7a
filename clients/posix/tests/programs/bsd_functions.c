/* FreeBSD's strlcpy(3), strlcat(3), strtonum(3), getprogname(3). The host may not have them.
 * natively: no
 * prints: 5 abc|8 abcdefg|42 0 0|too large, invalid|named */
#include <stdio.h>
#include <stdlib.h>
#include <string.h>
#include <unistd.h>
int main(void)
{
	char text[8];
	const char *large, *invalid;

	int length = strlcpy(text, "abc de", 4);
	printf("%d %s\n", length - 1, text);
	length = strlcat(text, "defgh", sizeof(text));
	printf("%d %s\n", length, text);
	long long right = strtonum("42", 0, 100, NULL), over = strtonum("101", 0, 100, &large), none = strtonum("4x", 0, 100, &invalid);
	printf("%lld %lld %lld\n%s, %s\n", right, over, none, large, invalid);
	setprogname("/usr/bin/named");
	printf("%s\n", getprogname());
	setproctitle("title");
	return 0;
}
