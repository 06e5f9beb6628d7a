#include <string.h>
#include "twister.h"

enum { N = 624, M = 397 };

static const uint32_t *first_state(void)
{
	static uint32_t state[N];
	if (state[0] == 0) {
		state[0] = 19650218;
		for (uint32_t i = 1; i < N; i++)
			state[i] = 1812433253u * (state[i - 1] ^ state[i - 1] >> 30) + i;
	}
	return state;
}

void seed_twister(struct twister *t, const uint32_t *key, int length)
{
	uint32_t *s = t->state, i = 1, of_key = 0;
	memcpy(s, first_state(), sizeof t->state);
	for (int k = 0; k < N; k++) {
		s[i] = (s[i] ^ (s[i - 1] ^ s[i - 1] >> 30) * 1664525u) + key[of_key] + of_key;
		of_key = of_key + 1 == (uint32_t)length ? 0 : of_key + 1; /* a division takes longer than all else */
		if (++i == N)
			s[0] = s[N - 1], i = 1;
	}
	for (int k = N - 1; k > 0; k--) {
		s[i] = (s[i] ^ (s[i - 1] ^ s[i - 1] >> 30) * 1566083941u) - i;
		if (++i == N)
			s[0] = s[N - 1], i = 1;
	}
	s[0] = 0x80000000;
	t->at = 0;
}

static uint32_t mixed(uint32_t high, uint32_t low, uint32_t from)
{
	uint32_t y = (high & 0x80000000) | (low & 0x7fffffff);
	return from ^ y >> 1 ^ (y & 1 ? 0x9908b0df : 0);
}

/* The state's next word is made as it is drawn: a run draws few. */
static uint32_t draw_32(struct twister *t)
{
	uint32_t *s = t->state;
	const int i = t->at, next = i + 1 < N ? i + 1 : 0;
	uint32_t y = s[i] = mixed(s[i], s[next], s[i + M < N ? i + M : i + M - N]);
	t->at = next;
	y ^= y >> 11;
	y ^= y << 7 & 0x9d2c5680;
	y ^= y << 15 & 0xefc60000;
	return y ^ y >> 18;
}

double draw(struct twister *t)
{
	uint32_t high = draw_32(t) >> 5, low = draw_32(t) >> 6;
	return (high * 67108864.0 + low) / 9007199254740992.0;
}

uint32_t draw_below(struct twister *t, uint32_t count)
{
	int bits = 32 - __builtin_clz(count);
	uint32_t got;
	do
		got = draw_32(t) >> (32 - bits);
	while (got >= count);
	return got;
}
