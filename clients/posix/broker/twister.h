/* Python's random.Random: the Mersenne twister MT19937 of M. Matsumoto and T. Nishimura, seeded as Python does it. */
#ifndef TWISTER_H
#define TWISTER_H
#include <stdint.h>

struct twister {
	uint32_t state[624];
	int at;
};

void seed_twister(struct twister *t, const uint32_t *key, int length);
double draw(struct twister *t); /* random() */
uint32_t draw_below(struct twister *t, uint32_t count); /* the place that choice() takes */
#endif
