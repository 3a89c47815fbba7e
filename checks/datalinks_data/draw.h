/* Random numbers by xorshift (Marsaglia, 2003). */
#ifndef DRAW_H
#define DRAW_H
#include <stdint.h>

static uint64_t random_state = 88172645463325252u;

static inline uint32_t draw(uint32_t below)
{
	random_state ^= random_state << 13;
	random_state ^= random_state >> 7;
	random_state ^= random_state << 17;
	return (uint32_t)((random_state >> 32) % below);
}

/* Another seed than that of the check: all numbers differ. */
static inline void seed(uint64_t number)
{
	if (number)
		random_state ^= (number + 1) * 0x9e3779b97f4a7c15u;
	for (int i = 0; i < 8; i++)
		(void)draw(1);
}
#endif
