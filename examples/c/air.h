/* A noisy radio path for the examples: converts hard bits to noisy soft bits. Every language's example draws the same numbers. */
#ifndef AIR_H
#define AIR_H
#include <stdint.h>

static uint32_t air_state = 2463534242u;

/* A random number by xorshift (Marsaglia, 2003). */
static inline uint32_t air_random(void)
{
	air_state ^= air_state << 13;
	air_state ^= air_state >> 17;
	air_state ^= air_state << 5;
	return air_state;
}

/* Sends a bit as 64 or -64 and adds nearly Gaussian noise, a sum of four numbers, with standard deviation `strength`. */
static inline int8_t air_soft(uint8_t bit, int strength)
{
	int noise = -510;
	for (int i = 0; i < 4; i++)
		noise += (int)(air_random() >> 24);
	int value = (bit ? -64 : 64) + noise * strength / 148;
	return (int8_t)(value > 127 ? 127 : value < -127 ? -127 : value);
}

#endif
