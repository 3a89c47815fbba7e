/* Random numbers determined by a seed, a stream and an index, so two runs over the same path have the same losses and noise. */
#ifndef DRAW_H
#define DRAW_H
#include <math.h>
#include <stdint.h>

/* The finaliser of SplitMix64 (Steele, Lea, Flood 2014). */
static inline uint64_t mixed(uint64_t x)
{
	x += 0x9e3779b97f4a7c15;
	x = (x ^ x >> 30) * 0xbf58476d1ce4e5b9;
	x = (x ^ x >> 27) * 0x94d049bb133111eb;
	return x ^ x >> 31;
}

static inline uint32_t drawn(uint64_t seed, uint64_t stream, uint64_t place)
{
	return (uint32_t)(mixed(mixed(mixed(seed) + stream) + place) >> 32);
}

/* The soft bit of a bit sent with this amplitude under Gaussian noise, by the method of Box and Muller. */
static inline int8_t noisy(int bit, double amplitude, double sigma, uint64_t seed, uint64_t stream, uint64_t place)
{
	double a = (drawn(seed, stream, 2 * place) + 0.5) / 4294967296.0, b = (drawn(seed, stream, 2 * place + 1) + 0.5) / 4294967296.0;
	double value = (bit ? -amplitude : amplitude) + sigma * sqrt(-2 * log(a)) * cos(6.283185307179586 * b);
	return (int8_t)(value > 127 ? 127 : value < -127 ? -127 : lrint(value));
}
#endif
