/* Times osmo_conv_decode of libosmocoding over the soft values of program.txt: nanoseconds a list, a line a round. */
#define _GNU_SOURCE
#include <stdint.h>
#include <stdio.h>
#include <time.h>

#include <osmocom/core/bits.h>
#include <osmocom/core/conv.h>
#include <osmocom/gsm/gsm0503.h>

enum { LISTS = 20000, ROUNDS = 5 };

int main(void)
{
	sbit_t soft[456];
	ubit_t u[228];
	uint32_t seed = 1;
	for (int i = 0; i < 456; i++) {
		seed ^= seed << 13;
		seed ^= seed >> 17;
		seed ^= seed << 5;
		soft[i] = seed & 127;
		if (seed & 128)
			soft[i] = -soft[i];
	}
	long sum = 0;
	for (int round = 0; round < ROUNDS; round++) {
		struct timespec a, b;
		clock_gettime(CLOCK_MONOTONIC, &a);
		for (int i = 0; i < LISTS; i++) {
			osmo_conv_decode(&gsm0503_xcch, soft, u);
			sum += u[i % 224];
		}
		clock_gettime(CLOCK_MONOTONIC, &b);
		printf("%.0f\n", ((b.tv_sec - a.tv_sec) * 1e9 + (b.tv_nsec - a.tv_nsec)) / LISTS);
	}
	fprintf(stderr, "%ld\n", sum);
}
