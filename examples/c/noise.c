/* Encodes blocks, adds noise and decodes them, once by maximum likelihood and once by list decoding with 64 words.
 *
 *   cc -Ibindings/c examples/c/noise.c dist/$(uname -m)-linux/libum.a -o noise && ./noise */
#include "air.h"
#include "um.h"
#include <stdio.h>
#include <stdlib.h>
#include <string.h>

static void run(int strength)
{
	int alone = 0, among = 0, wrong = 0;
	for (int block = 0; block < 100; block++) {
		uint8_t octets[23], bursts[4][148];
		int8_t soft[4][148];
		um_block_report report;
		uint32_t rank;
		for (int i = 0; i < 23; i++)
			octets[i] = (uint8_t)(air_random() >> 24);
		if (!um_send_block(octets, 7, bursts))
			abort();
		for (int b = 0; b < 4; b++)
			for (int i = 0; i < 148; i++)
				soft[b][i] = air_soft(bursts[b][i], strength);
		if (um_receive_block((const int8_t (*)[148])soft, &report) && report.accepted)
			alone++;
		if (um_receive_block_among((const int8_t (*)[148])soft, 64, &report, &rank) && report.accepted) {
			among++;
			wrong += memcmp(report.octets, octets, 23) != 0;
		}
	}
	printf("noise %d: of 100 blocks %d by the most likely word, %d among 64 words, %d wrong\n", strength, alone, among, wrong);
}

int main(void)
{
	for (int strength = 40; strength <= 55; strength += 5)
		run(strength);
	return 0;
}
