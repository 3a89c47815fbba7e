/* Blocks of FACCH with noise through the decoders of um, with one word, and of libosmocoding.
 *
 *   facch RATE BLOCKS SEED      RATE: 0 full, 1 half
 *
 * It prints how many each lost and how many one of them alone; of those that um alone lost, in how many the block that was sent fits the
 * soft bits exactly as well as the word that um reports; and how many of the others libosmocoding decodes as blocks of SDCCH: these it lost
 * by their stealing flags. Amplitude 64, noise of deviation 50, the other halves random. */
#include <math.h>
#include <osmocom/coding/gsm0503_coding.h>
#include <osmocom/core/bits.h>
#include <stdio.h>
#include <stdlib.h>
#include <string.h>
#include "um.h"

typedef int8_t soft_burst[148];
static uint64_t state;

static uint64_t draw(void)
{
	state ^= state << 13;
	state ^= state >> 7;
	state ^= state << 17;
	return state * 0x2545F4914F6CDD1DULL;
}

static double uniform(void)
{
	return ((draw() >> 11) + 0.5) / 9007199254740992.0;
}

static int8_t received(uint8_t bit)
{
	double size = sqrt(-2 * log(uniform()));
	double v = rint((bit ? -64 : 64) + 50 * size * cos(6.283185307179586 * uniform()));
	return v > 127 ? 127 : v < -127 ? -127 : v;
}

/* The 116 coded bits and flags of each burst, as libosmocoding has them. */
static void coded(const soft_burst *bursts, int count, sbit_t *e)
{
	for (int b = 0; b < count; b++) {
		memcpy(e + 116 * b, bursts[b] + 3, 58);
		memcpy(e + 116 * b + 58, bursts[b] + 87, 58);
	}
}

static long metric(const uint8_t block[4][148], const soft_burst *soft)
{
	long sum = 0;
	for (int b = 0; b < 4; b++)
		for (int p = 3; p < 145; p++)
			if (p < 60 || p >= 88)
				sum += block[b][p] ? -soft[b][p] : soft[b][p];
	return sum;
}

int main(int argc, char **argv)
{
	long lost = 0, osmo_lost = 0, alone = 0, osmo_alone = 0, equal = 0, flags = 0;
	if (argc != 4)
		return 2;
	int half = atoi(argv[1]), errors, total;
	long blocks = atol(argv[2]);
	state = strtoull(argv[3], NULL, 10) * 0x9E3779B97F4A7C15ULL + 1;
	for (int i = 0; i < 10; i++)
		draw();
	for (long i = 0; i < blocks; i++) {
		uint8_t octets[23], block[4][148], bursts[8][148], out[64];
		soft_burst soft[8], joined[4];
		sbit_t e[8 * 116];
		um_block_report report;
		for (int k = 0; k < 23; k++)
			octets[k] = draw() >> 33;
		for (int b = 0; b < 8; b++)
			for (int p = 0; p < 148; p++)
				bursts[b][p] = draw() >> 63;
		if (!um_send_block(octets, i % 8, block) || !(half ? um_steal_facch_h(block, bursts) : um_steal_facch_f(block, bursts)))
			return 1;
		for (int b = 0; b < 8; b++)
			for (int p = 0; p < 148; p++)
				soft[b][p] = received(bursts[b][p]);
		coded(soft, 8, e);
		if (!(half ? um_join_facch_h(soft, joined) : um_join_facch_f(soft, joined)) || !um_receive_block(joined, &report))
			return 1;
		int got = half ? gsm0503_tch_hr_decode(out, e, 0, &errors, &total) : gsm0503_tch_fr_decode(out, e, 1, 0, &errors, &total);
		bool um = report.accepted && !memcmp(report.octets, octets, 23), osmo = got == 23 && !memcmp(out, octets, 23);
		lost += !um;
		osmo_lost += !osmo;
		if (osmo && !um) {
			alone++;
			equal += metric(block, joined) == report.metric;
		}
		if (um && !osmo) {
			osmo_alone++;
			coded(joined, 4, e);
			flags += gsm0503_xcch_decode(out, e, &errors, &total) == 0 && !memcmp(out, octets, 23);
		}
	}
	printf("facch rate %s seed %s: blocks %ld lost %ld osmo-lost %ld um-alone %ld equally-likely %ld osmo-alone %ld flags %ld\n",
		half ? "half" : "full", argv[3], blocks, lost, osmo_lost, alone, equal, osmo_alone, flags);
	return 0;
}
