/* Block loss over a noisy channel: libosmocoding, um by the most likely word, um by list decoding with 4, 16 and 64 words, by one and by 64
 * words with four erasures, and by a time slot with 64 words and four erasures.
 *
 *   reach [BLOCKS]       20,000 blocks at each noise
 *
 * Bits are sent as 64 and -64, Gaussian noise is added, and the sum is rounded and cut off at 127 and -127. Es/N0 is that of a
 * coded bit: the noise has the deviation 64 / sqrt(2 Es/N0). The seed is fixed, and every receiver gets the same soft values. */
#include "um.h"
#include <math.h>
#include <osmocom/core/bits.h>
#include <osmocom/coding/gsm0503_coding.h>
#include <stdio.h>
#include <stdlib.h>
#include <string.h>
#include <time.h>

enum { OSMO, ALONE, AMONG, ERASING = AMONG + 3, SLOT = ERASING + 2, RECEIVERS };
static const uint8_t tried[SLOT] = { [AMONG] = 4, 16, 64, [ERASING] = 1, 64 };
static const double noises[] = { 1.07, 0.24, -0.51, -1.21, -2.16 };
static const char *const names[RECEIVERS] = {
	"libosmocoding", "um", "among 4", "among 16", "among 64", "erasing 1", "erasing 64", "slot 64"
};

typedef int8_t block_soft[4][148];
typedef const int8_t (*bursts)[148];

static uint64_t state = 0x9e3779b97f4a7c15ull;

static uint64_t chance(void)
{
	state ^= state >> 12, state ^= state << 25, state ^= state >> 27;
	return state * 2685821657736338717ull;
}

/* Two values of a normal distribution (Box and Muller). */
static void normal(double pair[2])
{
	double first = ((double)(chance() >> 11) + 1) / 9007199254740993.0, second = (double)(chance() >> 11) / 9007199254740992.0;
	double length = sqrt(-2 * log(first)), angle = 6.283185307179586 * second;
	pair[0] = length * cos(angle), pair[1] = length * sin(angle);
}

static int8_t heard(uint8_t bit, double noise)
{
	long value = lround((bit ? -64 : 64) + noise);
	return (int8_t)(value > 127 ? 127 : value < -127 ? -127 : value);
}

static void transmit(const uint8_t octets[23], uint8_t tsc, double deviation, block_soft soft)
{
	uint8_t sent[4][148];
	double noise[2];
	if (!um_send_block(octets, tsc, sent))
		abort();
	for (int i = 0; i < 592; i += 2) {
		normal(noise);
		soft[i / 148][i % 148] = heard(sent[i / 148][i % 148], deviation * noise[0]);
		soft[i / 148][i % 148 + 1] = heard(sent[i / 148][i % 148 + 1], deviation * noise[1]);
	}
}

static bool receives_osmo(block_soft soft, uint8_t octets[23])
{
	sbit_t coded[464];
	int errors, bits;
	for (int b = 0; b < 4; b++) {
		memcpy(coded + 116 * b, soft[b] + 3, 58);
		memcpy(coded + 116 * b + 58, soft[b] + 87, 58);
	}
	return gsm0503_xcch_decode(octets, coded, &errors, &bits) == 0;
}

/* A block is decoded with its fourth burst. */
static bool decodes_slot(block_soft soft, um_block_report *report)
{
	um_slot slot;
	um_slot_block block;
	if (!um_slot_new(&slot, UM_SDCCH8, UM_DOWNLINK, 0, 64, 4))
		return false;
	for (uint32_t frame = 0; frame < 4; frame++)
		if (um_slot_take(&slot, frame, soft[frame], &block) != (frame == 3 ? UM_SLOT_BLOCK : UM_SLOT_TAKEN))
			return false;
	*report = block.report;
	return true;
}

static bool decodes(int receiver, block_soft soft, um_block_report *report)
{
	uint32_t rank;
	um_erasure erasure;
	if (receiver == ALONE)
		return um_receive_block((bursts)soft, report);
	if (receiver == SLOT)
		return decodes_slot(soft, report);
	if (receiver < ERASING)
		return um_receive_block_among((bursts)soft, tried[receiver], report, &rank);
	return um_receive_block_erasing((bursts)soft, tried[receiver], 4, report, &rank, &erasure);
}

/* Whether a receiver accepts a block, and with which octets. */
static bool receives(int receiver, block_soft soft, uint8_t octets[23])
{
	um_block_report report;
	if (receiver == OSMO)
		return receives_osmo(soft, octets);
	if (!decodes(receiver, soft, &report))
		abort();
	memcpy(octets, report.octets, 23);
	return report.accepted;
}

static double now(void)
{
	struct timespec time;
	clock_gettime(CLOCK_MONOTONIC, &time);
	return (double)time.tv_sec * 1e9 + (double)time.tv_nsec;
}

static void reach(double decibels, int blocks)
{
	int lost[RECEIVERS] = { 0 }, wrong[RECEIVERS] = { 0 };
	double taken[RECEIVERS] = { 0 }, deviation = 64 / sqrt(2 * pow(10, decibels / 10));
	for (int t = 0; t < blocks; t++) {
		uint8_t sent[23], octets[23];
		block_soft soft;
		for (int i = 0; i < 23; i++)
			sent[i] = (uint8_t)(chance() >> 56);
		transmit(sent, t & 7, deviation, soft);
		for (int r = 0; r < RECEIVERS; r++) {
			double start = now();
			bool accepted = receives(r, soft, octets);
			taken[r] += now() - start;
			lost[r] += !accepted;
			wrong[r] += accepted && memcmp(octets, sent, 23) != 0;
		}
	}
	for (int r = 0; r < RECEIVERS; r++)
		printf("%.2f dB, %s: lost %.3f %%, wrong %d of %d, %.2f us a block\n", decibels, names[r], 100.0 * lost[r] / blocks, wrong[r],
			blocks, taken[r] / blocks / 1000);
}

/* The minimum time of a call over all rounds, in nanoseconds. */
static double least(int receiver, block_soft *pool, int count)
{
	uint8_t octets[23];
	double best = 1e300;
	for (int round = 0; round < 15; round++) {
		double start = now();
		for (int i = 0; i < count; i++)
			receives(receiver, pool[i], octets);
		double taken = (now() - start) / count;
		best = taken < best ? taken : best;
	}
	return best;
}

/* Blocks whose most likely word holds, and blocks of which none of 64 does. */
static void marks(void)
{
	enum { POOL = 512 };
	static block_soft held[POOL], failed[POOL];
	int holds = 0, fails = 0;
	while (holds < POOL || fails < POOL) {
		uint8_t sent[23], octets[23];
		block_soft soft;
		for (int i = 0; i < 23; i++)
			sent[i] = (uint8_t)(chance() >> 56);
		transmit(sent, 0, 64 / sqrt(2 * pow(10, -0.216)), soft);
		if (receives(ALONE, soft, octets) && holds < POOL)
			memcpy(held[holds++], soft, sizeof soft);
		else if (!receives(AMONG + 2, soft, octets) && fails < POOL)
			memcpy(failed[fails++], soft, sizeof soft);
	}
	double alone = least(ALONE, held, POOL);
	for (int r = AMONG + 2; r < RECEIVERS; r++) {
		double other = least(r, held, POOL);
		printf("the first word holds: %.0f ns alone, %.0f %s, ratio %.2f\n", alone, other, names[r], other / alone);
	}
	for (int r = AMONG; r < RECEIVERS; r++)
		printf("none of 64 holds: %.2f us %s\n", least(r, failed, POOL) / 1000, names[r]);
}

int main(int argc, char **argv)
{
	int blocks = argc > 1 ? atoi(argv[1]) : 20000;
	for (size_t i = 0; i < sizeof noises / sizeof *noises; i++)
		reach(noises[i], blocks);
	marks();
	return 0;
}
