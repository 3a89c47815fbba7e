/* um's calls from C compared with libosmocoding's on the same blocks: nanoseconds per call, the minimum over alternating rounds.
 *
 *   bench [CALLS [ROUNDS]] */
#include "um.h"
#include <osmocom/core/bits.h>
#include <osmocom/coding/gsm0503_coding.h>
#include <stdio.h>
#include <stdlib.h>
#include <string.h>
#include <time.h>

#define POOL 1024
static uint8_t octets[POOL][23];
static int8_t ours[POOL][4][148], halves[POOL][8][148];
static sbit_t theirs[POOL][464], their_halves[POOL][928];
static volatile unsigned sink;

static uint32_t chance(void)
{
	static uint64_t state = 0x9e3779b97f4a7c15ull;
	state ^= state >> 12, state ^= state << 25, state ^= state >> 27;
	return (uint32_t)((state * 2685821657736338717ull) >> 32);
}

static double now(void)
{
	struct timespec time;
	clock_gettime(CLOCK_MONOTONIC, &time);
	return (double)time.tv_sec * 1e9 + (double)time.tv_nsec;
}

/* The block in its halves of the eight bursts of FACCH/F, of which the other halves are of the block before. */
static void carry(int p)
{
	for (int b = 0; b < 8; b++) {
		for (int i = 0; i < 148; i++) {
			int own = i % 2 == (b < 4);
			halves[p][b][i] = ours[own ? p : (p + POOL - 1) % POOL][b % 4][i];
		}
		memcpy(their_halves[p] + 116 * b, halves[p][b] + 3, 58);
		memcpy(their_halves[p] + 116 * b + 58, halves[p][b] + 87, 58);
	}
}

/* Blocks of random octets, without noise or with noise on every bit. */
static void fill(int is_noisy)
{
	for (int p = 0; p < POOL; p++) {
		uint8_t sent[4][148];
		for (int i = 0; i < 23; i++)
			octets[p][i] = (uint8_t)chance();
		if (!um_send_block(octets[p], p & 7, sent))
			abort();
		for (int b = 0; b < 4; b++)
			for (int i = 0; i < 148; i++) {
				int noise = 0;
				for (int k = 0; k < 4; k++)
					noise += (int)(chance() % 97) - 48;
				int value = is_noisy ? (sent[b][i] ? -96 : 96) + noise * 3 / 4 : sent[b][i] ? -127 : 127;
				ours[p][b][i] = (int8_t)(value > 127 ? 127 : value < -127 ? -127 : value);
			}
		for (int b = 0; b < 4; b++) {
			memcpy(theirs[p] + 116 * b, ours[p][b] + 3, 58);
			memcpy(theirs[p] + 116 * b + 58, ours[p][b] + 87, 58);
		}
	}
	for (int p = 0; p < POOL; p++)
		carry(p);
}

static void send(long calls)
{
	uint8_t bursts[4][148];
	for (long i = 0; i < calls; i++) {
		sink += um_send_block(octets[i % POOL], i & 7, bursts);
		sink += bursts[i & 3][i % 148];
	}
}

static void osmo_encode(long calls)
{
	ubit_t bursts[464];
	for (long i = 0; i < calls; i++) {
		gsm0503_xcch_encode(bursts, octets[i % POOL]);
		sink += bursts[i % 464];
	}
}

static void receive(long calls)
{
	um_block_report report;
	for (long i = 0; i < calls; i++) {
		sink += um_receive_block((const int8_t (*)[148])ours[i % POOL], &report) && report.accepted;
	}
}

static void osmo_decode(long calls)
{
	uint8_t block[23];
	int errors, bits;
	for (long i = 0; i < calls; i++)
		sink += gsm0503_xcch_decode(block, theirs[i % POOL], &errors, &bits) == 0;
}

static void send_facch(long calls)
{
	static uint8_t block[4][148], bursts[8][148];
	for (long i = 0; i < calls; i++) {
		sink += um_send_block(octets[i % POOL], i & 7, block) && um_steal_facch_f((const uint8_t (*)[148])block, bursts);
		sink += bursts[i & 7][i % 148];
	}
}

static void osmo_encode_facch(long calls)
{
	static ubit_t bursts[928];
	for (long i = 0; i < calls; i++) {
		gsm0503_tch_fr_encode(bursts, octets[i % POOL], 23, 1);
		sink += bursts[i % 928];
	}
}

static void receive_facch(long calls)
{
	int8_t block[4][148];
	um_block_report report;
	for (long i = 0; i < calls; i++)
		sink += um_join_facch_f((const int8_t (*)[148])halves[i % POOL], block) && um_receive_block((const int8_t (*)[148])block, &report)
			&& report.accepted;
}

static void osmo_decode_facch(long calls)
{
	uint8_t block[128];
	int errors, bits;
	for (long i = 0; i < calls; i++)
		sink += gsm0503_tch_fr_decode(block, their_halves[i % POOL], 1, 0, &errors, &bits) == 23;
}

static void read_frame(long calls)
{
	static const uint8_t block[23] = { 1, 0x20, 0x53, 1, 2, 3 };
	um_frame frame;
	for (long i = 0; i < calls; i++)
		sink += um_read_frame(block, UM_SDCCH, &frame) + frame.count;
}

static void write_frame(long calls)
{
	um_frame frame = { .kind = UM_I, .nr = 1, .count = 20 };
	uint8_t block[23];
	for (long i = 0; i < calls; i++) {
		frame.ns = i & 7;
		sink += um_write_frame(&frame, UM_SDCCH, block) + block[1];
	}
}

int main(int argc, char **argv)
{
	static const struct { const char *name; void (*work)(long); } works[] = {
		{ "um_send_block", send },       { "gsm0503_xcch_encode", osmo_encode }, { "um_receive_block", receive },
		{ "gsm0503_xcch_decode", osmo_decode }, { "um_steal_facch_f", send_facch }, { "gsm0503_tch_fr_encode", osmo_encode_facch },
		{ "um_join_facch_f", receive_facch }, { "gsm0503_tch_fr_decode", osmo_decode_facch }, { "um_read_frame", read_frame },
		{ "um_write_frame", write_frame },
	};
	enum { WORKS = sizeof works / sizeof *works };
	long calls = argc > 1 ? atol(argv[1]) : 20000;
	int rounds = argc > 2 ? atoi(argv[2]) : 15;
	for (int is_noisy = 0; is_noisy < 2; is_noisy++) {
		double least[WORKS];
		fill(is_noisy);
		for (int i = 0; i < WORKS; i++)
			least[i] = 1e300;
		for (int round = 0; round < rounds; round++)
			for (int i = 0; i < WORKS; i++) {
				double start = now();
				works[i].work(calls);
				double taken = now() - start;
				least[i] = taken < least[i] ? taken : least[i];
			}
		for (int i = 0; i < WORKS; i++)
			printf("%-6s %-22s %8.0f ns\n", is_noisy ? "noisy" : "sure", works[i].name, least[i] / (double)calls);
		printf("%-6s send %.2f and receive %.2f of libosmocoding's time, FACCH %.2f and %.2f\n", is_noisy ? "noisy" : "sure",
			least[0] / least[1], least[2] / least[3], least[4] / least[5], least[6] / least[7]);
	}
	return 0;
}
