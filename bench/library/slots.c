/* A block of SDCCH/8 with four percent wrong bits, by three calls: nanoseconds a block, the minimum over all rounds.
 *
 *   slots [ROUNDS]            each call in turns, 200 blocks a round
 *   slots CALL BLOCKS         one call alone, without the clock, for callgrind: 0 um_receive_block, 1 um_receive_block_erasing with one
 *                             word and no erasure, 2 four calls of um_slot_take */
#include "um.h"
#include <stdio.h>
#include <stdlib.h>
#include <time.h>

static int8_t soft[4][148];
static um_slot slot;
static uint32_t frame;
static volatile unsigned sink;

static double now(void)
{
	struct timespec time;
	clock_gettime(CLOCK_MONOTONIC, &time);
	return (double)time.tv_sec * 1e9 + (double)time.tv_nsec;
}

static uint32_t next_random(void)
{
	static uint32_t state = 1;
	return (state = state * 1664525u + 1013904223u) >> 8;
}

static void begin(void)
{
	uint8_t octets[23], sent[4][148];
	for (int i = 0; i < 23; i++)
		octets[i] = (uint8_t)next_random();
	if (!um_send_block(octets, 5, sent) || !um_slot_new(&slot, UM_SDCCH8, UM_DOWNLINK, 0, 1, 0))
		exit(1);
	for (int i = 0; i < 592; i++) {
		int strength = 20 + (int)(next_random() % 80);
		soft[i / 148][i % 148] = (int8_t)((sent[i / 148][i % 148] != (next_random() % 25 == 0)) ? -strength : strength);
	}
}

static void require(unsigned accepted)
{
	if (!accepted) {
		puts("a block was not accepted");
		exit(1);
	}
	sink += accepted;
}

static void receive(void)
{
	um_block_report report;
	require(um_receive_block((const int8_t (*)[148])soft, &report) && report.accepted);
}

static void receive_erasing(void)
{
	um_block_report report;
	um_erasure erasure;
	uint32_t rank;
	require(um_receive_block_erasing((const int8_t (*)[148])soft, 1, 0, &report, &rank, &erasure) && report.accepted);
}

/* The four frames of a block; frames 48 to 50 of 51 are idle. */
static void take(void)
{
	um_slot_block block;
	for (int burst = 0; burst < 4; burst++, frame++)
		require(um_slot_take(&slot, frame, soft[burst], &block) == (burst == 3 ? UM_SLOT_BLOCK : UM_SLOT_TAKEN));
	require(block.report.accepted);
	if (frame % 51 == 48)
		frame += 3;
	if (frame >= UM_FRAMES)
		frame -= UM_FRAMES;
}

static void (*const calls[])(void) = { receive, receive_erasing, take };
static const char *const names[] = { "um_receive_block", "um_receive_block_erasing", "four um_slot_take" };

int main(int count, char **words)
{
	int rounds = count == 2 ? atoi(words[1]) : 2000;
	double least[3] = { 1e9, 1e9, 1e9 };

	begin();
	if (count == 3) {
		for (int block = 0; block < atoi(words[2]); block++)
			calls[atoi(words[1]) % 3]();
		return 0;
	}
	for (int round = 0; round < rounds; round++)
		for (int call = 0; call < 3; call++) {
			double start = now();
			for (int block = 0; block < 200; block++)
				calls[call]();
			double time = (now() - start) / 200;
			if (time < least[call])
				least[call] = time;
		}
	for (int call = 0; call < 3; call++)
		printf("%-26s %7.1f ns a block, %6.1f over um_receive_block\n", names[call], least[call], least[call] - least[0]);
	return 0;
}
