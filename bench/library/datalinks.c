/* Calls of a data link from C: nanoseconds per call, the minimum over all rounds.
 * Rounds are short and many, so that some of them run undisturbed.
 *
 *   datalinks [CALLS [ROUNDS [WORK]]]
 *
 * With WORK (0 a free slot, 1 a fill frame, 2 an exchange) no other work is done: so its instructions can be counted. */
#include "um.h"
#include <stdio.h>
#include <stdlib.h>
#include <time.h>

static um_datalink sides[2];
static uint8_t blocks[2][23];
static um_message message;
static um_report report;
static const uint8_t layer1[2];
static volatile unsigned sink;

static double now(void)
{
	struct timespec time;
	clock_gettime(CLOCK_MONOTONIC, &time);
	return (double)time.tv_sec * 1e9 + (double)time.tv_nsec;
}

static void require(int holds)
{
	if (!holds) {
		puts("a call of a data link was refused");
		exit(1);
	}
}

/* A slot: both sides send, and take what the other sent. */
static void slot(void)
{
	for (int side = 0; side < 2; side++)
		require(um_datalink_next(&sides[side], layer1, blocks[side], &report) != UM_END_NONE);
	for (int side = 0; side < 2; side++)
		require(um_datalink_take(&sides[side], blocks[!side], &report) == UM_END_DONE);
}

/* Two data links, open on both SAPIs, a fill frame, and a message of 20 octets for one I frame. */
static void begin(void)
{
	message.count = 20;
	for (uint8_t side = 0; side < 2; side++)
		require(um_datalink_new(&sides[side], side, UM_SDCCH, 4, 6));
	require(um_datalink_open(&sides[0], &message) == UM_END_DONE);
	slot(), slot();
	require(um_datalink_open_bare(&sides[0]) == UM_END_DONE);
	slot(), slot();
	for (int side = 0; side < 2; side++)
		require(sides[side].link0.end.state == UM_OPEN && sides[side].link3.end.state == UM_OPEN);
	require(um_datalink_next(&sides[1], layer1, blocks[1], &report) == UM_END_FREE);
}

/* Both sides send a message on both SAPIs, and have it acknowledged: four slots, in each of which both send a frame and take one. One call
 * in five is um_datalink_send. */
static void exchange(long calls)
{
	for (long i = 0; i < calls; i += 20) {
		for (int side = 0; side < 2; side++)
			for (uint8_t sapi = 0; sapi < 4; sapi += 3)
				require(um_datalink_send(&sides[side], sapi, &message) == UM_END_DONE);
		slot(), slot(), slot(), slot();
		sink += report.notice_count;
	}
}

static void next_free(long calls)
{
	for (long i = 0; i < calls; i++)
		sink += um_datalink_next(&sides[0], layer1, blocks[0], &report) + blocks[0][0];
}

static void take_fill(long calls)
{
	for (long i = 0; i < calls; i++)
		sink += um_datalink_take(&sides[0], blocks[1], &report) + report.notice_count;
}

int main(int argc, char **argv)
{
	static const struct { const char *name; void (*work)(long); } works[] = {
		{ "um_datalink_next, a free slot", next_free }, { "um_datalink_take, a fill frame", take_fill },
		{ "a call of an exchange", exchange },
	};
	enum { WORKS = sizeof works / sizeof *works };
	long calls = argc > 1 ? atol(argv[1]) : 3000;
	int rounds = argc > 2 ? atoi(argv[2]) : 300;
	int only = argc > 3 ? atoi(argv[3]) : -1;
	double least[WORKS];

	begin();
	for (int i = 0; i < WORKS; i++)
		least[i] = 1e300;
	for (int round = 0; round < rounds; round++)
		for (int i = 0; i < WORKS; i++) {
			if (only >= 0 && i != only)
				continue;
			double start = now();
			works[i].work(calls);
			double taken = now() - start;
			least[i] = taken < least[i] ? taken : least[i];
		}
	for (int i = 0; i < WORKS; i++)
		if (only < 0 || i == only)
			printf("%-32s %8.0f ns\n", works[i].name, least[i] / (double)calls);
	return 0;
}
