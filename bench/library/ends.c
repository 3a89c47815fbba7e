/* Calls of an endpoint from C: nanoseconds per call, the minimum over all rounds.
 * Rounds are short and many, so that some of them run undisturbed.
 *
 *   ends [CALLS [ROUNDS]] */
#include "um.h"
#include <stdio.h>
#include <stdlib.h>
#include <string.h>
#include <time.h>

static um_end mobile, network;
static um_message message;
static um_effects sent, told;
static volatile unsigned sink;

static double now(void)
{
	struct timespec time;
	clock_gettime(CLOCK_MONOTONIC, &time);
	return (double)time.tv_sec * 1e9 + (double)time.tv_nsec;
}

static void require(int holds)
{
	if (!holds) {
		puts("a call of an end was refused");
		exit(1);
	}
}

/* Two open ends, and a message of 20 octets for one I frame. */
static void begin(void)
{
	message.count = 20;
	require(um_end_new(&mobile, UM_MOBILE, 0, UM_SDCCH) && um_end_new(&network, UM_NETWORK, 0, UM_SDCCH));
	require(um_end_open(&mobile, &message, &sent) == 0 && um_end_take(&network, sent.frames[0], &told) == 0);
	require(um_end_take(&mobile, told.frames[0], &sent) == 0 && mobile.state == UM_OPEN && network.state == UM_OPEN);
}

/* A message is sent, its I frame taken, and the RR that acknowledges it: three calls, two of which take a frame. */
static void exchange(long calls)
{
	for (long i = 0; i < calls; i += 3) {
		require(um_end_send(&mobile, &message, &sent) == 0 && um_end_take(&network, sent.frames[0], &told) == 0);
		require(um_end_take(&mobile, told.frames[0], &sent) == 0);
		sink += sent.notices[0].kind;
	}
}

/* An I frame is taken again and again: it is out of sequence, and nothing of the state changes after the first. */
static void take(long calls)
{
	require(um_end_send(&mobile, &message, &sent) == 0 && um_end_take(&network, sent.frames[0], &told) == 0);
	for (long i = 0; i < calls; i++)
		sink += um_end_take(&network, sent.frames[0], &told) + told.frame_count;
	begin();
}

static void idle(long calls)
{
	for (long i = 0; i < calls; i++)
		sink += um_end_idle(&network, &told) + told.frames[0][0];
}

int main(int argc, char **argv)
{
	static const struct { const char *name; void (*work)(long); } works[] = {
		{ "a call of an exchange", exchange }, { "um_end_take, out of sequence", take }, { "um_end_idle", idle },
	};
	enum { WORKS = sizeof works / sizeof *works };
	long calls = argc > 1 ? atol(argv[1]) : 3000;
	int rounds = argc > 2 ? atoi(argv[2]) : 1000;
	double least[WORKS];

	begin();
	for (int i = 0; i < WORKS; i++)
		least[i] = 1e300;
	for (int round = 0; round < rounds; round++)
		for (int i = 0; i < WORKS; i++) {
			double start = now();
			works[i].work(calls);
			double taken = now() - start;
			least[i] = taken < least[i] ? taken : least[i];
		}
	for (int i = 0; i < WORKS; i++)
		printf("%-30s %8.0f ns\n", works[i].name, least[i] / (double)calls);
	return 0;
}
