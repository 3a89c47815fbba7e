/* The cost of a T200 that expires before the answer can arrive: blocks sent for eight messages of twelve segments.
 *
 *   early PAIR EXPIRIES DELAY [rr | SLOTS]
 *
 * PAIR as in sessions.c; the mobile sends. Nothing is lost; a block is DELAY slots in transit. EXPIRIES times, every seventh slot, the
 * mobile's T200 expires although an answer is in transit; at other times only if T200 is SLOTS, of both sides. With `rr` each REJ is passed
 * to the mobile as an RR with the same N(R), to measure what that saves. */
#include "side.h"
#include <stdio.h>
#include <stdlib.h>
#include <string.h>

enum { MESSAGES = 8, OCTETS = 240, T200 = 100000, SLOTS = 4000, LONGEST = 16 };
static int opened, got;

static void report(struct side *s, int link, enum event event, const uint8_t *octets, int number)
{
	(void)s, (void)link, (void)octets;
	opened += event == OPENED;
	got += event == GOT && number == OCTETS;
	if (event == CLOSED)
		puts("closed");
}

static const struct player *player_of(char letter)
{
	return letter == 'u' ? &um_player : letter == 'p' ? &plain_player : &osmo_player;
}

static void as_rr(uint8_t block[23])
{
	if ((block[1] & 0x0f) == 0x09)
		block[1] &= 0xf7;
}

static struct side sides[2];
static struct { bool there; uint8_t block[23]; } wire[2][LONGEST];
static int up, down, i_frames, rejects;

static void move(int slot, int delay, bool rr)
{
	for (int r = 0; r < 2; r++)
		if (wire[r][slot % delay].there) {
			uint8_t *block = wire[r][slot % delay].block;
			wire[r][slot % delay].there = false;
			if (rr && r == 1)
				as_rr(block);
			sides[!r].player->take(&sides[!r], block);
		}
	for (int r = 0; r < 2; r++) {
		uint8_t *block = wire[r][slot % delay].block;
		if (!sides[r].player->next(&sides[r], block))
			continue;
		wire[r][slot % delay].there = true;
		up += r == 0;
		down += r == 1;
		i_frames += !(block[1] & 1);
		rejects += (block[1] & 0x0f) == 0x09;
	}
}

int main(int count_of_words, char **words)
{
	um_message m = { .count = OCTETS, .octets = { 1 } }, info = { .count = 1, .octets = { 1 } };
	int sent = 0, slot;
	if (count_of_words < 4) {
		fprintf(stderr, "early PAIR EXPIRIES DELAY [rr | SLOTS]\n");
		return 2;
	}
	int expiries = atoi(words[2]), delay = atoi(words[3]), slots = count_of_words > 4 ? atoi(words[4]) : 0;
	bool rr = count_of_words > 4 && !slots;
	delay = delay < 1 ? 1 : delay > LONGEST ? LONGEST : delay;
	quiet_osmo();
	for (int r = 0; r < 2; r++) {
		memset(&sides[r], 0, sizeof sides[r]);
		sides[r].player = player_of(words[1][r]);
		sides[r].role = r ? UM_NETWORK : UM_MOBILE;
		sides[r].on = UM_SDCCH;
		sides[r].t200 = slots ? 51 * slots : T200;
		sides[r].report = report;
		sides[r].player->begin(&sides[r]);
	}
	sides[0].player->open(&sides[0], LINK0, &info);
	for (slot = 0; slot < SLOTS && got < MESSAGES; slot++) {
		if (slots)
			now += 51;
		for (int r = 0; slots && r < 2; r++)
			sides[r].player->timers(&sides[r]);
		while (opened == 2 && sent < MESSAGES && sides[0].player->send(&sides[0], LINK0, &m))
			sent++;
		if (slot > 20 && slot % 7 == 0 && expiries-- > 0) {
			now += T200 + 1;
			sides[0].player->timers(&sides[0]);
		}
		move(slot, delay, rr);
	}
	printf("%s, %s expiries, delay %d%s", words[1], words[2], delay, rr ? ", REJ as RR" : "");
	if (slots)
		printf(", T200 of %d", slots);
	printf(": %d slots, %d messages, up %d (I %d), down %d (REJ %d)\n", slot, got, up, i_frames, down, rejects);
	return 0;
}
