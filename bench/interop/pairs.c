/* Many channels at once: processor time for a pair of sides and a slot.
 *
 *   pairs PLAYER PAIRS [SLOTS [LOSS]]
 *
 * PLAYER is u or o as in sessions.c, PAIRS the channels (SDCCH), SLOTS how many slots all of them have in turn (60), LOSS how many of 100
 * blocks are lost (10). On each the mobile opens SAPI 0 and sends 30 octets. A fill frame is not passed on. */
#include "side.h"
#include <stdio.h>
#include <stdlib.h>
#include <time.h>

enum { OCTETS = 30, FRAMES = 51, T200_SLOTS = 4 };

struct channel {
	struct side *sides[2];
	bool there[2];
	uint8_t blocks[2][23];
};

static long opened, got, failed;
static uint32_t state = 1;

static bool lost(unsigned percent)
{
	state ^= state << 13;
	state ^= state >> 17;
	state ^= state << 5;
	return state % 100 < percent;
}

static void report(struct side *s, int link, enum event event, const uint8_t *octets, int number)
{
	static const um_message message = { .count = OCTETS, .octets = { 1 } };
	(void)octets;
	opened += event == OPENED && s->role == UM_MOBILE;
	got += event == GOT && number == OCTETS;
	failed += event == CLOSED || event == ERROR;
	if (event == OPENED && s->role == UM_MOBILE)
		s->player->send(s, link, &message);
}

static struct side *new_side(const struct player *player, uint8_t role)
{
	struct side *s = calloc(1, sizeof *s); /* the pages of its line that nobody writes to take no memory */
	if (!s)
		abort();
	s->player = player;
	s->role = role;
	s->on = UM_SDCCH;
	s->polled = true;
	s->t200 = T200_SLOTS * FRAMES;
	s->report = report;
	player->begin(s);
	return s;
}

/* What each side sends arrives before its next slot. */
static void slot(struct channel *c, unsigned loss)
{
	for (int r = 0; r < 2; r++)
		if (c->there[!r])
			c->sides[r]->player->take(c->sides[r], c->blocks[!r]);
	for (int r = 0; r < 2; r++) {
		bool sent = c->sides[r]->player->next(c->sides[r], c->blocks[r]);
		c->there[r] = sent && !lost(loss);
	}
}

static double processor_seconds(void)
{
	struct timespec t;
	clock_gettime(CLOCK_PROCESS_CPUTIME_ID, &t);
	return (double)t.tv_sec + (double)t.tv_nsec * 1e-9;
}

int main(int count, char **words)
{
	const struct player *player = count > 1 && words[1][0] == 'o' ? &osmo_player : &um_player;
	long pairs = count > 2 ? atol(words[2]) : 1000, slots = count > 3 ? atol(words[3]) : 60;
	unsigned loss = count > 4 ? (unsigned)atoi(words[4]) : 10;
	struct channel *channels = calloc((size_t)pairs, sizeof *channels);
	if (!channels)
		return 1;
	quiet_osmo();
	for (long i = 0; i < pairs; i++) {
		um_message info = { .count = 4, .octets = { (uint8_t)i, (uint8_t)(i >> 8), (uint8_t)(i >> 16), 1 } };
		for (uint8_t role = 0; role < 2; role++)
			channels[i].sides[role] = new_side(player, role);
		player->open(channels[i].sides[UM_MOBILE], LINK0, &info);
	}
	double start = processor_seconds();
	for (long k = 0; k < slots; k++) {
		now += FRAMES;
		if (player == &osmo_player) /* its timers are one list for all */
			player->timers(channels[0].sides[0]);
		for (long i = 0; i < pairs; i++)
			slot(&channels[i], loss);
	}
	double taken = processor_seconds() - start;
	printf("%s, %ld pairs, %ld slots: %.0f ns a pair and slot; opened %ld, got %ld, failed %ld\n", player->name, pairs, slots,
	       taken * 1e9 / (double)pairs / (double)slots, opened, got, failed);
	return 0;
}
