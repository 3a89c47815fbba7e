/* The link of SAPI 0 without information, between um's data link and libosmogsm: how often it opens, and three messages each way arrive.
 *
 *   procedures PROCEDURE PAIR LOSS FIRST COUNT
 *
 * PROCEDURE: `mobile`, the mobile opens the link of a new channel, as after an assignment or a handover; `network`, the network does;
 * `both`, both at once; `return`, the mobile opens again the link of its old channel, which it had opened with contention resolution.
 * PAIR: the mobile and the network, u (um) or o (libosmogsm). LOSS in thousandths. The session of each seed from FIRST on is one run. */
#include "side.h"
#include "draw.h"
#include <stdio.h>
#include <stdlib.h>
#include <string.h>

enum { MOBILE, NETWORK, MESSAGES = 3, OPENS = 120, SENDS = 400, BLOCK = 51, T200 = 8 * BLOCK };

static const um_message NONE, INFO = { 4, { 5, 8, 1, 2 } };

static struct side sides[2];
static int opened[2], got[2], loss, part; /* part: messages before and after a return differ */
static bool is_wrong, is_closed;
static uint64_t seed, slot;

static um_message message_of(int role, int number)
{
	um_message m = { .count = (uint8_t)(1 + (37 * number + 5 * role + 11 * part) % 60) };
	for (int i = 0; i < m.count; i++)
		m.octets[i] = (uint8_t)(16 * number + 2 * role + 128 * part + i);
	return m;
}

static void report(struct side *s, int link, enum event event, const uint8_t *octets, int number)
{
	int role = s->role;
	(void)link;
	if (event == OPENED) {
		opened[role]++;
		got[role] = 0;
	} else if (event == GOT) {
		um_message m = message_of(!role, got[role]++);
		is_wrong = is_wrong || number != m.count || memcmp(octets, m.octets, m.count);
	} else if (event == CLOSED)
		is_closed = true;
}

static void run(int slots)
{
	for (; slots > 0; slots--, slot++) {
		uint8_t blocks[2][23];
		bool real[2];
		now += BLOCK;
		for (int r = 0; r < 2; r++)
			sides[r].player->timers(&sides[r]);
		for (int r = 0; r < 2; r++)
			real[r] = sides[r].player->next(&sides[r], blocks[r]);
		for (int r = 0; r < 2; r++)
			if (real[r] && (int)(drawn(seed, 1 + (uint64_t)r, slot) % 1000) >= loss)
				sides[!r].player->take(&sides[!r], blocks[r]);
	}
}

static bool open_side(int role, const um_message *info)
{
	return sides[role].player->open(&sides[role], LINK0, info);
}

/* Each side sends its messages, from these numbers on; whether all arrive. */
static bool exchange(int mobile_from)
{
	for (int r = 0; r < 2; r++)
		for (int i = r == MOBILE ? mobile_from : 0; i < MESSAGES; i++) {
			um_message m = message_of(r, i);
			if (!sides[r].player->send(&sides[r], LINK0, &m))
				return false;
		}
	run(SENDS);
	return got[MOBILE] == MESSAGES && got[NETWORK] == MESSAGES && !is_wrong;
}

static const char *establish(const char *by)
{
	if ((by[0] != 'n' && !open_side(MOBILE, &NONE)) || (by[0] != 'm' && !open_side(NETWORK, &NONE)))
		return "no call";
	run(OPENS);
	if (!opened[MOBILE] || !opened[NETWORK])
		return is_closed ? "given up" : "not open";
	return exchange(0) ? NULL : "messages";
}

/* libosmogsm returns with the first message, um opens the link and sends it then. */
static const char *come_back(void)
{
	struct side *mobile = &sides[MOBILE];
	um_message first;
	if (!open_side(MOBILE, &INFO))
		return "no call";
	run(OPENS);
	if (!opened[MOBILE] || !opened[NETWORK] || !exchange(0))
		return "before the return";
	part = 1;
	memset(opened, 0, sizeof opened);
	first = message_of(MOBILE, 0);
	if (!mobile->player->resume(mobile, &first))
		return "no call";
	run(OPENS);
	if (!opened[MOBILE] || !opened[NETWORK])
		return is_closed ? "given up" : "not open";
	return exchange(mobile->player == &osmo_player) ? NULL : "messages";
}

static const char *play(const char *procedure, const char *pair)
{
	const char *failure;
	opened[0] = opened[1] = got[0] = got[1] = part = 0;
	is_wrong = is_closed = false;
	slot = 0;
	for (int r = 0; r < 2; r++) {
		sides[r] = (struct side){ .player = pair[r] == 'o' ? &osmo_player : &um_player, .role = (uint8_t)r, .on = UM_SDCCH, .polled = true,
			.normal = procedure[0] != 'r', .t200 = T200, .report = report };
		sides[r].player->begin(&sides[r]);
	}
	failure = procedure[0] == 'r' ? come_back() : establish(procedure);
	for (int r = 0; r < 2; r++)
		sides[r].player->end(&sides[r]);
	return failure;
}

int main(int count, char **words)
{
	struct { const char *text; int times; } failures[8];
	int kinds = 0, runs = 0, done = 0;
	if (count != 6) {
		fprintf(stderr, "procedures mobile|network|both|return PAIR LOSS FIRST COUNT\n");
		return 2;
	}
	quiet_osmo();
	loss = atoi(words[3]);
	for (seed = strtoull(words[4], NULL, 10); runs < atoi(words[5]); seed++, runs++) {
		const char *failure = play(words[1], words[2]);
		int i = 0;
		done += !failure;
		while (failure && i < kinds && strcmp(failures[i].text, failure))
			i++;
		if (failure && i == kinds) {
			failures[kinds].text = failure;
			failures[kinds++].times = 0;
		}
		if (failure)
			failures[i].times++;
	}
	printf("procedures %s %s loss %d: runs %d done %d", words[1], words[2], loss, runs, done);
	for (int i = 0; i < kinds; i++)
		printf("; %s: %d", failures[i].text, failures[i].times);
	printf("\n");
	return 0;
}
