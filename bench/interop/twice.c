/* What it is worth that a mobile says its last RR again: sessions on SDCCH of a mobile by um's data link with a base station by libosmogsm,
 * whose T200 is that of osmo-bts, 1 s, under the time limits of Osmocom's network.
 *
 *   twice AGAIN UP DOWN FIRST COUNT
 *
 * AGAIN: how often the mobile says an RR with F = 0 again, in the slots after it, until it sends another frame. UP, DOWN: blocks lost, in a
 * thousand. It prints a line: how many sessions were complete, the mean of their TDMA frames, and how often an RR, an RR again and an I
 * frame with P = 1 went. */
#include "side.h"
#include "draw.h"
#include <stdio.h>
#include <stdlib.h>
#include <string.h>

enum {
	SLOT = 51, DOWN = 36,  /* TDMA frames: of a slot, and from its block up to its block down */
	T200 = 2,              /* slots, of the mobile */
	SECOND = 217,
	STANDS_STILL = 5 * SECOND, /* osmo-msc clears a connection without progress */
	GOES = 2 * SECOND,     /* osmo-bsc takes the channel away after its CHANNEL RELEASE */
	RELEASE = 3,           /* octets of CHANNEL RELEASE */
	LONGEST_TEXT = 140, NEVER = -1,
};

/* What the two layers 3 do in turn. `count`: octets of a message, without those of the text; 0: SAPI 3 is opened. */
struct step { int by, link, count, text; };
static const struct session {
	int info, goal; /* octets of the SABM; how many steps the mobile has to see */
	struct step steps[8];
} sessions[] = {
	/* location updating: IDENTITY REQUEST, RESPONSE, ACCEPT, TMSI REALLOCATION COMPLETE, MM INFORMATION */
	{ 15, 3, { { UM_NETWORK, LINK0, 3, 0 }, { UM_MOBILE, LINK0, 11, 0 }, { UM_NETWORK, LINK0, 14, 0 }, { UM_MOBILE, LINK0, 2, 0 },
		{ UM_NETWORK, LINK0, 20, 0 }, { UM_NETWORK, LINK0, RELEASE, 0 } } },
	/* a short message: CM SERVICE ACCEPT, CP-DATA, CP-ACK, CP-DATA, CP-ACK */
	{ 13, 5, { { UM_NETWORK, LINK0, 2, 0 }, { UM_MOBILE, LINK3, 0, 0 }, { UM_MOBILE, LINK3, 20, 1 }, { UM_NETWORK, LINK3, 2, 0 },
		{ UM_NETWORK, LINK3, 5, 0 }, { UM_MOBILE, LINK3, 2, 0 }, { UM_NETWORK, LINK0, RELEASE, 0 } } },
	/* the same to the mobile */
	{ 13, 2, { { UM_NETWORK, LINK3, 0, 0 }, { UM_NETWORK, LINK3, 27, 1 }, { UM_MOBILE, LINK3, 2, 0 }, { UM_MOBILE, LINK3, 5, 0 },
		{ UM_NETWORK, LINK3, 2, 0 }, { UM_NETWORK, LINK0, RELEASE, 0 } } },
	/* detach */
	{ 12, 0, { { UM_NETWORK, LINK0, RELEASE, 0 } } },
};

static const struct session *session;
static uint64_t seed;
static int text_octets, at[2]; /* of each side the step that it makes or awaits */
static um_datalink mobile;
static struct side network;
static bool is_released, is_over;  /* the mobile heard CHANNEL RELEASE; the session does not go on */
static long heard_at, released_at; /* when the network last heard the mobile, and sent CHANNEL RELEASE */

static um_message message_of(int count)
{
	um_message m = { .count = (uint8_t)count };
	for (int i = 0; i < count; i++)
		m.octets[i] = (uint8_t)drawn(seed, 4, (uint64_t)i);
	return m;
}

static int count_of(const struct step *s)
{
	return s->count + (s->text ? text_octets : 0);
}

static bool is_step(const struct step *s)
{
	return s->count || s->link == LINK3;
}

static void release(void)
{
	um_message m = message_of(RELEASE);
	network.player->send(&network, LINK0, &m);
	released_at = now;
}

static bool make(int role, const struct step *s)
{
	um_message m = message_of(count_of(s));
	if (role == UM_MOBILE)
		return (m.count ? um_datalink_send(&mobile, s->link ? 3 : 0, &m) : um_datalink_open_bare(&mobile)) == UM_END_DONE;
	return m.count ? network.player->send(&network, s->link, &m) : network.player->open(&network, s->link, &m);
}

/* A side makes its steps until it awaits the other side's, or that SAPI 3 is open. */
static void proceed(int role)
{
	const struct step *s = &session->steps[at[role]];
	for (; s->by == role && is_step(s); s++) {
		at[role]++;
		is_over = is_over || !make(role, s);
		if (!is_step(s + 1))
			released_at = now;
		if (!s->count)
			return;
	}
}

static void heard(int role, int link, enum event event, int count)
{
	const struct step *s = &session->steps[at[role]];
	bool is_next = s->by != role && (event == OPENED ? link == LINK3 && !s->count : s->link == link && count == count_of(s));
	if (role == UM_NETWORK)
		heard_at = now;
	if (role == UM_MOBILE && released_at != NEVER && link == LINK0 && event == GOT && count == RELEASE)
		is_released = true;
	else if (event == GOT && !is_next)
		is_over = true; /* libosmogsm cuts a message if it takes a repeated SABM for a new one */
	at[role] += is_next;
	proceed(role);
}

static void told_network(struct side *s, int link, enum event event, const uint8_t *octets, int count)
{
	(void)s, (void)octets;
	if (event == OPENED || event == GOT)
		heard(UM_NETWORK, link, event, count);
}

static void told_mobile(const um_report *r)
{
	for (int i = 0; i < r->notice_count; i++) {
		const um_notice *n = &r->notices[i];
		if (n->kind == UM_OPENED || n->kind == UM_GOT)
			heard(UM_MOBILE, r->sapis[i] ? LINK3 : LINK0, n->kind == UM_GOT ? GOT : OPENED, n->message.count);
		is_over = is_over || n->kind == UM_ENDED;
	}
}

static void begin(void)
{
	static const struct session *const weighted[] = { sessions, sessions + 1, sessions + 1, sessions + 2, sessions + 2, sessions + 3 };
	session = weighted[drawn(seed, 3, 0) % 6];
	text_octets = 1 + (int)(drawn(seed, 3, 1) % LONGEST_TEXT);
	um_message info = message_of(session->info);
	at[0] = at[1] = 0;
	is_released = is_over = false;
	heard_at = now;
	released_at = NEVER;
	network = (struct side){
		.player = &osmo_player, .role = UM_NETWORK, .on = UM_SDCCH, .polled = true, .t200 = SECOND, .report = told_network
	};
	network.player->begin(&network);
	if (!um_datalink_new(&mobile, UM_MOBILE, UM_SDCCH, T200, T200) || um_datalink_open(&mobile, &info) != UM_END_DONE)
		abort();
}

/* The rule: the block of the mobile's last frame, if it is an RR with F = 0, again in the next slots that are free. With F = 1 it is not:
 * an RR with F = 0 would acknowledge to libosmogsm what it polled for, and leave it waiting for F = 1. */
struct rule { int again, left; uint8_t block[23]; };
static struct { long complete, frames, rr, again, polls; } total;

static bool next_of_mobile(struct rule *rule, uint8_t block[23])
{
	static const uint8_t layer1[2];
	um_report r;
	um_frame f;
	uint8_t answer = um_datalink_next(&mobile, layer1, block, &r);
	if (answer == UM_END_FREE) {
		memcpy(block, rule->block, 23);
		total.again += rule->left > 0;
		return rule->left-- > 0;
	}
	told_mobile(&r);
	rule->left = 0;
	if (um_read_frame(block, UM_SDCCH, &f) != UM_FRAME || f.kind != UM_RR)
		return true;
	total.rr++;
	rule->left = f.pf ? 0 : rule->again;
	memcpy(rule->block, block, 23);
	return true;
}

static bool is_lost(int role, long slot, const int loss[2])
{
	return (int)(drawn(seed, 1 + (uint64_t)role, (uint64_t)slot) % 1000) < loss[role];
}

static bool is_going_on(void)
{
	return !is_over && !is_released && (released_at == NEVER || now - released_at < GOES);
}

static void run(int again, const int loss[2])
{
	struct rule rule = { .again = again };
	uint8_t block[23];
	um_report r;
	long began = now;
	begin();
	for (long slot = 0; is_going_on(); slot++) {
		network.player->timers(&network);
		if (next_of_mobile(&rule, block) && !is_lost(UM_MOBILE, slot, loss))
			network.player->take(&network, block);
		if (released_at == NEVER && now - heard_at >= STANDS_STILL)
			release();
		now += DOWN;
		network.player->timers(&network);
		if (network.player->next(&network, block)) {
			total.polls += (block[1] & 0x11) == 0x10;
			if (!is_lost(UM_NETWORK, slot, loss) && um_datalink_take(&mobile, block, &r) == UM_END_DONE)
				told_mobile(&r);
		}
		now += SLOT - DOWN;
	}
	if (is_released && at[UM_MOBILE] >= session->goal) {
		total.complete++;
		total.frames += now - began;
	}
	network.player->end(&network);
}

int main(int count_of_words, char **words)
{
	if (count_of_words != 6) {
		fprintf(stderr, "twice AGAIN UP DOWN FIRST COUNT\n");
		return 2;
	}
	const int again = atoi(words[1]), loss[2] = { atoi(words[2]), atoi(words[3]) };
	const uint64_t first = strtoull(words[4], NULL, 10), count = strtoull(words[5], NULL, 10);
	quiet_osmo();
	for (seed = first; seed < first + count; seed++)
		run(again, loss);
	printf("again %d up %d down %d: sessions %llu complete %ld frames %ld rr %ld again %ld polls %ld\n", again, loss[0], loss[1],
		(unsigned long long)count, total.complete, total.complete ? total.frames / total.complete : 0, total.rr, total.again, total.polls);
	return 0;
}
