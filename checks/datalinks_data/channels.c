/* A call that changes its channel again and again, over um.h, slot by slot: assignments and handovers, those that fail, and returns.
 *
 *   channels [CHANGES [BROKEN [SEED]]]
 *
 * The mobile leaves its channel without an answer. The network serves the old channel and the new one until the mobile has opened the link
 * of one of them. Each side sends again, over the link that was opened last, what was not acknowledged, with the N(SD) that it had, and
 * drops a message with the N(SD) of the last one taken. On a dead new channel, or one of which only the uplink works, the mobile returns.
 *
 * BROKEN is what breaks a premise: `nosd` has no N(SD), `early` sends one message more again, `late` one less, `stale` passes blocks of the
 * old channel on the new one, `read` reads what was not acknowledged only after a local release. The status is 1 if a claim failed. */
#include "draw.h"
#include "um.h"
#include <stdio.h>
#include <stdlib.h>
#include <string.h>

enum broken { NOTHING, NOSD, EARLY, LATE, STALE, READ };
static const char *const BROKEN[] = { "nothing", "nosd", "early", "late", "stale", "read" };

enum claim { TAKEN, ACKED, AGAIN, HELD, CLAIMS };
static const char *const CLAIM[CLAIMS] = {
	"over all channels each message is taken once, in order, whole and unchanged",
	"a message is acknowledged only after it was taken, once and in order",
	"after an opening at most one message comes that was taken before, the last one",
	"the messages that are not acknowledged can be read, in order",
};

enum { RING = 8, OLD = 0, NEW = 1, HELD_MOST = 8 };
enum phase { STAYS, TRIES, RETURNS };

/* A channel: its data links, what is on the air each way, and what each side sent over it since its link was opened. */
typedef struct {
	bool exists;
	um_datalink sides[2];
	struct { uint8_t octets[23]; bool arrives; } air[2][RING];
	bool is_open[2], came_again[2];
	uint32_t first[2], given[2], acked[2]; /* the first message given; how many were given, and acknowledged */
	uint32_t lost[2];                      /* percent of the blocks each way */
} channel;

/* Layer 3 of a side: how many messages it knows to be acknowledged, and took. */
typedef struct {
	uint32_t acked, taken;
	int over; /* the channel over which it sends */
} party;

static channel channels[2];
static party parties[2];
static enum phase phase;
static enum broken broken;
static int at; /* the channel on which the mobile is */
static uint32_t slot, delay, t200, stay, patience, opens_first;
static uint64_t failures[CLAIMS], changes, tries_failed, returns, openings, given_up, taken, dropped;

static void claim(enum claim what, bool holds)
{
	if (!holds && failures[what]++ == 0 && broken == NOTHING)
		printf("channels: fails after %llu changes, slot %u: %s\n", (unsigned long long)changes, (unsigned)slot, CLAIM[what]);
}

/* The message of a side with this number, from 0: its N(SD), its side, its number, and octets that these determine. */
static um_message message_of(int side, uint32_t number)
{
	um_message m = { 0 };
	m.count = (uint8_t)(6 + (number * 37 + (uint32_t)side * 11) % (number % 16 ? 40 : 246));
	m.octets[0] = (uint8_t)(number & 1);
	m.octets[1] = (uint8_t)side;
	for (int i = 2; i < m.count; i++)
		m.octets[i] = (uint8_t)(i < 6 ? number >> 8 * (i - 2) : number * 5 + (uint32_t)i);
	return m;
}

static bool is_same(const um_message *a, const um_message *b) { return a->count == b->count && !memcmp(a->octets, b->octets, a->count); }

static um_datalink *link_of(int on, int side) { return &channels[on].sides[side]; }

/* What is not acknowledged on the channel that a side leaves. */
static void check_held(int on, int side)
{
	const channel *c = &channels[on];
	um_message held, sent;
	uint32_t count = c->given[side] - c->acked[side];
	if (broken == READ)
		claim(HELD, um_datalink_close_local(link_of(on, side), 0) == UM_END_DONE);
	for (uint32_t i = 0; i < count; i++) {
		sent = message_of(side, c->first[side] + c->acked[side] + i);
		claim(HELD, um_datalink_unacked(link_of(on, side), 0, (uint8_t)i, &held) == UM_END_DONE && is_same(&held, &sent));
	}
	claim(HELD, um_datalink_unacked(link_of(on, side), 0, (uint8_t)count, &held) == UM_END_EMPTY);
}

/* The link of a side is open anew: what is not acknowledged goes over it, from the first on. */
static void opened(int on, int side)
{
	channel *c = &channels[on];
	uint32_t from = parties[side].acked;
	if (broken == EARLY && from)
		from--;
	if (broken == LATE)
		from++;
	c->first[side] = from;
	c->given[side] = c->acked[side] = 0;
	c->is_open[side] = true;
	c->came_again[side] = false;
	parties[side].over = on;
	openings++;
}

/* A message comes: the next one, or the last one again. */
static void got(int on, int side, const um_message *m)
{
	channel *c = &channels[on];
	party *own = &parties[side];
	um_message sent;
	own->over = on;
	if (broken != NOSD && own->taken && (m->octets[0] & 1) == ((own->taken - 1) & 1)) {
		sent = message_of(!side, own->taken - 1);
		claim(AGAIN, !c->came_again[side] && is_same(&sent, m));
		c->came_again[side] = true;
		dropped++;
		return;
	}
	sent = message_of(!side, own->taken);
	claim(TAKEN, is_same(&sent, m));
	own->taken++;
	taken++;
}

static void acked(int on, int side, uint64_t number)
{
	channel *c = &channels[on];
	uint32_t known = c->first[side] + ++c->acked[side];
	claim(ACKED, number == c->acked[side] && c->acked[side] <= c->given[side] && known <= parties[!side].taken);
	if (known > parties[side].acked)
		parties[side].acked = known;
	parties[side].over = on;
}

static void hear(int on, int side, const um_report *report)
{
	for (int i = 0; i < report->notice_count; i++) {
		const um_notice *n = &report->notices[i];
		if (n->kind == UM_OPENED)
			opened(on, side);
		else if (n->kind == UM_GOT)
			got(on, side, &n->message);
		else if (n->kind == UM_ACKED)
			acked(on, side, n->number);
		else if (n->kind == UM_ENDED) {
			channels[on].is_open[side] = false;
			given_up++;
		} else
			claim(TAKEN, false);
	}
}

static void make_channel(int on)
{
	channel *c = &channels[on];
	memset(c, 0, sizeof *c);
	c->exists = true;
	for (uint8_t side = 0; side < 2; side++)
		if (!um_datalink_new_for(&c->sides[side], side, UM_SDCCH, UM_NORMAL, (uint8_t)t200, (uint8_t)(t200 + 2)))
			exit(2);
	for (int side = 0; side < 2; side++)
		c->lost[side] = (uint32_t[]){ 0, 0, 5, 10, 30 }[draw(5)];
}

static void open_link(int on, int side)
{
	if (um_datalink_establish(link_of(on, side), 0) != UM_END_DONE)
		channels[on].is_open[side] = false;
}

/* The mobile goes to a new channel, which in one of four cases is dead, or deaf to it. */
static void leave(void)
{
	uint32_t kind = draw(8);
	changes++;
	if (channels[at].exists)
		for (int side = 0; side < 2; side++)
			if (channels[at].is_open[side])
				check_held(at, side);
	if (at == NEW || !channels[OLD].exists) {
		channels[OLD] = channels[NEW];
		for (int side = 0; side < 2; side++)
			parties[side].over = OLD;
	}
	make_channel(NEW);
	if (kind < 2)
		channels[NEW].lost[UM_NETWORK] = 100;
	if (kind == 0)
		channels[NEW].lost[UM_MOBILE] = 100;
	at = NEW;
	phase = TRIES;
	patience = 4 + draw(40);
	/* the mobile opens the link, or the network, or both */
	opens_first = kind < 6 ? 1 : kind - 4;
	if (opens_first & 1)
		open_link(NEW, UM_MOBILE);
}

static void go_back(void)
{
	tries_failed++;
	if (!channels[OLD].exists) {
		leave();
		return;
	}
	at = OLD;
	phase = RETURNS;
	channels[OLD].is_open[UM_MOBILE] = false;
	open_link(OLD, UM_MOBILE);
}

static void settle(int gone)
{
	channels[gone].exists = false;
	phase = STAYS;
	stay = 5 + draw(60);
}

/* The mobile's plan, before its slot. */
static void plan(void)
{
	const um_datalink *link = link_of(at, UM_MOBILE);
	bool is_open = channels[at].is_open[UM_MOBILE] && link->link0.end.state == UM_OPEN;
	if (phase != STAYS && is_open) {
		returns += phase == RETURNS;
		settle(phase == TRIES ? OLD : NEW);
	} else if (phase == TRIES && (patience-- == 0 || link->link0.end.state == UM_CLOSED))
		go_back();
	else if (phase == RETURNS && link->link0.end.state == UM_CLOSED) {
		channels[OLD].exists = channels[NEW].exists = false;
		leave();
	} else if (phase == STAYS && stay-- == 0)
		leave();
}

static void send_now_and_then(int on, int side)
{
	channel *c = &channels[on];
	while (c->is_open[side] && parties[side].over == on && c->given[side] - c->acked[side] < HELD_MOST && draw(3)) {
		um_message m = message_of(side, c->first[side] + c->given[side]);
		if (um_datalink_send(link_of(on, side), 0, &m) != UM_END_DONE)
			return;
		c->given[side]++;
	}
}

static void arrive(int on, int side)
{
	channel *c = &channels[on];
	um_report report;
	uint32_t from = (slot + RING - 1 - delay) % RING;
	if (c->air[!side][from].arrives && um_datalink_take(link_of(on, side), c->air[!side][from].octets, &report) == UM_END_DONE)
		hear(on, side, &report);
	c->air[!side][from].arrives = false;
	if (broken == STALE && on == NEW && channels[OLD].exists && draw(4) == 0 &&
	    um_datalink_take(link_of(on, side), channels[OLD].air[!side][draw(RING)].octets, &report) == UM_END_DONE)
		hear(on, side, &report);
}

static void serve(int on, int side)
{
	channel *c = &channels[on];
	um_report report;
	uint8_t layer1[2] = { 0, 0 };
	uint32_t to = slot % RING;
	if (on == NEW && side == UM_NETWORK && phase == TRIES && opens_first & 2 && c->sides[side].link0.end.state == UM_IDLE)
		open_link(on, side);
	send_now_and_then(on, side);
	c->air[side][to].arrives = um_datalink_next(link_of(on, side), layer1, c->air[side][to].octets, &report) == UM_END_DONE &&
	                           draw(100) >= c->lost[side];
	hear(on, side, &report);
}

/* The network serves each channel; the mobile one. */
static void one_slot(void)
{
	for (int on = OLD; on <= NEW; on++)
		for (int side = 0; side < 2; side++)
			if (channels[on].exists && (side == UM_NETWORK || on == at))
				arrive(on, side);
			else
				channels[on].air[!side][(slot + RING - 1 - delay) % RING].arrives = false;
	plan();
	for (int on = OLD; on <= NEW; on++)
		for (int side = 0; side < 2; side++)
			if (channels[on].exists && (side == UM_NETWORK || on == at))
				serve(on, side);
	slot++;
}

/* A call begins on a channel with contention resolution. */
static void start(void)
{
	static const um_message info = { 3, { 1, 2, 3 } };
	memset(channels, 0, sizeof channels);
	memset(parties, 0, sizeof parties);
	slot = 0;
	delay = draw(3);
	t200 = 2 + 2 * delay + draw(3);
	make_channel(OLD);
	for (uint8_t side = 0; side < 2; side++)
		if (!um_datalink_new(link_of(OLD, side), side, UM_SDCCH, (uint8_t)t200, (uint8_t)(t200 + 2)))
			exit(2);
	if (um_datalink_open(link_of(OLD, UM_MOBILE), &info) != UM_END_DONE)
		exit(2);
	at = OLD;
	settle(NEW);
}

int main(int argc, char **argv)
{
	uint64_t wanted = argc > 1 ? strtoull(argv[1], NULL, 10) : 20000, slots = 0;
	bool failed = false;
	for (int i = 0; i <= READ; i++)
		if (argc > 2 && !strcmp(argv[2], BROKEN[i]))
			broken = (enum broken)i;
	seed(argc > 3 ? strtoull(argv[3], NULL, 10) : 0);
	while (changes < wanted) {
		start();
		for (uint64_t until = changes + 1 + draw(40); changes < until && slot < 20000; slots++)
			one_slot();
	}
	printf("channels: %llu changes of channel in %llu slots, %llu of them in vain, %llu returns: %llu openings, %llu messages taken, "
		"%llu that came twice dropped, %llu links given up\n", (unsigned long long)changes, (unsigned long long)slots, (unsigned long long)tries_failed,
		(unsigned long long)returns, (unsigned long long)openings, (unsigned long long)taken, (unsigned long long)dropped,
		(unsigned long long)given_up);
	for (int i = 0; i < CLAIMS; i++) {
		printf("channels: fails %llu times: %s\n", (unsigned long long)failures[i], CLAIM[i]);
		failed |= failures[i] != 0;
	}
	return failed;
}
