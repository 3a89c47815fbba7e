/* Two data links of one channel whose links are opened, released, given up and opened again at random, through um.h, slot by slot.
 *
 *   openings [SLOTS [BROKEN [SEED]]]
 *
 * BROKEN is what breaks a premise: `t200` has a T200 below the round trip, `stale` passes an old block again, `local` ends links by a local
 * release while their frames are on the air, `octets` changes an octet. The status is 1 if a claim failed. */
#include "draw.h"
#include "um.h"
#include <stdio.h>
#include <stdlib.h>
#include <string.h>

enum broken { NOTHING, T200, STALE, LOCAL, OCTETS };
static const char *const BROKEN[] = { "nothing", "t200", "stale", "local", "octets" };

enum claim { PREFIX, FORWARD, ACKED, CLAIMS };
static const char *const CLAIM[CLAIMS] = {
	"in each opening a side delivers a prefix of what the other side sent in one of its openings, each message once",
	"the openings whose messages a side delivers never go back",
	"a message is acknowledged only after its delivery, once and in order",
};

enum { RING = 8, OPENINGS = 4096, MOST = 251 };

/* What an end of a link did: its opening, from 1 on, how many messages it sent and knows to be acknowledged in it; what the other side
 * delivered of each of its openings; and the opening of the other side whose messages it delivers now, and how many. */
typedef struct {
	uint32_t opening, sent, acked, delivered[OPENINGS], of, last_of, count;
} history;

typedef struct {
	um_datalink sides[2];
	history ends[2][2];
	struct { uint8_t octets[23]; bool arrives; } air[2][RING];
	uint32_t number, slot, length, delay, lost, opens, closes, sends;
	bool is_normal;
} run;

static enum broken broken;
static uint64_t failures[CLAIMS], slots, opened, opened_in_open, got, ended;

static void claim(const run *r, enum claim what, bool holds)
{
	if (!holds && failures[what]++ == 0 && broken == NOTHING)
		printf("openings: fails in run %u, slot %u: %s\n", (unsigned)r->number, (unsigned)r->slot, CLAIM[what]);
}

static um_end *end_of(run *r, int side, int link) { return link ? &r->sides[side].link3.end : &r->sides[side].link0.end; }

/* A message says of which opening it is, and of which number in it; both determine its other octets. */
static um_message message_of(int side, int link, uint32_t opening, uint32_t number)
{
	um_message m = { 0 };
	uint32_t x = (opening << 10 ^ number << 2 ^ (uint32_t)(side << 1 | link)) * 2654435761u;
	m.count = (uint8_t)(5 + (x >> 24) % (x & 3 ? 30 : MOST - 4));
	m.octets[0] = (uint8_t)(side << 1 | link);
	for (int i = 0; i < 2; i++) {
		m.octets[1 + i] = (uint8_t)(opening >> 8 * i);
		m.octets[3 + i] = (uint8_t)(number >> 8 * i);
	}
	for (int i = 5; i < m.count; i++)
		m.octets[i] = (uint8_t)(x + (uint32_t)i * 7);
	return m;
}

static void deliver(run *r, int side, int link, const um_message *m)
{
	history *own = &r->ends[side][link], *other = &r->ends[!side][link];
	uint32_t of = m->octets[1] | (uint32_t)m->octets[2] << 8, number = m->octets[3] | (uint32_t)m->octets[4] << 8;
	um_message sent = message_of(!side, link, of, number);
	bool is_sent = of && of <= other->opening && m->count == sent.count && !memcmp(m->octets, sent.octets, sent.count);
	got++;
	if (!own->of) {
		own->of = of;
		claim(r, FORWARD, of >= own->last_of);
	}
	claim(r, PREFIX, is_sent && of == own->of && number == own->count && (of < other->opening || number < other->sent));
	own->last_of = of;
	own->count++;
	if (is_sent && other->delivered[of] < own->count)
		other->delivered[of] = own->count;
}

static void begin_opening(run *r, int side, int link)
{
	history *own = &r->ends[side][link];
	own->opening++;
	own->sent = own->acked = own->of = own->count = 0;
	opened++;
}

static void hear(run *r, int side, const um_report *report)
{
	for (int i = 0; i < report->notice_count; i++) {
		const um_notice *n = &report->notices[i];
		int link = report->sapis[i] == 3;
		history *own = &r->ends[side][link];
		if (n->kind == UM_OPENED)
			begin_opening(r, side, link);
		else if (n->kind == UM_GOT)
			deliver(r, side, link, &n->message);
		else if (n->kind == UM_ACKED) {
			own->acked++;
			claim(r, ACKED, n->number == own->acked && own->acked <= own->sent && own->acked <= own->delivered[own->opening]);
		} else if (n->kind == UM_ENDED)
			ended++;
		else
			claim(r, PREFIX, false);
	}
}

static void arrive(run *r, int side)
{
	uint32_t from = (r->slot + RING - 1 - r->delay) % RING;
	um_report report;
	uint8_t block[23];
	memcpy(block, r->air[!side][from].octets, 23);
	if (broken == STALE && draw(30) == 0)
		memcpy(block, r->air[!side][draw(RING)].octets, 23);
	if (broken == OCTETS && draw(50) == 0)
		block[draw(23)] ^= (uint8_t)(1 + draw(255));
	if (r->air[!side][from].arrives && um_datalink_take(&r->sides[side], block, &report) == UM_END_DONE)
		hear(r, side, &report);
	r->air[!side][from].arrives = false;
}

/* Opens the link, unless it is being opened or released; an open one now and then. */
static void open_link(run *r, int side, int link)
{
	static const um_message info = { 2, { 7, 7 } };
	const um_end *end = end_of(r, side, link);
	um_datalink *own = &r->sides[side];
	bool is_open = end->state == UM_OPEN;
	if (is_open && draw(4))
		return;
	if (link == 0 && !r->is_normal && !is_open)
		(void)(side == UM_MOBILE && um_datalink_open(own, &info) == UM_END_DONE);
	else if (um_datalink_establish(own, (uint8_t)(3 * link)) == UM_END_DONE)
		opened_in_open += is_open;
}

static void call(run *r, int side, int link)
{
	history *own = &r->ends[side][link];
	um_datalink *data_link = &r->sides[side];
	uint8_t sapi = (uint8_t)(3 * link);
	if (draw(r->opens) == 0)
		open_link(r, side, link);
	else if (draw(r->closes) == 0)
		(void)(um_datalink_close(data_link, sapi) == UM_END_DONE);
	else if (broken == LOCAL && draw(9) == 0)
		(void)(um_datalink_close_local(data_link, sapi) == UM_END_DONE);
	else if (draw(r->sends) == 0) {
		um_message m = message_of(side, link, own->opening, own->sent);
		own->sent += um_datalink_send(data_link, sapi, &m) == UM_END_DONE;
	}
}

static void send(run *r, int side)
{
	um_report report;
	uint8_t layer1[2] = { 0, 0 };
	uint32_t to = r->slot % RING;
	bool is_frame = um_datalink_next(&r->sides[side], layer1, r->air[side][to].octets, &report) == UM_END_DONE;
	r->air[side][to].arrives = is_frame && draw(100) >= r->lost;
	hear(r, side, &report);
}

static bool start(run *r, uint32_t number)
{
	uint32_t t200;
	uint8_t channel = (uint8_t)draw(2);
	memset(r, 0, sizeof *r);
	r->number = number;
	r->delay = broken == T200 ? 1 + draw(2) : draw(3);
	t200 = broken == T200 ? 1 + 2 * r->delay : 2 + 2 * r->delay + draw(3);
	r->is_normal = draw(2);
	r->length = 100 + draw(1500);
	r->lost = draw(4) ? draw(60) : 5;
	r->opens = 2 + draw(30);
	r->closes = draw(3) ? 60 : 200;
	r->sends = 2 + draw(12);
	for (uint8_t side = 0; side < 2; side++)
		if (!um_datalink_new_for(&r->sides[side], side, channel, r->is_normal, (uint8_t)t200, (uint8_t)(t200 + 2)) ||
		    um_datalink_main(&r->sides[side], true) != UM_END_DONE)
			return false;
	return true;
}

static void one_slot(run *r)
{
	for (int side = 0; side < 2; side++)
		arrive(r, side);
	for (int side = 0; side < 2; side++)
		for (int link = 0; link < 2; link++)
			call(r, side, link);
	for (int side = 0; side < 2; side++)
		send(r, side);
	slots++;
}

int main(int argc, char **argv)
{
	uint64_t wanted = argc > 1 ? strtoull(argv[1], NULL, 10) : 1000000;
	bool failed = false;
	static run r;
	for (int i = 0; i <= OCTETS; i++)
		if (argc > 2 && !strcmp(argv[2], BROKEN[i]))
			broken = (enum broken)i;
	seed(argc > 3 ? strtoull(argv[3], NULL, 10) : 0);
	for (uint32_t number = 0; slots < wanted; number++) {
		if (!start(&r, number))
			return 1;
		for (; r.slot < r.length; r.slot++)
			one_slot(&r);
	}
	printf("openings: %llu slots, %llu openings, %llu of an open link: %llu messages, %llu links ended\n", (unsigned long long)slots,
		(unsigned long long)opened, (unsigned long long)opened_in_open, (unsigned long long)got, (unsigned long long)ended);
	for (int i = 0; i < CLAIMS; i++) {
		printf("openings: fails %llu times: %s\n", (unsigned long long)failures[i], CLAIM[i]);
		failed |= failures[i] != 0;
	}
	return failed;
}
