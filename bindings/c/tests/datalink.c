/* Tests data links through um.h: what each side sends slot by slot, with T200 of two slots and without delay. The blocks are written by
 * hand from 3GPP TS 44.006, and the slots in which they come from the rules of docs/DECISIONS.md. */
#include "um.h"
#include <stdio.h>
#include <string.h>

static int failed;

static void check(bool holds, const char *what)
{
	if (!holds) {
		printf("library: %s\n", what);
		failed = 1;
	}
}

static const uint8_t L1[2] = { 0x5a, 0xa5 };

/* One channel: what each side sent in the last slot, and what it reported last. */
typedef struct pair {
	um_datalink sides[2]; /* the mobile, the network */
	uint8_t blocks[2][23];
	bool arrives[2];
	uint8_t answers[2];
	um_report reports[2]; /* of um_datalink_take */
	um_report given_up[2]; /* of um_datalink_next */
} pair;

static void start(pair *p, uint8_t channel)
{
	memset(p, 0, sizeof *p);
	for (int side = 0; side < 2; side++)
		check(um_datalink_new(&p->sides[side], (uint8_t)side, channel, 2, 4), "a new data link");
}

static void start_normal(pair *p, uint8_t channel)
{
	memset(p, 0, sizeof *p);
	for (int side = 0; side < 2; side++)
		check(um_datalink_new_for(&p->sides[side], (uint8_t)side, channel, UM_NORMAL, 2, 4), "a new data link");
}

/* What was sent in the last slot arrives. */
static void arrive(pair *p)
{
	for (int side = 0; side < 2; side++) {
		memset(&p->reports[side], 0, sizeof p->reports[side]);
		if (p->arrives[!side])
			check(um_datalink_take(&p->sides[side], p->blocks[!side], &p->reports[side]) == UM_END_DONE, "a block is taken");
	}
}

/* Both sides fill their slot; the block of a side is lost if its bit is set. */
static void fill(pair *p, int lost)
{
	for (int side = 0; side < 2; side++) {
		memset(p->blocks[side], 0xee, 23);
		p->answers[side] = um_datalink_next(&p->sides[side], L1, p->blocks[side], &p->given_up[side]);
		p->arrives[side] = !(lost >> side & 1);
	}
}

static void slot(pair *p, int lost)
{
	arrive(p);
	fill(p, lost);
}

static bool sends(const pair *p, int side, const char *octets, size_t count)
{
	const uint8_t *block = p->blocks[side];
	size_t at = p->sides[side].link0.end.channel == UM_SACCH ? 2 : 0;
	if (p->answers[side] != UM_END_DONE || (at && memcmp(block, L1, 2)) || memcmp(block + at, octets, count))
		return false;
	for (size_t i = at + count; i < 23; i++)
		if (block[i] != 0x2b)
			return false;
	return true;
}

static bool is_free(const pair *p, int side)
{
	const uint8_t *block = p->blocks[side];
	size_t at = p->sides[side].link0.end.channel == UM_SACCH ? 2 : 0;
	return p->answers[side] == UM_END_FREE && block[at] == (side ? 0x03 : 0x01) && block[at + 1] == 0x03 && block[at + 2] == 0x01;
}

static bool reports(const um_report *r, uint8_t sapi, uint8_t kind, uint8_t count)
{
	return r->notice_count == 1 && r->sapis[0] == sapi && r->notices[0].kind == kind && r->notices[0].message.count == count;
}

static um_message message_of(uint8_t octet, uint8_t count)
{
	um_message m = { 0 };
	m.count = count;
	memset(m.octets, octet, count);
	return m;
}

static void open_both(pair *p, uint8_t channel)
{
	um_message info = message_of(1, 1);
	start(p, channel);
	check(um_datalink_open(&p->sides[0], &info) == UM_END_DONE, "the mobile opens");
	fill(p, 0);
	check(sends(p, 0, "\x01\x3f\x05\x01", 4) && is_free(p, 1), "SABM in the slot of the call");
	slot(p, 0);
	check(reports(&p->reports[1], 0, UM_OPENED, 1) && sends(p, 1, "\x01\x73\x05\x01", 4) && is_free(p, 0), "UA in the next slot");
	arrive(p);
	check(reports(&p->reports[0], 0, UM_OPENED, 1), "the mobile reports opened");
}

/* Two segments: a round trip of two slots each. */
static void test_message(void)
{
	pair p;
	um_message m = message_of(9, 21);
	open_both(&p, UM_SDCCH);
	check(um_datalink_send(&p.sides[0], 0, &m) == UM_END_DONE, "a message");
	fill(&p, 0);
	check(sends(&p, 0, "\x01\x00\x53\x09\x09\x09\x09\x09\x09\x09\x09\x09\x09\x09\x09\x09\x09\x09\x09\x09\x09\x09\x09", 23), "first segment");
	slot(&p, 0);
	check(sends(&p, 1, "\x01\x21\x01", 3) && is_free(&p, 0), "RR 1");
	slot(&p, 0);
	check(sends(&p, 0, "\x01\x02\x05\x09", 4) && is_free(&p, 1), "second segment");
	slot(&p, 0);
	check(reports(&p.reports[1], 0, UM_GOT, 21) && sends(&p, 1, "\x01\x41\x01", 3), "got, RR 2");
	slot(&p, 0);
	check(reports(&p.reports[0], 0, UM_ACKED, 0) && p.reports[0].notices[0].number == 1 && is_free(&p, 0), "acked 1");
}

/* A lost I frame is repeated after T200, with P = 1 and the N(R) of now; a lost answer costs another repeat. */
static void test_loss(void)
{
	pair p;
	um_message m = message_of(9, 2), other = message_of(8, 1);
	open_both(&p, UM_SDCCH);
	check(um_datalink_send(&p.sides[0], 0, &m) == UM_END_DONE, "a call of layer 3");
	fill(&p, 1);
	check(sends(&p, 0, "\x01\x00\x09\x09\x09", 5), "an I frame that is lost");
	arrive(&p);
	check(um_datalink_send(&p.sides[1], 0, &other) == UM_END_DONE, "a call of layer 3");
	fill(&p, 0);
	check(is_free(&p, 0) && sends(&p, 1, "\x03\x00\x05\x08", 4), "T200 counts; the network's I frame");
	slot(&p, 0);
	check(reports(&p.reports[0], 0, UM_GOT, 1) && sends(&p, 0, "\x01\x30\x09\x09\x09", 5), "the repeat, P = 1, says N(R) = 1, and no RR");
	slot(&p, 2);
	const um_report *both = &p.reports[1];
	check(both->notice_count == 2 && both->notices[0].kind == UM_ACKED && both->notices[1].kind == UM_GOT, "acked, got");
	check(sends(&p, 1, "\x01\x31\x01", 3) && is_free(&p, 0), "RR, F = 1, which is lost");
	slot(&p, 0);
	check(sends(&p, 0, "\x01\x30\x09\x09\x09", 5), "a second repeat");
	slot(&p, 0);
	check(sends(&p, 1, "\x01\x39\x01", 3), "REJ, F = 1");
	slot(&p, 0);
	check(reports(&p.reports[0], 0, UM_ACKED, 0) && is_free(&p, 0) && p.sides[0].link0.end.repeats == 0, "acked");
}

/* The mobile takes a frame that the network did not send. */
static bool takes(pair *p, const char *octets, um_report *r)
{
	uint8_t block[23];
	memset(block, 0x2b, sizeof block);
	memcpy(block, octets, 3);
	return um_datalink_take(&p->sides[0], block, r) == UM_END_DONE;
}

/* A DM with F = 1 ends the open link if it answers a repeat with P = 1, and one with F = 0 always. */
static void test_dm(void)
{
	pair p;
	um_message m = message_of(9, 1);
	um_report r;
	open_both(&p, UM_SDCCH);
	check(takes(&p, "\x01\x1f\x01", &r) && r.notice_count == 0 && p.sides[0].link0.end.state == UM_OPEN, "nothing awaits an answer");
	check(um_datalink_send(&p.sides[0], 0, &m) == UM_END_DONE, "a call of layer 3");
	fill(&p, 1);
	check(sends(&p, 0, "\x01\x00\x05\x09", 4) && takes(&p, "\x01\x1f\x01", &r) && r.notice_count == 0, "P = 0");
	fill(&p, 1);
	fill(&p, 1);
	check(sends(&p, 0, "\x01\x10\x05\x09", 4) && takes(&p, "\x01\x1f\x01", &r), "P = 1");
	check(reports(&r, 0, UM_ENDED, 0) && r.notices[0].reason == UM_FAILED, "the answer to the repeat");
	open_both(&p, UM_SDCCH);
	check(takes(&p, "\x01\x0f\x01", &r) && reports(&r, 0, UM_ENDED, 0) && r.notices[0].reason == UM_FAILED, "F = 0");
}

static bool shows(const pair *p, const char *octets, size_t count, unsigned fault)
{
	uint8_t block[23];
	memset(block, 0x2b, sizeof block);
	memcpy(block, octets, count);
	return um_datalink_fault(&p->sides[0], block) == fault;
}

/* What the network may not send: V(A) = V(S) = 0, and then V(S) = 1. */
static void test_faults(void)
{
	pair p;
	um_message m = message_of(9, 1);
	start(&p, UM_SDCCH);
	check(um_datalink_open(&p.sides[0], &m) == UM_END_DONE && shows(&p, "\x01\x73\x05\x08", 4, UM_NO_FAULT), "a UA is awaited");
	open_both(&p, UM_SDCCH);
	check(shows(&p, "\x01\x73\x01", 3, UM_FAULT_UA) && shows(&p, "\x01\x63\x01", 3, UM_FAULT_UA), "a UA, F = 1 and 0");
	check(shows(&p, "\x01\x1f\x01", 3, UM_FAULT_DM) && shows(&p, "\x01\x0f\x01", 3, UM_NO_FAULT), "a DM, F = 1 and 0");
	check(shows(&p, "\x01\x01\x01", 3, UM_NO_FAULT) && shows(&p, "\x01\x21\x01", 3, UM_FAULT_NR), "RR 0 and 1");
	check(shows(&p, "\x03\x00\x05\x07", 4, UM_NO_FAULT) && shows(&p, "\x03\xe0\x05\x07", 4, UM_FAULT_NR), "an I frame, N(R) = 0 and 7");
	check(shows(&p, "\x0d\x73\x01", 3, UM_NO_FAULT) && shows(&p, "\x03\x73\x01", 3, UM_NO_FAULT), "SAPI 3 is idle; a UA is no command");
	check(um_datalink_send(&p.sides[0], 0, &m) == UM_END_DONE, "a call of layer 3");
	fill(&p, 1);
	check(shows(&p, "\x01\x21\x01", 3, UM_NO_FAULT) && shows(&p, "\x01\x41\x01", 3, UM_FAULT_NR), "RR 1 and 2");
	check(shows(&p, "\x01\x25\x01", 3, UM_NO_FAULT) && shows(&p, "\x01\x45\x01", 3, UM_FAULT_NR), "RNR 1 and 2");
	check(shows(&p, "\x01\x29\x01", 3, UM_NO_FAULT) && shows(&p, "\x01\xe9\x01", 3, UM_FAULT_NR), "REJ 1 and 7");
	check(shows(&p, "\x01\x1f\x01", 3, UM_FAULT_DM), "a DM, F = 1, P = 0");
	fill(&p, 1);
	fill(&p, 1);
	check(shows(&p, "\x01\x1f\x01", 3, UM_NO_FAULT), "a DM, F = 1, P = 1");
	check(shows(&p, "\x00\x1f\x01", 3, UM_NO_FAULT), "no frame");
	p.sides[0].link0.t200 = 0;
	check(shows(&p, "\x01\x73\x01", 3, UM_NO_FAULT), "no data link");
}

/* Six lost SABMs, every second slot, and the mobile gives up in the slot after T200. */
static void test_give_up(void)
{
	pair p;
	um_message info = message_of(1, 1);
	start(&p, UM_SDCCH);
	check(um_datalink_open(&p.sides[0], &info) == UM_END_DONE, "a call of layer 3");
	fill(&p, 1);
	for (int i = 1; i < 12; i++) {
		check(i % 2 ? sends(&p, 0, "\x01\x3f\x05\x01", 4) : is_free(&p, 0), "a SABM every second slot");
		slot(&p, 1);
	}
	check(is_free(&p, 0) && p.given_up[0].notice_count == 0, "T200 of the last SABM runs");
	slot(&p, 0);
	check(is_free(&p, 0) && reports(&p.given_up[0], 0, UM_ENDED, 0) && p.given_up[0].notices[0].reason == UM_FAILED, "given up");
}

/* SAPI 3: SAPI 0 goes first, a SABM finds a closed end afresh, and local end release. */
static void test_sapi3(void)
{
	pair p;
	um_message m = message_of(7, 3);
	open_both(&p, UM_SDCCH);
	check(um_datalink_open_bare(&p.sides[1]) == UM_END_DONE, "the network opens SAPI 3");
	check(um_datalink_send(&p.sides[1], 0, &m) == UM_END_DONE, "a call of layer 3");
	fill(&p, 0);
	check(sends(&p, 1, "\x03\x00\x0d\x07\x07\x07", 6), "SAPI 0 goes first");
	slot(&p, 0);
	check(sends(&p, 1, "\x0f\x3f\x01", 3) && sends(&p, 0, "\x03\x21\x01", 3), "then the SABM of SAPI 3");
	slot(&p, 0);
	check(reports(&p.reports[0], 3, UM_OPENED, 0) && sends(&p, 0, "\x0f\x73\x01", 3), "its UA");
	slot(&p, 0);
	check(reports(&p.reports[1], 3, UM_OPENED, 0), "SAPI 3 is open");
	check(um_datalink_close(&p.sides[0], 3) == UM_END_DONE, "the mobile releases SAPI 3");
	fill(&p, 0);
	check(sends(&p, 0, "\x0d\x53\x01", 3), "DISC");
	slot(&p, 0);
	check(reports(&p.reports[1], 3, UM_ENDED, 0) && sends(&p, 1, "\x0d\x73\x01", 3), "UA, ended");
	slot(&p, 0);
	check(reports(&p.reports[0], 3, UM_ENDED, 0), "ended");
	check(um_datalink_open_bare(&p.sides[0]) == UM_END_DONE, "the mobile opens it again");
	fill(&p, 0);
	check(sends(&p, 0, "\x0d\x3f\x01", 3), "a second SABM");
	slot(&p, 0);
	check(reports(&p.reports[1], 3, UM_OPENED, 0) && sends(&p, 1, "\x0d\x73\x01", 3), "a closed end starts afresh");
	check(um_datalink_close_local(&p.sides[1], 3) == UM_END_DONE && p.sides[1].link3.end.state == UM_IDLE, "local end release");
}

/* A mobile drops SAPI 3 while SAPI 0 is not established; on SACCH the caller says whether it is. Layer 1 octets are the caller's. */
static void test_order_of_links(void)
{
	pair p;
	start(&p, UM_SDCCH);
	check(um_datalink_open_bare(&p.sides[1]) == UM_END_DONE, "a call of layer 3");
	fill(&p, 0);
	check(sends(&p, 1, "\x0f\x3f\x01", 3), "a SABM of SAPI 3");
	slot(&p, 0);
	check(p.reports[0].notice_count == 0 && is_free(&p, 0) && p.sides[0].link3.end.state == UM_IDLE, "the mobile drops it");
	start(&p, UM_SACCH);
	check(um_datalink_open_bare(&p.sides[1]) == UM_END_DONE, "a call of layer 3");
	fill(&p, 0);
	check(sends(&p, 1, "\x0f\x3f\x01", 3), "the layer 1 octets are those given");
	check(um_datalink_main(&p.sides[0], true) == UM_END_DONE, "SAPI 0 of the main channel is established");
	slot(&p, 0);
	check(reports(&p.reports[0], 3, UM_OPENED, 0) && sends(&p, 0, "\x0f\x73\x01", 3), "the mobile takes it");
	um_message m = message_of(6, 2);
	uint8_t block[23];
	check(um_datalink_unit(&p.sides[1], 0, &m, L1, block) == UM_END_DONE && !memcmp(block, "\x5a\xa5\x03\x03\x09\x06\x06\x2b", 8), "UI");
}

/* What a side reports of one SAPI in some slots without loss, or with the network's blocks lost: the kinds, and the octet of a message. */
typedef struct story {
	char said[2][128];
} story;

static void tell(story *t, int side, uint8_t sapi, const um_report *r)
{
	static const char kinds[] = ".ogua?e";
	char *to = t->said[side] + strlen(t->said[side]);
	for (int i = 0; i < r->notice_count; i++) {
		if (r->sapis[i] != sapi)
			continue;
		*to++ = kinds[r->notices[i].kind];
		if (r->notices[i].kind == UM_GOT)
			*to++ = (char)r->notices[i].message.octets[0];
	}
}

static void slots(pair *p, int count, int lost, uint8_t sapi, story *t)
{
	memset(t, 0, sizeof *t);
	for (int i = 0; i < count; i++) {
		slot(p, lost);
		for (int side = 0; side < 2; side++) {
			tell(t, side, sapi, &p->reports[side]);
			tell(t, side, sapi, &p->given_up[side]);
		}
	}
}

static bool says(const story *t, const char *mobile, const char *network)
{
	return !strcmp(t->said[0], mobile) && !strcmp(t->said[1], network);
}

/* o opened, gX got X, a acked, e ended. The mobile gives SAPI 3 up while the network's end is open, and opens it again: that is a new
 * opening, so what is reported as acknowledged was delivered. */
static void test_second_opening(void)
{
	pair p;
	story t;
	um_message a = message_of('A', 1), b = message_of('B', 1), c = message_of('C', 1), d = message_of('D', 1);
	start(&p, UM_SACCH);
	check(um_datalink_main(&p.sides[0], true) == UM_END_DONE && um_datalink_open_bare(&p.sides[0]) == UM_END_DONE, "SAPI 3");
	slots(&p, 4, 0, 3, &t);
	check(says(&t, "o", "o"), "it opens");
	check(um_datalink_send(&p.sides[0], 3, &a) == UM_END_DONE, "A");
	slots(&p, 40, 2, 3, &t);
	check(says(&t, "e", "gA") && p.sides[1].link3.end.state == UM_OPEN, "six answers are lost; the network's end stays open");
	check(um_datalink_open_bare(&p.sides[0]) == UM_END_DONE, "the mobile opens it again");
	slots(&p, 3, 0, 3, &t);
	check(says(&t, "o", "o"), "both report a new opening");
	check(um_datalink_send(&p.sides[0], 3, &b) == UM_END_DONE && um_datalink_send(&p.sides[1], 3, &c) == UM_END_DONE, "B, C");
	slots(&p, 10, 0, 3, &t);
	check(says(&t, "gCa", "gBa") || says(&t, "agC", "gBa"), "each is delivered, and then acknowledged");
	check(um_datalink_send(&p.sides[0], 3, &d) == UM_END_DONE, "D");
	slots(&p, 10, 0, 3, &t);
	check(says(&t, "a", "gD"), "and so is D");
}

/* The same on SAPI 0 without any loss, after a local end release at the mobile alone. A SABM that comes before any I, RR or REJ is a
 * repeat: the network keeps its state. */
static void test_local_release(void)
{
	pair p;
	story t;
	um_message info = message_of('i', 2), a = message_of('A', 1), b = message_of('B', 1), c = message_of('C', 1);
	start(&p, UM_SDCCH);
	check(um_datalink_open(&p.sides[0], &info) == UM_END_DONE, "the mobile opens");
	slots(&p, 3, 2, 0, &t);
	check(says(&t, "", "o"), "the UA is lost");
	slots(&p, 4, 0, 0, &t);
	check(says(&t, "o", "") && !p.sides[1].link0.heard, "a repeated SABM is no new opening");
	check(um_datalink_send(&p.sides[0], 0, &a) == UM_END_DONE, "A");
	slots(&p, 4, 0, 0, &t);
	check(says(&t, "a", "gA") && p.sides[1].link0.heard == 1 && p.sides[0].link0.heard == 1, "it arrives");
	check(um_datalink_close_local(&p.sides[0], 0) == UM_END_DONE && um_datalink_open(&p.sides[0], &info) == UM_END_DONE, "opened again");
	slots(&p, 4, 0, 0, &t);
	check(says(&t, "o", "o") && !p.sides[1].link0.heard, "both report a new opening");
	check(um_datalink_send(&p.sides[0], 0, &b) == UM_END_DONE && um_datalink_send(&p.sides[1], 0, &c) == UM_END_DONE, "B, C");
	slots(&p, 6, 0, 0, &t);
	check(says(&t, "gCa", "gBa") || says(&t, "agC", "gBa"), "each is delivered, and then acknowledged");
	info = message_of('j', 2);
	check(um_datalink_close_local(&p.sides[0], 0) == UM_END_DONE && um_datalink_open(&p.sides[0], &info) == UM_END_DONE, "another mobile");
	slots(&p, 4, 0, 0, &t);
	check(says(&t, "", ""), "is not answered");
}

/* SAPI 3 is opened again after its release, and the UA is lost: the SABM that comes again is a repeat, whatever the link heard before it
 * was closed, so what the network sends meanwhile stays. */
static void test_opened_after_release(void)
{
	pair p;
	story t;
	um_message a = message_of('A', 1), c = message_of('C', 1);
	start(&p, UM_SACCH);
	check(um_datalink_main(&p.sides[0], true) == UM_END_DONE && um_datalink_open_bare(&p.sides[0]) == UM_END_DONE, "SAPI 3");
	slots(&p, 4, 0, 3, &t);
	check(um_datalink_send(&p.sides[0], 3, &a) == UM_END_DONE, "A");
	slots(&p, 6, 0, 3, &t);
	check(says(&t, "a", "gA"), "A is delivered");
	check(um_datalink_close(&p.sides[0], 3) == UM_END_DONE, "the mobile closes");
	slots(&p, 6, 0, 3, &t);
	check(says(&t, "e", "e"), "both are closed");
	check(um_datalink_open_bare(&p.sides[0]) == UM_END_DONE, "the mobile opens it again");
	slots(&p, 3, 2, 3, &t);
	check(says(&t, "", "o") && !p.sides[1].link3.heard, "the UA is lost");
	check(um_datalink_send(&p.sides[1], 3, &c) == UM_END_DONE, "C");
	slots(&p, 12, 0, 3, &t);
	check(says(&t, "ogC", "a"), "the repeated SABM opens nothing again; C is delivered");
}

/* The network releases SAPI 3 in the slot in which the mobile opens it again: a DM in the next slot refuses each. */
static void test_collision(void)
{
	pair p;
	story t;
	start(&p, UM_SACCH);
	check(um_datalink_main(&p.sides[0], true) == UM_END_DONE && um_datalink_open_bare(&p.sides[0]) == UM_END_DONE, "SAPI 3");
	slots(&p, 4, 0, 3, &t);
	check(um_datalink_open_bare(&p.sides[0]) == UM_END_DONE && um_datalink_close(&p.sides[1], 3) == UM_END_DONE, "both call");
	slots(&p, 1, 0, 3, &t);
	check(sends(&p, 0, "\x0d\x3f\x01", 3) && sends(&p, 1, "\x0f\x53\x01", 3), "a SABM and a DISC cross");
	slots(&p, 1, 0, 3, &t);
	check(sends(&p, 0, "\x0f\x1f\x01", 3) && sends(&p, 1, "\x0d\x1f\x01", 3), "a DM from each side");
	slots(&p, 1, 0, 3, &t);
	check(says(&t, "e", "e") && p.sides[0].link3.end.state == UM_CLOSED, "both are closed");
	check(p.reports[0].notices[0].reason == UM_REFUSED && p.reports[1].notices[0].reason == UM_RELEASED, "refused, released");
}

static bool opens(pair *p, int side, uint8_t sapi)
{
	return um_datalink_establish(&p->sides[side], sapi) == UM_END_DONE;
}

/* Each side sends a message over SAPI 0, and nothing is lost. */
static void exchange(pair *p)
{
	story t;
	um_message m = message_of('M', 1), n = message_of('N', 1);
	check(um_datalink_send(&p->sides[0], 0, &m) == UM_END_DONE && um_datalink_send(&p->sides[1], 0, &n) == UM_END_DONE, "M, N");
	slots(p, 6, 0, 0, &t);
	check((says(&t, "gNa", "gMa") || says(&t, "agN", "gMa")) && p->sides[0].link0.heard && p->sides[1].link0.heard, "M, N arrive");
}

/* A new channel, after an assignment: either side opens SAPI 0 without information, and all blocks carry SAPI 0. */
static void test_assignment(void)
{
	pair p;
	story t;
	start_normal(&p, UM_SDCCH);
	check(opens(&p, 0, 0), "the mobile opens");
	fill(&p, 0);
	check(sends(&p, 0, "\x01\x3f\x01", 3) && is_free(&p, 1), "SABM in the slot of the call");
	slot(&p, 0);
	check(reports(&p.reports[1], 0, UM_OPENED, 0) && sends(&p, 1, "\x01\x73\x01", 3) && is_free(&p, 0), "UA in the next slot");
	arrive(&p);
	check(reports(&p.reports[0], 0, UM_OPENED, 0), "the mobile reports opened");
	exchange(&p);
	check(um_datalink_close(&p.sides[1], 0) == UM_END_DONE, "the network releases");
	fill(&p, 0);
	check(sends(&p, 1, "\x03\x53\x01", 3), "DISC");
	slots(&p, 3, 0, 0, &t);
	check(says(&t, "e", "e"), "both are closed");
	check(opens(&p, 1, 0), "the network opens it again");
	slots(&p, 3, 0, 0, &t);
	check(says(&t, "o", "o"), "both report it");
	exchange(&p);
}

static void test_network_initiated(void)
{
	pair p;
	story t;
	start_normal(&p, UM_SACCH);
	check(opens(&p, 1, 0), "the network opens");
	fill(&p, 0);
	check(sends(&p, 1, "\x03\x3f\x01", 3) && is_free(&p, 0), "SABM in the slot of the call");
	slot(&p, 0);
	check(reports(&p.reports[0], 0, UM_OPENED, 0) && sends(&p, 0, "\x03\x73\x01", 3), "UA in the next slot");
	slots(&p, 1, 0, 0, &t);
	check(says(&t, "", "o"), "the network reports opened");
	exchange(&p);
	start_normal(&p, UM_SDCCH);
	check(opens(&p, 0, 0) && opens(&p, 1, 0), "both open at once");
	fill(&p, 0);
	check(sends(&p, 0, "\x01\x3f\x01", 3) && sends(&p, 1, "\x03\x3f\x01", 3), "two SABM");
	slot(&p, 0);
	check(sends(&p, 0, "\x03\x73\x01", 3) && sends(&p, 1, "\x01\x73\x01", 3), "two UA");
	slots(&p, 2, 0, 0, &t);
	check(says(&t, "o", "o"), "both report one opening");
	exchange(&p);
}

/* A mobile comes back to a channel whose link is open, after an assignment that failed: what was not acknowledged is gone. */
static void test_return(void)
{
	pair p;
	story t;
	um_message a = message_of('A', 30), got = message_of(0, 0);
	open_both(&p, UM_SDCCH);
	check(um_datalink_send(&p.sides[0], 0, &a) == UM_END_DONE, "A, in two segments");
	slots(&p, 2, 0, 0, &t);
	check(um_datalink_unacked(&p.sides[0], 0, 0, &got) == UM_END_DONE && !memcmp(&got, &a, sizeof a), "A is not acknowledged");
	check(opens(&p, 0, 0) && p.sides[0].link0.end.sapi == 3 && p.sides[1].link0.end.sapi == 0, "the mobile opens without information");
	check(um_datalink_unacked(&p.sides[0], 0, 0, &got) == UM_END_EMPTY && got.count == 30, "A is dropped");
	fill(&p, 0);
	check(sends(&p, 0, "\x01\x3f\x01", 3), "SABM without information");
	slot(&p, 0);
	check(reports(&p.reports[1], 0, UM_OPENED, 0) && sends(&p, 1, "\x01\x73\x01", 3), "a new opening");
	check(p.sides[1].link0.end.sapi == 3 && !p.sides[1].link0.heard && p.sides[1].link0.end.vr == 0, "the network counts from 0");
	slots(&p, 3, 0, 0, &t);
	check(says(&t, "o", ""), "the mobile reports it");
	exchange(&p);
	check(opens(&p, 1, 0), "the network opens the open link again");
	slots(&p, 3, 0, 0, &t);
	check(says(&t, "o", "o"), "both report it");
	exchange(&p);
}

/* The messages that were not acknowledged can be read after the link was given up, until it is opened again. */
static void test_unacked(void)
{
	pair p;
	story t;
	um_message a = message_of('A', 1), b = message_of('B', 40), c = message_of('C', 251), got = message_of(0, 0);
	start_normal(&p, UM_SACCH);
	check(opens(&p, 0, 0) && um_datalink_unacked(&p.sides[0], 0, 0, &got) == UM_END_EMPTY, "none while it is opened");
	slots(&p, 3, 0, 0, &t);
	check(um_datalink_send(&p.sides[0], 0, &a) == UM_END_DONE && um_datalink_send(&p.sides[0], 0, &b) == UM_END_DONE, "A, B");
	check(um_datalink_send(&p.sides[0], 0, &c) == UM_END_DONE, "C");
	slots(&p, 3, 0, 0, &t);
	check(says(&t, "a", "gA"), "A is acknowledged");
	slots(&p, 30, 3, 0, &t);
	check(says(&t, "e", ""), "the link is given up");
	for (int i = 0; i < 2; i++) {
		check(um_datalink_unacked(&p.sides[0], 0, 0, &got) == UM_END_DONE && !memcmp(&got, &b, sizeof b), "B");
		check(um_datalink_unacked(&p.sides[0], 0, 1, &got) == UM_END_DONE && !memcmp(&got, &c, sizeof c), "C");
	}
	check(um_datalink_unacked(&p.sides[0], 0, 2, &got) == UM_END_EMPTY && !memcmp(&got, &c, sizeof c), "no more");
	check(um_datalink_unacked(&p.sides[0], 0, 255, &got) == UM_END_EMPTY && um_datalink_unacked(&p.sides[0], 3, 0, &got) == UM_END_EMPTY,
	      "none");
	check(opens(&p, 0, 0) && um_datalink_unacked(&p.sides[0], 0, 0, &got) == UM_END_EMPTY, "an opening drops them");
	check(um_datalink_unacked(&p.sides[0], 1, 0, &got) == UM_END_NO_CALL && !memcmp(&got, &c, sizeof c), "no such SAPI");
	p.sides[0].link0.t200 = 0;
	check(um_datalink_unacked(&p.sides[0], 0, 0, &got) == UM_END_NONE && um_datalink_establish(&p.sides[0], 0) == UM_END_NONE, "no data link");
}

/* A link with contention resolution keeps its rules until it is open; a UI frame of a normal link carries SAPI 0. */
static void test_kinds(void)
{
	pair p;
	um_datalink same;
	um_report r;
	uint8_t block[23];
	um_message one = message_of(7, 1);
	start(&p, UM_SDCCH);
	check(opens(&p, 1, 3) && um_datalink_establish(&p.sides[1], 3) == UM_END_NOT_IDLE, "it is being opened");
	check(um_datalink_establish(&p.sides[1], 2) == UM_END_NO_CALL, "no such SAPI");
	same = p.sides[1];
	memset(block, 0x2b, sizeof block);
	memcpy(block, "\x01\x3f\x01", 3);
	check(um_datalink_take(&p.sides[1], block, &r) == UM_END_DONE && r.notice_count == 0, "a SABM without information");
	same.heard0 = 1;
	check(!memcmp(&same, &p.sides[1], sizeof same), "is ignored by the network in Idle");
	block[0] = 0x03;
	check(um_datalink_take(&p.sides[0], block, &r) == UM_END_DONE && r.notice_count == 0 && p.sides[0].link0.end.state == UM_IDLE, "and");
	fill(&p, 0);
	check(sends(&p, 0, "\x03\x1f\x01", 3), "is answered with a DM by the mobile");
	for (int channel = 0; channel < 2; channel++) {
		start_normal(&p, (uint8_t)channel);
		check(um_datalink_open(&p.sides[0], &one) == UM_END_NO_CALL, "no contention resolution on a normal link");
		for (int side = 0; side < 2; side++) {
			check(um_datalink_unit(&p.sides[side], 0, &one, L1, p.blocks[side]) == UM_END_DONE, "a UI frame");
			check(sends(&p, side, side ? "\x03\x03\x05\x07" : "\x01\x03\x05\x07", 4), "has SAPI 0");
			p.arrives[side] = true;
		}
		arrive(&p);
		check(reports(&p.reports[0], 0, UM_UNIT, 1) && reports(&p.reports[1], 0, UM_UNIT, 1), "and is reported");
	}
	memset(&same, 0xee, sizeof same);
	p.sides[0] = same;
	check(!um_datalink_new_for(&same, UM_MOBILE, UM_SDCCH, 2, 2, 4) && !memcmp(&same, &p.sides[0], sizeof same), "no such kind");
}

static void test_refusals(void)
{
	um_datalink a, b;
	um_report report;
	uint8_t block[23] = { 0 };
	um_message empty = message_of(0, 0), info = message_of(1, 1);
	memset(&a, 0xee, sizeof a);
	memset(&report, 0xee, sizeof report);
	b = a;
	check(!um_datalink_new(&a, 2, UM_SDCCH, 2, 4) && !um_datalink_new(&a, UM_MOBILE, 2, 2, 4), "no such role or channel");
	check(!um_datalink_new(&a, UM_MOBILE, UM_SDCCH, 0, 4) && !um_datalink_new(&a, UM_MOBILE, UM_SDCCH, 2, 0), "T200 of 0");
	check(!memcmp(&a, &b, sizeof a) && !um_datalink_valid(&a), "nothing is written, and that is no data link");
	check(um_datalink_next(&a, L1, block, &report) == UM_END_NONE && um_datalink_take(&a, block, &report) == UM_END_NONE, "no data link");
	check(um_datalink_open_bare(&a) == UM_END_NONE && um_datalink_main(&a, true) == UM_END_NONE, "no data link");
	check(um_datalink_new(&a, UM_NETWORK, UM_SDCCH, 2, 4) && um_datalink_valid(&a), "a data link");
	b = a;
	check(um_datalink_open(&a, &info) == UM_END_NO_CALL && um_datalink_send(&a, 1, &info) == UM_END_NO_CALL, "no such call");
	check(um_datalink_close(&a, 3) == UM_END_NOT_OPEN && um_datalink_close_local(&a, 2) == UM_END_NO_CALL, "not open, no such SAPI");
	check(um_datalink_unit(&a, 0, &empty, L1, block) == UM_END_EMPTY, "an empty message");
	check(um_datalink_take(&a, block, &report) == UM_END_NO_FRAME && !memcmp(&a, &b, sizeof a), "no frame, and nothing changes");
	b.link3.end.role = UM_MOBILE;
	check(!um_datalink_valid(&b), "two roles");
	b = a;
	b.link0.t200 = 0;
	check(!um_datalink_valid(&b), "a T200 of 0");
	b = a;
	b.link0.clock = 2, b.link3.clock = 4;
	check(um_datalink_valid(&b), "clocks of T200");
	b.link3.clock = 5;
	check(!um_datalink_valid(&b), "a clock longer than T200");
	b = a;
	b.link0.owed = 1;
	check(!um_datalink_valid(&b), "an answer that is none");
	memset(b.link0.answer, 0x2b, 23);
	memcpy(b.link0.answer, "\x01\x73\x01", 3);
	check(um_datalink_valid(&b), "a UA");
	memcpy(b.link0.answer, "\x03\x53\x01", 3);
	check(!um_datalink_valid(&b), "a DISC is no answer");
}

/* The mobile fills its slot, and says its last RR again. */
static uint8_t fill_again(pair *p, um_said *said, uint8_t channel)
{
	uint8_t next = um_datalink_next(&p->sides[0], L1, p->blocks[0], &p->given_up[0]);
	p->answers[0] = um_say_again(said, channel, next, p->blocks[0]);
	return p->answers[0];
}

/* An RR that is lost and said again: N(R) = 1, F = 0. */
static void test_answer_said_twice(void)
{
	for (uint8_t channel = UM_SDCCH; channel <= UM_SACCH; channel++) {
		um_message page = message_of(7, 3);
		um_said said = { 0 };
		pair p;
		open_both(&p, channel);
		check(um_datalink_send(&p.sides[1], 0, &page) == UM_END_DONE, "the network sends");
		fill(&p, 0);
		arrive(&p);
		check(fill_again(&p, &said, channel) == UM_END_DONE && sends(&p, 0, "\x03\x21\x01", 3), "RR, which is lost");
		check(fill_again(&p, &said, channel) == UM_END_DONE && sends(&p, 0, "\x03\x21\x01", 3), "RR again");
		check(um_datalink_take(&p.sides[1], p.blocks[0], &p.reports[1]) == UM_END_DONE && reports(&p.reports[1], 0, UM_ACKED, 0), "acked");
		check(fill_again(&p, &said, channel) == UM_END_FREE && is_free(&p, 0), "the fill frame");
		said.waits = 1;
		um_said before = said;
		check(um_say_again(&said, 2, UM_END_DONE, p.blocks[0]) == UM_END_NONE, "no such channel");
		check(um_say_again(&said, channel, UM_END_NONE, p.blocks[0]) == UM_END_NONE && !memcmp(&said, &before, sizeof said), "no block");
	}
}

int main(void)
{
	test_message();
	test_loss();
	test_dm();
	test_faults();
	test_give_up();
	test_sapi3();
	test_order_of_links();
	test_second_opening();
	test_local_release();
	test_opened_after_release();
	test_collision();
	test_assignment();
	test_network_initiated();
	test_return();
	test_unacked();
	test_kinds();
	test_refusals();
	test_answer_said_twice();
	return failed;
}
