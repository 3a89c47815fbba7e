/* Random runs of two data links over a channel that loses blocks, slot by slot, through um.h. One link of each run is watched: that of
 * SAPI 0 with either kind of establishment, beside SAPI 3 and UI frames, or that of SAPI 3 alone.
 *
 *   runs [SLOTS [BROKEN [SEED]]]
 *
 * BROKEN is what breaks a premise: `answers` drops every second answer and does not count it as lost, `octets` changes an octet, `stale`
 * passes an old block again, `t200` has a T200 below the round trip. The status is 1 if a claim failed. */
#include "draw.h"
#include "um.h"
#include <stdio.h>
#include <stdlib.h>
#include <string.h>

enum broken { NOTHING, ANSWERS, OCTETS, STALE, T200 };
static const char *const BROKEN[] = { "nothing", "answers", "octets", "stale", "t200" };

enum claim { DELIVERED, ACKED, BOUND, BOUND_RELEASED, EXPIRED, ASKED, KEPT, FAULTLESS, CLAIMS };
static const char *const CLAIM[CLAIMS] = {
	"each message that is reported is the next one sent, whole and unchanged",
	"a message is acknowledged once, in order, and only after its delivery",
	"an end awaits an answer in at most R n + (T + 1) L slots, in one more if it does not open the link alone",
	"once layer 3 of a side has released the link, in at most two more",
	"T200 expires at most L times, also in the slot in which a link is given up",
	"n is at most what layer 3 asked for",
	"the link is given up only after six lossy slots, SAPI 3 beside SAPI 0 after five",
	"no frame of the link shows a fault",
};

enum { RING = 16 };

/* What crosses the channel in a slot. */
typedef struct {
	uint8_t octets[23];
	bool arrives;
	uint8_t unit_sapi;
	uint32_t unit; /* the number of the message in a UI frame, or 0 */
} block;

/* What an end of a link did: messages, what layer 3 asked for in frames, and the W, n and expiries of the bounds. */
typedef struct {
	uint32_t sent, got, acked, asked, waited, frames, expiries;
} counts;

typedef struct {
	um_datalink sides[2]; /* the mobile, the network */
	counts ends[2][2];
	block air[2][RING], old[2];
	uint8_t channel, delay, t200, opens[2], quiet; /* opens: which sides open the link of each SAPI, a bit each */
	uint32_t number, slot, length, release_at, opens_at[2], units, answers;
	uint32_t lossy, lossy_watched, most_lossy, mood; /* slots that lost a frame; loss in percent */
	int watched;
	bool is_normal, is_released, is_watched_released, gave_up;
} run;

static enum broken broken;
static uint64_t failures[CLAIMS], slots, messages, segments_sent, lossy_slots, given_up, units_got;

static um_timed_end *link_of(run *r, int side, int link) { return link ? &r->sides[side].link3 : &r->sides[side].link0; }

static um_end *end_of(run *r, int side, int link) { return &link_of(r, side, link)->end; }

static bool awaits(const um_end *end)
{
	return end->state == UM_OPENING || end->state == UM_CLOSING || (end->state == UM_OPEN && end->vs != end->va);
}

static void claim(const run *r, enum claim what, bool holds)
{
	if (holds)
		return;
	if (failures[what]++ == 0 && broken == NOTHING)
		printf("datalinks: fails in run %u, slot %u: %s\n", (unsigned)r->number, (unsigned)r->slot, CLAIM[what]);
}

/* The octets of a message, which its number, its link and its side determine. */
static um_message message_of(const run *r, int side, int link, uint32_t number, uint32_t most)
{
	um_message m = { 0 };
	uint64_t x = ((uint64_t)r->number << 32 | number << 2 | (uint32_t)(side << 1 | link)) * 0x9e3779b97f4a7c15u + 1;
	m.count = (uint8_t)(1 + (x >> 40) % most);
	for (int i = 0; i < m.count; i++) {
		x = x * 6364136223846793005u + 1442695040888963407u;
		m.octets[i] = (uint8_t)(x >> 56);
	}
	return m;
}

static bool is_same(const um_message *a, const um_message *b) { return a->count == b->count && !memcmp(a->octets, b->octets, a->count); }

static uint32_t n201(const run *r) { return r->channel == UM_SACCH ? 18 : 20; }

/* A notice that a side reports; `from` is the block that it took, if it took one. */
static void check_notice(run *r, int side, int link, const um_notice *notice, const block *from)
{
	counts *own = &r->ends[side][link], *other = &r->ends[!side][link];
	um_message sent;
	if (notice->kind == UM_GOT) {
		sent = message_of(r, !side, link, own->got, 251);
		claim(r, DELIVERED, own->got < other->sent && is_same(&sent, &notice->message));
		own->got++;
		messages++;
	} else if (notice->kind == UM_UNIT) {
		sent = message_of(r, !side, link, from ? from->unit : 0, n201(r));
		claim(r, DELIVERED, from && from->unit && from->unit_sapi == 3 * link && is_same(&sent, &notice->message));
		units_got++;
	} else if (notice->kind == UM_ACKED) {
		own->acked++;
		claim(r, ACKED, notice->number == own->acked && own->acked <= own->sent && own->acked <= other->got);
	} else if (notice->kind == UM_ENDED && notice->reason == UM_FAILED) {
		given_up++;
		claim(r, KEPT, r->is_released || (link == r->watched ? r->lossy_watched >= 6 : r->lossy >= 5));
		r->gave_up |= link == r->watched;
	} else if (notice->kind == UM_OVERSIZE)
		claim(r, DELIVERED, false);
}

static void check_report(run *r, int side, const um_report *report, const block *from)
{
	for (int i = 0; i < report->notice_count; i++)
		check_notice(r, side, report->sapis[i] == 3, &report->notices[i], from);
}

static void take(run *r, int side, const block *from)
{
	um_report report;
	block with = *from;
	if (broken == OCTETS && draw(50) == 0)
		with.octets[5 + draw(18)] ^= (uint8_t)(1 + draw(255));
	if (um_datalink_fault(&r->sides[side], with.octets) != UM_NO_FAULT)
		claim(r, FAULTLESS, (with.octets[r->channel == UM_SACCH ? 2 : 0] >> 2) != 3 * r->watched);
	if (um_datalink_take(&r->sides[side], with.octets, &report) == UM_END_DONE)
		check_report(r, side, &report, from);
}

/* What was sent to this side arrives: a block of a slot, `delay` slots later than the next one. */
static void arrive(run *r, int side)
{
	if (r->slot > r->delay) {
		const block *from = &r->air[!side][(r->slot - 1 - r->delay) % RING];
		if (from->arrives)
			take(r, side, from);
		if (broken == STALE && draw(20) == 0) {
			take(r, side, &r->old[!side]);
			r->old[!side] = *from;
		}
	}
}

/* An end is to send a message now and then, and as early as it may in a run that is not quiet. */
static void send_now_and_then(run *r, int side, int link)
{
	counts *own = &r->ends[side][link];
	um_message m = message_of(r, side, link, own->sent, 251);
	if (end_of(r, side, link)->state != UM_OPEN || draw(r->quiet) != 0)
		return;
	if (um_datalink_send(&r->sides[side], (uint8_t)(3 * link), &m) != UM_END_DONE)
		return;
	own->sent++;
	own->asked += (m.count + n201(r) - 1) / n201(r);
	segments_sent += (m.count + n201(r) - 1) / n201(r);
}

static uint8_t open_link(run *r, int side, int link)
{
	um_message info = message_of(r, side, 0, ~0u, n201(r));
	um_datalink *own = &r->sides[side];
	return link || r->is_normal ? um_datalink_establish(own, (uint8_t)(3 * link)) : um_datalink_open(own, &info);
}

/* The links that a side opens: SAPI 0 at the start, SAPI 3 once SAPI 0 is open, or alone. */
static void open_links(run *r, int side)
{
	for (int link = r->watched; link < 2; link++) {
		bool now = link == r->watched ? r->slot == r->opens_at[side] : end_of(r, side, 0)->state == UM_OPEN;
		if (r->opens[link] >> side & 1 && now && end_of(r, side, link)->state == UM_IDLE)
			r->ends[side][link].asked += open_link(r, side, link) == UM_END_DONE;
	}
}

/* Layer 3 of a side: it opens links and sends, and some run ends with a release. */
static void call(run *r, int side)
{
	open_links(r, side);
	for (int link = r->watched; link < 2; link++)
		send_now_and_then(r, side, link);
	if (r->slot == r->release_at && side == (int)(r->number & 1)) {
		int link = r->number & 2 ? 1 : r->watched;
		bool is_done = um_datalink_close(&r->sides[side], (uint8_t)(3 * link)) == UM_END_DONE;
		r->is_released = true;
		r->is_watched_released = link == r->watched;
		r->ends[side][link].asked += is_done;
	}
}

static bool is_answer(const um_frame *frame)
{
	return frame->kind == UM_UA || frame->kind == UM_DM || frame->kind == UM_RR || frame->kind == UM_REJ;
}

/* Whether a frame of the links gets through; `lost` counts the SAPIs of those that do not. */
static bool gets_through(run *r, const block *to, int lost[2])
{
	um_frame frame;
	if (um_read_frame(to->octets, r->channel, &frame) != UM_FRAME)
		return false;
	if (broken == ANSWERS && is_answer(&frame) && r->answers++ % 2 == 0)
		return false;
	if (draw(100) >= r->mood || r->lossy >= r->most_lossy)
		return true;
	lost[frame.sapi == 3]++;
	return false;
}

static void fill_free_slot(run *r, int side, block *to)
{
	uint8_t layer1[2] = { 0, 0 };
	int link = (int)draw(2);
	um_message m = message_of(r, side, link, r->units + 1, n201(r));
	to->arrives = draw(100) >= r->mood;
	if (draw(3) == 0 && um_datalink_unit(&r->sides[side], (uint8_t)(3 * link), &m, layer1, to->octets) == UM_END_DONE) {
		to->unit = ++r->units;
		to->unit_sapi = (uint8_t)(3 * link);
	}
}

/* How often T200 of a link has expired since its frame went out first; 255 once it was given up. */
static uint32_t expiries(const um_end *end)
{
	return end->state == UM_CLOSED ? 255 : end->state == UM_OPEN ? end->repeats : end->retries;
}

static void send(run *r, int side, int lost[2])
{
	um_report report;
	uint8_t layer1[2] = { 0, 0 };
	block *to = &r->air[side][r->slot % RING];
	const um_timed_end *watched = link_of(r, side, r->watched);
	bool may_expire = awaits(&watched->end) && watched->sent;
	uint32_t before = expiries(&watched->end);
	uint8_t answer;
	memset(to, 0, sizeof *to);
	answer = um_datalink_next(&r->sides[side], layer1, to->octets, &report);
	r->ends[side][r->watched].expiries += may_expire && expiries(&watched->end) != before;
	check_report(r, side, &report, NULL);
	if (answer == UM_END_FREE)
		fill_free_slot(r, side, to);
	else
		to->arrives = gets_through(r, to, lost);
}

/* What an end counts before the slot is sent: W, and n by the frames that its calls and arrivals made due. */
static void count(run *r, int side, const um_end *before)
{
	const um_end *end = end_of(r, side, r->watched);
	counts *own = &r->ends[side][r->watched];
	bool begins = end->state != before->state && (end->state == UM_OPENING || end->state == UM_CLOSING);
	own->waited += awaits(end);
	own->frames += ((uint32_t)end->vs - before->vs) % 8 + begins;
}

/* The bounds for both ends, until one gave up. */
static void check_bounds(run *r)
{
	for (int side = 0; side < 2 && !r->gave_up; side++) {
		const counts *end = &r->ends[side][r->watched];
		uint32_t more = r->opens[r->watched] != 1u << side, released = r->is_watched_released;
		uint32_t bound = (2u + 2u * r->delay) * end->frames + (r->t200 + 1u) * r->lossy_watched + more + 2 * released;
		claim(r, released ? BOUND_RELEASED : BOUND, end->waited <= bound);
		claim(r, ASKED, end->frames <= end->asked);
	}
}

static void one_slot(run *r)
{
	int lost[2] = { 0, 0 };
	const um_end before[2] = { *end_of(r, 0, r->watched), *end_of(r, 1, r->watched) };
	bool gave_up = r->gave_up;
	if (draw(20) == 0)
		r->mood = (uint32_t[]){ 0, 0, 10, 30, 90 }[draw(5)];
	for (int side = 0; side < 2; side++)
		arrive(r, side);
	for (int side = 0; side < 2; side++)
		call(r, side);
	for (int side = 0; side < 2; side++)
		count(r, side, &before[side]);
	for (int side = 0; side < 2; side++) {
		send(r, side, lost);
		claim(r, EXPIRED, gave_up || r->ends[side][r->watched].expiries <= r->lossy_watched);
	}
	r->lossy += lost[0] || lost[1];
	r->lossy_watched += lost[r->watched] != 0;
	check_bounds(r);
	lossy_slots += lost[0] || lost[1];
	slots++;
}

static bool start(run *r, uint32_t number)
{
	memset(r, 0, sizeof *r);
	r->number = number;
	r->watched = draw(4) == 0;
	r->channel = r->watched ? UM_SACCH : (uint8_t)draw(2);
	r->is_normal = draw(2);
	r->delay = (uint8_t)(draw(3) + (broken == T200));
	r->t200 = (uint8_t)(broken == T200 ? 1u + 2u * r->delay : 2u + 2u * r->delay + draw(4));
	r->opens[0] = (uint8_t)(r->is_normal ? 1 + draw(3) : 1);
	r->opens[1] = (uint8_t)(r->watched ? 1 + draw(3) : draw(4));
	for (int side = 0; side < 2; side++)
		r->opens_at[side] = draw(6);
	r->quiet = (uint8_t[]){ 1, 2, 12, 40 }[draw(4)];
	r->length = 200 + draw(1000);
	r->release_at = draw(3) == 0 ? r->length / 2 : r->length;
	r->most_lossy = draw(2) == 0 ? 4 + draw(2) : r->length;
	for (uint8_t side = 0; side < 2; side++)
		if (!um_datalink_new_for(&r->sides[side], side, r->channel, r->is_normal, r->t200, (uint8_t)(r->t200 + (r->watched ? 0 : 2))) ||
		    um_datalink_main(&r->sides[side], true) != UM_END_DONE)
			return false;
	return true;
}

int main(int argc, char **argv)
{
	uint64_t wanted = argc > 1 ? strtoull(argv[1], NULL, 10) : 1000000;
	bool failed = false;
	static run r;
	for (int i = 0; i <= T200; i++)
		if (argc > 2 && !strcmp(argv[2], BROKEN[i]))
			broken = (enum broken)i;
	seed(argc > 3 ? strtoull(argv[3], NULL, 10) : 0);
	for (uint32_t number = 0; slots < wanted; number++) {
		if (!start(&r, number))
			return 1;
		for (; r.slot < r.length; r.slot++)
			one_slot(&r);
	}
	printf("datalinks: %llu slots, %llu of them lossy: %llu messages, %llu segments sent, %llu UI frames, %llu links given up\n",
		(unsigned long long)slots, (unsigned long long)lossy_slots, (unsigned long long)messages, (unsigned long long)segments_sent,
		(unsigned long long)units_got, (unsigned long long)given_up);
	for (int i = 0; i < CLAIMS; i++) {
		printf("datalinks: fails %llu times: %s\n", (unsigned long long)failures[i], CLAIM[i]);
		failed |= failures[i] != 0;
	}
	return failed;
}
