/* Tests sides through um.h: both links of a mobile and of a network at once, dispatch of each block by its SAPI, each refusal, and pairs
 * of endpoints that do not form a side. The frames are written by hand from 3GPP TS 44.006. */
#include "um.h"
#include <stddef.h>
#include <stdio.h>
#include <string.h>

static int failed;

static void check(bool holds, const char *what)
{
	if (!holds) {
		printf("library: %s\n", what);
		failed = 1;
	}
}

static um_message message_of(uint8_t first, int count)
{
	um_message m;
	memset(&m, 0xee, sizeof m);
	m.count = (uint8_t)count;
	for (int i = 0; i < count; i++)
		m.octets[i] = (uint8_t)(first + i);
	return m;
}

static const um_end *end_of(const um_side *side, uint8_t sapi)
{
	return sapi ? &side->link3 : &side->link0;
}

/* Exactly one block is sent. It starts with these octets (on SACCH after two layer 1 octets), and fill octets follow. */
static bool is_sent(const um_side *side, const um_effects *told, const uint8_t *octets, size_t count)
{
	const uint8_t *block = told->frames[0];
	size_t at = side->link0.channel == UM_SACCH ? 2 : 0;
	if (told->frame_count != 1 || (at && (block[0] || block[1])) || memcmp(block + at, octets, count))
		return false;
	for (size_t i = at + count; i < 23; i++)
		if (block[i] != 0x2b)
			return false;
	return true;
}

static bool is_told(const um_effects *told, uint8_t kind, const um_message *m)
{
	const um_notice *n = &told->notices[0];
	return told->notice_count == 1 && n->kind == kind && n->message.count == m->count
		&& !memcmp(n->message.octets, m->octets, m->count);
}

static bool is_nothing(const um_effects *told)
{
	return told->frame_count == 0 && told->notice_count == 0;
}

/* The block goes to the endpoint of this SAPI, and the other endpoint is unchanged. */
static void take(um_side *to, const uint8_t *block, uint8_t sapi, um_effects *told)
{
	uint8_t taken = 0xa5;
	um_end other = *end_of(to, sapi ? 0 : 3);
	check(um_side_take(to, block, &taken, told) == UM_END_DONE && taken == sapi, "a block goes to the endpoint of its SAPI");
	check(!memcmp(&other, end_of(to, sapi ? 0 : 3), sizeof other), "and the other endpoint is unchanged");
}

/* The call is refused with this answer, and nothing is written. */
#define REFUSED(side, told, call, answer) do { \
	um_side old_side = *(side); \
	um_effects old_told = *(told); \
	check((call) == (answer) && !memcmp(&old_side, (side), sizeof old_side) && !memcmp(&old_told, (told), sizeof old_told), \
		#call " is refused"); \
} while (0)

static void begin(um_side *mobile, um_side *network, uint8_t channel)
{
	memset(mobile, 0xa5, sizeof *mobile);
	memset(network, 0xa5, sizeof *network);
	check(um_side_new(mobile, UM_MOBILE, channel) && um_side_new(network, UM_NETWORK, channel), "two sides are initialised");
	um_end ends[4];
	memset(ends, 0, sizeof ends);
	check(um_end_new(ends, UM_MOBILE, 0, channel) && um_end_new(ends + 1, UM_MOBILE, 3, channel)
		&& um_end_new(ends + 2, UM_NETWORK, 0, channel) && um_end_new(ends + 3, UM_NETWORK, 3, channel), "and four endpoints");
	check(mobile->link0.sapi == 0 && mobile->link3.sapi == 3 && mobile->link0.role == UM_MOBILE && mobile->link3.role == UM_MOBILE
		&& network->link3.role == UM_NETWORK && network->link3.channel == channel && network->link0.state == UM_IDLE, "a side is two endpoints");
}

/* Opens both links, SAPI 0 with information and SAPI 3 without. */
static void open_both(um_side *mobile, um_side *network)
{
	static const uint8_t sabm0[5] = { 0x01, 0x3f, 0x09, 1, 2 }, ua0[5] = { 0x01, 0x73, 0x09, 1, 2 };
	static const uint8_t sabm3[3] = { 0x0d, 0x3f, 0x01 }, ua3[3] = { 0x0d, 0x73, 0x01 };
	um_message info = message_of(1, 2), none = message_of(0, 0);
	um_effects told, sent0, sent3;

	memset(&told, 0xa5, sizeof told);
	REFUSED(network, &told, um_side_open(network, &info, &told), UM_END_NO_CALL);
	REFUSED(mobile, &told, um_side_open(mobile, &none, &told), UM_END_EMPTY);
	REFUSED(mobile, &told, um_side_send(mobile, 0, &info, &told), UM_END_NOT_OPEN);
	REFUSED(mobile, &told, um_side_send(mobile, 1, &info, &told), UM_END_NO_CALL);
	REFUSED(mobile, &told, um_side_unit(mobile, 2, &info, &told), UM_END_NO_CALL);
	REFUSED(mobile, &told, um_side_close(mobile, 255, &told), UM_END_NO_CALL);
	REFUSED(mobile, &told, um_side_timer(mobile, 4, &told), UM_END_NO_CALL);
	REFUSED(mobile, &told, um_side_close(mobile, 3, &told), UM_END_NOT_OPEN);
	REFUSED(mobile, &told, um_side_timer(mobile, 3, &told), UM_END_NOT_RUNNING);
	check(um_side_open(mobile, &info, &sent0) == UM_END_DONE && is_sent(mobile, &sent0, sabm0, 5), "a SABM on SAPI 0");
	check(um_side_open_bare(mobile, &sent3) == UM_END_DONE && is_sent(mobile, &sent3, sabm3, 3), "a SABM on SAPI 3");
	REFUSED(mobile, &told, um_side_open(mobile, &info, &told), UM_END_NOT_IDLE);
	REFUSED(mobile, &told, um_side_open_bare(mobile, &told), UM_END_NOT_IDLE);
	take(network, sent3.frames[0], 3, &told);
	check(is_sent(network, &told, ua3, 3) && is_told(&told, UM_OPENED, &none), "SAPI 3 is opened first");
	take(mobile, told.frames[0], 3, &told);
	check(told.frame_count == 0 && is_told(&told, UM_OPENED, &none) && mobile->link0.state == UM_OPENING, "on both sides");
	take(network, sent0.frames[0], 0, &told);
	check(is_sent(network, &told, ua0, 5) && is_told(&told, UM_OPENED, &info), "then SAPI 0");
	take(mobile, told.frames[0], 0, &told);
	check(told.frame_count == 0 && is_told(&told, UM_OPENED, &info) && mobile->link3.state == UM_OPEN, "on both sides too");
}

/* One message each way at once: 41 octets on SAPI 0, and one octet on SAPI 3, whose frame is lost once. */
static void carry_both(um_side *mobile, um_side *network)
{
	um_message up = message_of(7, 41), down = message_of(9, 1);
	um_effects sent0, sent3, told, alone;
	um_end copy = mobile->link0;

	check(um_side_send(mobile, 0, &up, &sent0) == UM_END_DONE, "a message up on SAPI 0");
	check(um_end_send(&copy, &up, &alone) == UM_END_DONE && !memcmp(&copy, &mobile->link0, sizeof copy)
		&& !memcmp(&alone, &sent0, sizeof alone), "as its endpoint sends it by itself");
	check(um_side_send(network, 3, &down, &sent3) == UM_END_DONE, "a message down on SAPI 3");
	REFUSED(mobile, &told, um_side_timer(mobile, 3, &told), UM_END_NOT_RUNNING);
	REFUSED(network, &told, um_side_timer(network, 0, &told), UM_END_NOT_RUNNING);
	check(um_side_timer(network, 3, &sent3) == UM_END_DONE && network->link3.repeats == 1, "the frame on SAPI 3 is retransmitted");
	take(mobile, sent3.frames[0], 3, &sent3);
	check(is_told(&sent3, UM_GOT, &down) && sent3.frame_count == 1, "the message is delivered on SAPI 3");
	for (int piece = 1; sent0.frame_count; piece++) {
		check(piece <= 3, "three segments on SAPI 0");
		take(network, sent0.frames[0], 0, &told);
		check(piece < 3 ? told.notice_count == 0 : is_told(&told, UM_GOT, &up), "the message is delivered on SAPI 0");
		take(mobile, told.frames[0], 0, &sent0);
	}
	check(sent0.notice_count == 1 && sent0.notices[0].kind == UM_ACKED && sent0.notices[0].number == 1, "and is acknowledged");
	take(network, sent3.frames[0], 3, &told);
	check(told.notice_count == 1 && told.notices[0].kind == UM_ACKED && told.notices[0].number == 1, "as is that on SAPI 3");
}

/* Units of both SAPIs, the fill frame, a frame of a SAPI without a link, and octets that are not a frame. */
static void beside_the_links(um_side *mobile, um_side *network)
{
	static const uint8_t ui0[4] = { 0x01, 0x03, 0x05, 9 }, ui3[4] = { 0x0d, 0x03, 0x05, 9 }, fill[3] = { 0x01, 0x03, 0x01 };
	um_message unit = message_of(9, 1), none = message_of(0, 0);
	um_effects told, sent;
	um_side before = *mobile;
	uint8_t noise[23], sapi = 0xa5;
	size_t at = mobile->link0.channel == UM_SACCH ? 2 : 0;

	memset(&told, 0xa5, sizeof told);
	REFUSED(mobile, &told, um_side_unit(mobile, 3, &none, &told), UM_END_EMPTY);
	check(um_side_unit(mobile, 3, &unit, &sent) == UM_END_DONE && is_sent(mobile, &sent, ui3, 4), "a unit on SAPI 3");
	take(network, sent.frames[0], 3, &told);
	check(is_told(&told, UM_UNIT, &unit) && told.frame_count == 0, "comes in there");
	check(um_side_unit(mobile, 0, &unit, &sent) == UM_END_DONE && is_sent(mobile, &sent, ui0, 4), "a unit on SAPI 0");
	take(network, sent.frames[0], 0, &told);
	check(is_told(&told, UM_UNIT, &unit), "comes in there");
	check(um_side_idle(mobile, &sent) == UM_END_DONE && is_sent(mobile, &sent, fill, 3), "the fill frame");
	take(network, sent.frames[0], 0, &told);
	check(is_nothing(&told) && !memcmp(&before, mobile, sizeof before), "reports nothing, and units and fill frames leave a side unchanged");
	sent.frames[0][at] = 0x05;
	before = *network;
	take(network, sent.frames[0], 0, &told);
	check(is_nothing(&told) && !memcmp(&before, network, sizeof before), "a frame of SAPI 1 is ignored");
	memset(noise, 0xff, sizeof noise);
	REFUSED(network, &told, um_side_take(network, noise, &sapi, &told), UM_END_NO_FRAME);
	check(sapi == 0xa5, "and no SAPI is written");
}

/* Releases the link of SAPI 3; that of SAPI 0 stays open. */
static void close_one(um_side *mobile, um_side *network)
{
	static const uint8_t disc[3] = { 0x0f, 0x53, 0x01 }, ua[3] = { 0x0f, 0x73, 0x01 };
	um_message m = message_of(3, 1);
	um_effects told;

	check(um_side_close(network, 3, &told) == UM_END_DONE && is_sent(network, &told, disc, 3), "a DISC on SAPI 3");
	take(mobile, told.frames[0], 3, &told);
	check(is_sent(mobile, &told, ua, 3) && told.notices[0].kind == UM_ENDED && told.notices[0].reason == UM_RELEASED, "ends it at the mobile");
	take(network, told.frames[0], 3, &told);
	check(told.notices[0].kind == UM_ENDED && network->link3.state == UM_CLOSED && network->link0.state == UM_OPEN, "and at the network");
	REFUSED(network, &told, um_side_send(network, 3, &m, &told), UM_END_NOT_OPEN);
	check(um_side_send(network, 0, &m, &told) == UM_END_DONE, "SAPI 0 stays open");
	take(mobile, told.frames[0], 0, &told);
	check(is_told(&told, UM_GOT, &m), "to send");
}

/* Every call refuses the state as invalid, and writes nothing. */
static void is_none(const um_side *spoiled, const char *what)
{
	static const uint8_t octets[23] = { 1, 3, 1 };
	um_message m = message_of(1, 1);
	um_side side = *spoiled;
	um_effects told, old;
	uint8_t sapi = 0xa5;

	memset(&told, 0xa5, sizeof told);
	old = told;
	check(um_side_open(&side, &m, &told) == UM_END_NONE && um_side_open_bare(&side, &told) == UM_END_NONE
		&& um_side_send(&side, 0, &m, &told) == UM_END_NONE && um_side_send(&side, 3, &m, &told) == UM_END_NONE
		&& um_side_unit(&side, 3, &m, &told) == UM_END_NONE && um_side_close(&side, 0, &told) == UM_END_NONE
		&& um_side_timer(&side, 3, &told) == UM_END_NONE
		&& um_side_idle(&side, &told) == UM_END_NONE && um_side_take(&side, octets, &sapi, &told) == UM_END_NONE, what);
	check(sapi == 0xa5 && !memcmp(&old, &told, sizeof told) && !memcmp(&side, spoiled, sizeof side), "nothing is written then");
}

#define SPOILED(from, change, what) do { um_side s = (from); change; is_none(&s, what); } while (0)

static void spoiled(void)
{
	um_side mobile, network, marked;

	begin(&mobile, &network, UM_SDCCH);
	SPOILED(mobile, s.link3 = network.link3, "a mobile's endpoint and the network's");
	SPOILED(mobile, s.link3 = s.link0, "two endpoints of SAPI 0");
	SPOILED(mobile, s.link0 = s.link3, "two endpoints of SAPI 3");
	SPOILED(mobile, s.link0.channel = UM_SACCH, "two channels");
	SPOILED(mobile, (s.link0.role = 2, s.link3.role = 2), "role 2");
	SPOILED(mobile, (s.link0.channel = 2, s.link3.channel = 2), "channel 2");
	memset(&marked, 0xa5, sizeof marked);
	network = marked;
	check(!um_side_new(&marked, 2, UM_SDCCH) && !um_side_new(&marked, UM_MOBILE, 2) && !memcmp(&marked, &network, sizeof marked),
		"a side with an invalid role or channel is refused");
}

static void session(uint8_t channel)
{
	um_side mobile, network;

	begin(&mobile, &network, channel);
	open_both(&mobile, &network);
	carry_both(&mobile, &network);
	beside_the_links(&mobile, &network);
	close_one(&mobile, &network);
}

int main(void)
{
	check(sizeof(um_side) == 2 * sizeof(um_end) && offsetof(um_side, link3) == sizeof(um_end), "the size and the offsets of um_side");
	session(UM_SDCCH);
	session(UM_SACCH);
	spoiled();
	if (!failed)
		printf("library: sides from C: both links at once on both channels, each refusal, 6 invalid pairs of endpoints\n");
	return failed;
}
