/* Tests endpoints through um.h: complete sessions on both channels and both SAPIs, each refusal, and invalid states. */
#include "um.h"
#include <stddef.h>
#include <stdio.h>
#include <string.h>

static int failed;

static void check(bool holds, const char *what)
{
	if (!holds) {
		printf("library: %s\n", what);
		failed = 1;
	}
}

/* The state and the effects of an endpoint, with marked octets around them. */
typedef struct {
	uint8_t before[16];
	um_end end;
	uint8_t between[16];
	um_effects told;
	uint8_t after[16];
} place;

static bool is_marked(const uint8_t *octets, size_t count)
{
	for (size_t i = 0; i < count; i++)
		if (octets[i] != 0xa5)
			return false;
	return true;
}

static bool is_around(const place *p)
{
	return is_marked(p->before, 16) && is_marked(p->between, 16) && is_marked(p->after, 16);
}

static void begin(place *p, uint8_t role, uint8_t sapi, uint8_t channel)
{
	memset(p, 0xa5, sizeof *p);
	check(um_end_new(&p->end, role, sapi, channel) && is_around(p), "an endpoint is initialised, and nothing else is written");
}

static um_message message_of(const uint8_t *octets, int count)
{
	um_message m;
	memset(&m, 0xee, sizeof m);
	m.count = (uint8_t)count;
	memcpy(m.octets, octets, (size_t)count);
	return m;
}

/* Exactly one block is sent. It starts with these octets (on SACCH after two layer 1 octets), and fill octets follow. */
static bool is_sent(const place *p, const uint8_t *octets, size_t count)
{
	const uint8_t *block = p->told.frames[0];
	size_t at = p->end.channel == UM_SACCH ? 2 : 0;
	if (p->told.frame_count != 1 || (at && (block[0] || block[1])) || memcmp(block + at, octets, count))
		return false;
	for (size_t i = at + count; i < 23; i++)
		if (block[i] != 0x2b)
			return false;
	return true;
}

static bool is_silent(const place *p)
{
	static const uint8_t none[46];
	return p->told.frame_count == 0 && !memcmp(p->told.frames, none, 46);
}

static bool is_told(const place *p, uint8_t kind, const um_message *m)
{
	const um_notice *n = &p->told.notices[0];
	return p->told.notice_count == 1 && n->kind == kind && n->number == 0 && n->reason == 0 && n->message.count == m->count
		&& !memcmp(n->message.octets, m->octets, m->count) && (m->count == 255 || n->message.octets[m->count] == 0);
}

static bool is_ended(const place *p, uint8_t reason)
{
	const um_notice *n = &p->told.notices[0];
	return p->told.notice_count == 1 && n->kind == UM_ENDED && n->reason == reason && n->number == 0 && n->message.count == 0
		&& p->told.notices[1].kind == UM_NO_NOTICE;
}

static bool is_quiet(const place *p)
{
	return p->told.notice_count == 0 && p->told.notices[0].kind == UM_NO_NOTICE;
}

/* The call is refused with this answer, and nothing is written. */
#define REFUSED(p, call, answer) do { \
	place old = *(p); \
	check((call) == (answer) && !memcmp(&old, (p), sizeof old), #call " is refused"); \
} while (0)

/* Passes the one block that an endpoint sends to the other one. */
static void give(place *to, const place *from)
{
	check(from->told.frame_count == 1 && um_end_take(&to->end, from->told.frames[0], &to->told) == UM_END_DONE
		&& is_around(to), "a block is processed");
}

static void opened(place *mobile, place *network, uint8_t channel)
{
	static const uint8_t info[2] = { 1, 2 }, sabm[5] = { 0x01, 0x3f, 0x09, 1, 2 }, ua[5] = { 0x01, 0x73, 0x09, 1, 2 };
	um_message m = message_of(info, 2);

	begin(mobile, UM_MOBILE, 0, channel);
	begin(network, UM_NETWORK, 0, channel);
	REFUSED(mobile, um_end_send(&mobile->end, &m, &mobile->told), UM_END_NOT_OPEN);
	REFUSED(mobile, um_end_close(&mobile->end, &mobile->told), UM_END_NOT_OPEN);
	REFUSED(mobile, um_end_timer(&mobile->end, &mobile->told), UM_END_NOT_RUNNING);
	REFUSED(mobile, um_end_open_bare(&mobile->end, &mobile->told), UM_END_NO_CALL);
	REFUSED(network, um_end_open(&network->end, &m, &network->told), UM_END_NO_CALL);
	REFUSED(network, um_end_open_bare(&network->end, &network->told), UM_END_NO_CALL);
	check(um_end_open(&mobile->end, &m, &mobile->told) == UM_END_DONE && is_around(mobile) && is_sent(mobile, sabm, 5)
		&& is_quiet(mobile), "a SABM");
	REFUSED(mobile, um_end_open(&mobile->end, &m, &mobile->told), UM_END_NOT_IDLE);
	check(um_end_timer(&mobile->end, &mobile->told) == UM_END_DONE && is_sent(mobile, sabm, 5) && mobile->end.retries == 1, "the SABM again");
	give(network, mobile);
	check(is_sent(network, ua, 5) && is_told(network, UM_OPENED, &m), "a SABM opens the network's end");
	give(mobile, network);
	check(is_silent(mobile) && is_told(mobile, UM_OPENED, &m), "the UA opens the mobile's end");
}

/* Two mobiles send a SABM at the same time: the network ignores the second, whose mobile closes its link on the UA. */
static void contention(void)
{
	static const uint8_t ours[2] = { 1, 2 }, theirs[2] = { 1, 3 };
	um_message a = message_of(ours, 2), b = message_of(theirs, 2);
	place first, second, network;

	begin(&first, UM_MOBILE, 0, UM_SDCCH);
	begin(&second, UM_MOBILE, 0, UM_SDCCH);
	begin(&network, UM_NETWORK, 0, UM_SDCCH);
	check(um_end_open(&first.end, &a, &first.told) == 0 && um_end_open(&second.end, &b, &second.told) == 0, "two mobiles open at once");
	give(&network, &first);
	check(is_told(&network, UM_OPENED, &a), "the first is answered");
	place answer = network;
	give(&network, &second);
	check(is_silent(&network) && is_quiet(&network), "the second is not");
	give(&first, &answer);
	give(&second, &answer);
	check(is_told(&first, UM_OPENED, &a) && is_ended(&second, UM_CONTENTION), "contention is resolved");
	REFUSED(&second, um_end_open(&second.end, &b, &second.told), UM_END_NOT_IDLE);
}

/* A message of 251 octets is sent in this many segments, and acknowledged with this number. */
static void carry(place *from, place *to, int pieces, uint64_t number)
{
	uint8_t octets[251];
	for (int i = 0; i < 251; i++)
		octets[i] = (uint8_t)(i * 7 + (int)number);
	um_message m = message_of(octets, 251);
	check(um_end_send(&from->end, &m, &from->told) == UM_END_DONE && is_around(from), "a message of 251 octets");
	for (int i = 1; i <= pieces; i++) {
		check(is_quiet(from) && from->told.frame_count == 1, "a segment is sent");
		give(to, from);
		check(i < pieces ? is_quiet(to) : is_told(to, UM_GOT, &m), "the message is delivered with its last segment");
		give(from, to);
	}
	check(from->told.notice_count == 1 && from->told.notices[0].kind == UM_ACKED && from->told.notices[0].number == number
		&& is_silent(from), "the message is acknowledged");
}

/* A frame is lost, and retransmitted on T200 expiry. */
static void lost(place *mobile, place *network)
{
	static const uint8_t octets[1] = { 0xaa };
	um_message m = message_of(octets, 1);
	uint8_t again[4], before[4];

	check(um_end_send(&mobile->end, &m, &mobile->told) == UM_END_DONE && mobile->told.frame_count == 1, "a message of one octet");
	size_t at = mobile->end.channel == UM_SACCH ? 2 : 0;
	memcpy(before, mobile->told.frames[0] + at, 4);
	check(before[0] == 0x01 && !(before[1] & 0x11) && before[2] == 0x05 && before[3] == 0xaa, "an I frame with P = 0");
	check(um_end_timer(&mobile->end, &mobile->told) == UM_END_DONE && mobile->end.repeats == 1, "T200 expires");
	memcpy(again, mobile->told.frames[0] + at, 4);
	before[1] |= 0x10;
	check(!memcmp(before, again, 4), "the I frame is retransmitted with P = 1");
	give(network, mobile);
	check(is_told(network, UM_GOT, &m) && (network->told.frames[0][at + 1] & 0x1f) == 0x11, "it is delivered, and answered by RR with F = 1");
	give(mobile, network);
	check(mobile->told.notice_count == 1 && mobile->told.notices[0].kind == UM_ACKED, "and acknowledged");
	REFUSED(mobile, um_end_timer(&mobile->end, &mobile->told), UM_END_NOT_RUNNING);
}

static void units(place *p, int room)
{
	static const uint8_t octets[21] = { 9 };
	um_message none = message_of(octets, 0), one = message_of(octets, 1), more = message_of(octets, room + 1), most = message_of(octets, 21);
	static const uint8_t ui[4] = { 0x01, 0x03, 0x05, 9 }, fill[3] = { 0x01, 0x03, 0x01 };

	most.count = 255;
	REFUSED(p, um_end_unit(&p->end, &none, &p->told), UM_END_EMPTY);
	REFUSED(p, um_end_unit(&p->end, &more, &p->told), UM_END_TOO_LONG);
	REFUSED(p, um_end_unit(&p->end, &most, &p->told), UM_END_TOO_LONG);
	check(um_end_unit(&p->end, &one, &p->told) == UM_END_DONE && is_sent(p, ui, 4) && is_quiet(p) && is_around(p), "a unit");
	check(um_end_idle(&p->end, &p->told) == UM_END_DONE && is_sent(p, fill, 3) && is_quiet(p) && is_around(p), "the fill frame");
}

static void full(place *p)
{
	static const uint8_t octets[252] = { 5 };
	um_message none = message_of(octets, 0), one = message_of(octets, 1), more = message_of(octets, 252);

	REFUSED(p, um_end_send(&p->end, &none, &p->told), UM_END_EMPTY);
	REFUSED(p, um_end_send(&p->end, &more, &p->told), UM_END_TOO_LONG);
	for (int i = 0; i < 8; i++)
		check(um_end_send(&p->end, &one, &p->told) == UM_END_DONE && p->told.frame_count == (i == 0), "eight messages are accepted");
	REFUSED(p, um_end_send(&p->end, &one, &p->told), UM_END_FULL);
}

static void session(uint8_t channel)
{
	static const uint8_t disc[3] = { 0x01, 0x53, 0x01 }, ua[3] = { 0x01, 0x73, 0x01 };
	uint8_t noise[23];
	place mobile, network;

	opened(&mobile, &network, channel);
	for (uint64_t number = 1; number <= 3; number++) {
		carry(&mobile, &network, channel == UM_SACCH ? 14 : 13, number);
		carry(&network, &mobile, channel == UM_SACCH ? 14 : 13, number);
	}
	lost(&mobile, &network);
	units(&mobile, channel == UM_SACCH ? 18 : 20);
	memset(noise, 0xff, 23);
	REFUSED(&mobile, um_end_take(&mobile.end, noise, &mobile.told), UM_END_NO_FRAME);
	place other = mobile;
	full(&other);
	check(um_end_close(&mobile.end, &mobile.told) == UM_END_DONE && is_sent(&mobile, disc, 3) && is_quiet(&mobile), "a DISC");
	give(&network, &mobile);
	check(is_sent(&network, ua, 3) && is_ended(&network, UM_RELEASED), "the network's end is released");
	give(&mobile, &network);
	check(is_silent(&mobile) && is_ended(&mobile, UM_RELEASED) && mobile.end.state == UM_CLOSED, "and the mobile's");
}

static void short_messages(void)
{
	static const uint8_t octets[1] = { 7 }, sabm[3] = { 0x0d, 0x3f, 0x01 }, ua[3] = { 0x0d, 0x73, 0x01 };
	um_message m = message_of(octets, 1), none = message_of(octets, 0);
	place mobile, network;

	begin(&mobile, UM_MOBILE, 3, UM_SDCCH);
	begin(&network, UM_NETWORK, 3, UM_SDCCH);
	REFUSED(&mobile, um_end_open(&mobile.end, &m, &mobile.told), UM_END_NO_CALL);
	check(um_end_open_bare(&mobile.end, &mobile.told) == UM_END_DONE && is_sent(&mobile, sabm, 3), "a SABM without information");
	REFUSED(&mobile, um_end_open_bare(&mobile.end, &mobile.told), UM_END_NOT_IDLE);
	give(&network, &mobile);
	check(is_sent(&network, ua, 3) && is_told(&network, UM_OPENED, &none), "it opens the network's end of SAPI 3");
	give(&mobile, &network);
	check(is_told(&mobile, UM_OPENED, &none), "and its UA the mobile's");
	carry(&mobile, &network, 13, 1);
}

/* Every call refuses the state as invalid, and writes nothing. */
static void is_none(const um_end *spoiled, const char *what)
{
	static const uint8_t octets[23] = { 1, 3, 1 };
	um_message m = message_of(octets, 1);
	place p, old;

	memset(&p, 0xa5, sizeof p);
	memcpy(&p.end, spoiled, sizeof *spoiled);
	old = p;
	check(um_end_open(&p.end, &m, &p.told) == UM_END_NONE && um_end_open_bare(&p.end, &p.told) == UM_END_NONE
		&& um_end_send(&p.end, &m, &p.told) == UM_END_NONE && um_end_unit(&p.end, &m, &p.told) == UM_END_NONE
		&& um_end_close(&p.end, &p.told) == UM_END_NONE && um_end_timer(&p.end, &p.told) == UM_END_NONE
		&& um_end_idle(&p.end, &p.told) == UM_END_NONE && um_end_take(&p.end, octets, &p.told) == UM_END_NONE, what);
	check(!memcmp(&old, &p, sizeof p), "nothing is written to an invalid state");
}

#define SPOILED(from, change, what) do { um_end s = (from).end; change; is_none(&s, what); } while (0)

/* Two mobiles that differ only in how often they repeated their SABM have the same state once the link is open. */
static void equal(void)
{
	place once, thrice, network;
	um_message info = { .count = 1, .octets = { 7 } };
	um_effects sabm, ua;

	memset(&once, 0, sizeof once);
	memset(&thrice, 0, sizeof thrice);
	begin(&network, UM_NETWORK, 0, UM_SDCCH);
	check(um_end_new(&once.end, UM_MOBILE, 0, UM_SDCCH) && um_end_new(&thrice.end, UM_MOBILE, 0, UM_SDCCH), "two mobiles");
	check(um_end_open(&once.end, &info, &sabm) == UM_END_DONE && um_end_open(&thrice.end, &info, &sabm) == UM_END_DONE, "two SABMs");
	check(um_end_timer(&thrice.end, &sabm) == UM_END_DONE && um_end_timer(&thrice.end, &sabm) == UM_END_DONE, "the SABM twice more");
	check(um_end_take(&network.end, sabm.frames[0], &ua) == UM_END_DONE && ua.frame_count == 1, "the UA");
	check(um_end_take(&once.end, ua.frames[0], &sabm) == UM_END_DONE && um_end_take(&thrice.end, ua.frames[0], &sabm) == UM_END_DONE,
		"the UA at both");
	check(thrice.end.state == UM_OPEN && !memcmp(&once.end, &thrice.end, sizeof once.end), "states of the same endpoint are equal");
}

static void spoiled(void)
{
	static const uint8_t octets[41];
	um_message m = message_of(octets, 41);
	place mobile, network, idle, bare;

	begin(&idle, UM_MOBILE, 0, UM_SDCCH);
	begin(&bare, UM_MOBILE, 3, UM_SDCCH);
	opened(&mobile, &network, UM_SDCCH);
	check(um_end_send(&mobile.end, &m, &mobile.told) == UM_END_DONE && mobile.end.held_count == 1 && mobile.end.held[0].count == 41
		&& mobile.end.vs == 1 && mobile.end.va == 0 && mobile.end.kept.count == 2 && mobile.end.state == UM_OPEN,
		"a state in the caller's memory");
	SPOILED(mobile, s.role = 2, "role 2");
	SPOILED(mobile, s.sapi = 1, "SAPI 1");
	SPOILED(mobile, s.sapi = 3, "information kept on SAPI 3");
	SPOILED(mobile, s.channel = 2, "channel 2");
	SPOILED(mobile, s.state = 5, "state 5");
	SPOILED(mobile, s.state = UM_IDLE, "a message held before the link is open");
	SPOILED(mobile, s.vs = 8, "V(S) 8");
	SPOILED(mobile, s.vs = 2, "two outstanding segments");
	SPOILED(mobile, s.va = 8, "V(A) 8");
	SPOILED(mobile, s.va = 2, "a segment acknowledged but not sent");
	SPOILED(mobile, s.vr = 8, "V(R) 8");
	SPOILED(mobile, s.place = 3, "the fourth of three segments");
	SPOILED(mobile, s.place = 1, "a segment skipped without an acknowledgement");
	SPOILED(mobile, s.held_count = 9, "nine messages held");
	SPOILED(mobile, s.held_count = 2, "an empty message");
	SPOILED(mobile, s.held_count = 0, "an outstanding segment of no message");
	SPOILED(mobile, s.held[0].count = 252, "a message of 252 octets held");
	SPOILED(mobile, s.part = 3, "part 3");
	SPOILED(mobile, s.joined.count = 252, "252 octets joined");
	SPOILED(mobile, s.kept.count = 21, "21 octets of information kept");
	SPOILED(mobile, s.kept.count = 255, "255 octets of information kept");
	SPOILED(idle, s.done = 1, "a message acknowledged before the link is open");
	SPOILED(idle, s.vr = 1, "a segment accepted before the link is open");
	SPOILED(idle, s.joined.count = 1, "a message begun before the link is open");
	SPOILED(idle, s.part = UM_PART_OVER, "a message too long before the link is open");
	SPOILED(idle, s.vs = 1, "a segment sent before the link is open");
	SPOILED(bare, s.kept.count = 1, "information kept on SAPI 3");
	SPOILED(idle, s.kept.count = 1, "information kept before the link was opened");
	SPOILED(idle, s.part = UM_PART_WHOLE, "a whole message without octets");
	SPOILED(idle, s.retries = 1, "a SABM repeated before the link was opened");
	SPOILED(idle, s.repeats = 1, "an I frame repeated before the link was opened");
	SPOILED(idle, s.state = UM_OPENING, "a SABM of SAPI 0 without information");
	SPOILED(mobile, s.kept.count = 0, "an open link of SAPI 0 without information");
	SPOILED(mobile, s.retries = 1, "a SABM repeated on an open link");
	SPOILED(network, s.repeats = 1, "an I frame repeated that is not outstanding");
	SPOILED(network, s.state = UM_OPENING, "a network that opens SAPI 0");
	um_effects last;
	um_end closing = mobile.end;
	check(um_end_close(&closing, &last) == UM_END_DONE, "a link that is closed with a message held");
	place closed;
	memset(&closed, 0xa5, sizeof closed);
	closed.end = closing;
	SPOILED(closed, s.held_count = 0, "an outstanding segment of no message, after the link was open");
	SPOILED(closed, s.place = 1, "a segment skipped, after the link was open");
	SPOILED(closed, s.repeats = 1, "an I frame repeated while the link is closed");

	memset(&idle, 0xa5, sizeof idle);
	check(!um_end_new(&idle.end, 2, 0, UM_SDCCH) && !um_end_new(&idle.end, UM_MOBILE, 1, UM_SDCCH)
		&& !um_end_new(&idle.end, UM_MOBILE, 0, 2)
		&& is_marked((const uint8_t *)&idle, sizeof idle), "an endpoint with an invalid role, SAPI or channel is refused");

	/* unused octets may have any value */
	memset(mobile.end.held + 1, 0xff, 7 * sizeof(um_message));
	memset(mobile.end.kept.octets + 2, 0xff, 253);
	mobile.end.rejecting = 200;
	um_end same = mobile.end;
	memset(&same.held[1], 0, 7 * sizeof(um_message));
	memset(same.kept.octets + 2, 0, 253);
	same.rejecting = 1;
	check(um_end_timer(&mobile.end, &mobile.told) == UM_END_DONE && um_end_timer(&same, &idle.told) == UM_END_DONE
		&& !memcmp(&mobile.end, &same, offsetof(um_end, held)) && !memcmp(mobile.end.held, same.held, sizeof same.held)
		&& mobile.end.rejecting == 1, "unused octets");
}

int main(void)
{
	check(sizeof(um_message) == 256 && sizeof(um_end) == 2584 && sizeof(um_notice) == 272 && sizeof(um_effects) == 864
		&& offsetof(um_end, role) == 8 && offsetof(um_end, part) == 20 && offsetof(um_end, kept) == 21 && offsetof(um_end, joined) == 277
		&& offsetof(um_end, held) == 533 && offsetof(um_notice, kind) == 8 && offsetof(um_notice, message) == 10
		&& offsetof(um_effects, notice_count) == 816 && offsetof(um_effects, frames) == 818, "the sizes and offsets of the structs");
	contention();
	session(UM_SDCCH);
	session(UM_SACCH);
	short_messages();
	spoiled();
	equal();
	if (!failed)
		printf("library: endpoints from C: sessions on both channels and SAPIs, each refusal, 39 invalid states\n");
	return failed;
}
