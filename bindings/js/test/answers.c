/* Prints the native library's answers for compare.mjs, one per line: 2,000 noisy blocks, then 20,000 calls of endpoints and 20,000 of
 * sides. Both programs draw the same random numbers by xorshift and use only integers, so rounding cannot make them differ. */
#include "um.h"
#include <stddef.h>
#include <stdio.h>
#include <string.h>

enum { BLOCKS = 2000, CALLS = 20000, QUEUE = 16 };

static uint32_t drawn = 2463534242u;

static uint32_t draw(uint32_t below)
{
	drawn ^= drawn << 13;
	drawn ^= drawn >> 17;
	drawn ^= drawn << 5;
	return (drawn >> 8) % below;
}

/* The sum of four random octets is nearly Gaussian noise. */
static int noisy(int bit, int level, int lost)
{
	int noise = (int)draw(256) + (int)draw(256) + (int)draw(256) + (int)draw(256) - 510;
	int value = (bit ? -64 : 64) + noise * level / 256;
	return lost ? 0 : value > 127 ? 127 : value < -127 ? -127 : value;
}

static void put_octets(const uint8_t *octets, int count)
{
	for (int i = 0; i < count; i++)
		printf("%02x", octets[i]);
}

static void put_bits(const uint8_t *bits, int count)
{
	for (int i = 0; i < count; i++)
		putchar('0' + bits[i]);
}

static void put_report(const char *name, const um_block_report *r)
{
	printf("%s %d %d %u %u %u ", name, r->accepted, r->metric, r->wrong_training, r->wrong_coded, r->tsc);
	put_octets(r->octets, 23);
	putchar(' ');
	put_bits(r->word, 228);
}

static void block(int number)
{
	uint8_t octets[23], bursts[4][148];
	int8_t soft[4][148];
	um_block_report report;
	um_margin_report margin;
	uint32_t rank = 0;
	int level = 30 + number % 25 * 4, lost = number % 10 == 7 ? (int)draw(4) : -1;
	for (int i = 0; i < 23; i++)
		octets[i] = (uint8_t)draw(256);
	if (!um_send_block(octets, (uint8_t)(number % 8), bursts))
		puts("refused");
	for (int b = 0; b < 4; b++)
		for (int i = 0; i < 148; i++)
			soft[b][i] = (int8_t)noisy(bursts[b][i], level, b == lost);
	const int8_t(*received)[148] = (const int8_t(*)[148])soft;
	if (!um_receive_block(received, &report))
		puts("refused");
	put_report("receive", &report);
	if (!um_receive_block_among(received, 64, &report, &rank))
		puts("refused");
	put_report("\namong", &report);
	if (!um_margin_block(received, &margin))
		puts("refused");
	printf(" %u\nmargin %d ", rank, margin.margin);
	put_bits(margin.word, 228);
	putchar(' ');
	put_bits(margin.next, 228);
	putchar('\n');
}

/* The blocks that each end sent and the other has not received yet. */
struct air {
	uint8_t queue[2][QUEUE][23];
	int queued[2];
};

static void add(struct air *air, int who, const um_effects *effects)
{
	for (int f = 0; f < effects->frame_count && air->queued[who] < QUEUE; f++)
		memcpy(air->queue[who][air->queued[who]++], effects->frames[f], 23);
}

/* Receives the first block that `from` sent; one in eight is lost, and one in thirty of the others has a wrong bit. */
static int arrives(struct air *air, int from, uint8_t octets[23])
{
	if (air->queued[from] == 0)
		return 0;
	memcpy(octets, air->queue[from][0], 23);
	memmove(air->queue[from][0], air->queue[from][1], (size_t)(23 * --air->queued[from]));
	if (draw(8) == 0)
		return 0;
	if (draw(30) == 0) {
		int at = (int)draw(5);
		octets[at] = (uint8_t)(octets[at] ^ 1 << draw(8));
	}
	return 1;
}

static um_message message(int count)
{
	um_message m;
	memset(&m, 0, sizeof m);
	m.count = (uint8_t)count;
	for (int i = 0; i < count; i++)
		m.octets[i] = (uint8_t)draw(256);
	return m;
}

struct ends {
	um_end ends[2];
	struct air air;
};

static void begin_ends(struct ends *s)
{
	uint8_t sapi = draw(2) ? 3 : 0, channel = (uint8_t)draw(2);
	memset(s, 0, sizeof *s);
	for (uint8_t role = 0; role < 2; role++)
		if (!um_end_new(&s->ends[role], role, sapi, channel))
			puts("refused");
}

static int call_end(struct ends *s, int who, um_effects *effects)
{
	um_end *end = &s->ends[who];
	uint8_t octets[23];
	um_message m;
	switch (draw(12)) {
	case 0:
		m = message((int)draw(22));
		return um_end_open(end, &m, effects);
	case 1:
		return um_end_open_bare(end, effects);
	case 2:
		m = message((int)draw(256));
		return um_end_send(end, &m, effects);
	case 3:
		m = message((int)draw(60));
		return um_end_send(end, &m, effects);
	case 4:
		m = message((int)draw(23));
		return um_end_unit(end, &m, effects);
	case 5:
		return draw(20) ? -1 : um_end_close(end, effects);
	case 6:
		return um_end_timer(end, effects);
	case 7:
		return um_end_idle(end, effects);
	default:
		return arrives(&s->air, 1 - who, octets) ? um_end_take(end, octets, effects) : -1;
	}
}

struct sides {
	um_side sides[2];
	struct air air;
};

static void begin_sides(struct sides *s)
{
	uint8_t channel = (uint8_t)draw(2);
	memset(s, 0, sizeof *s);
	for (uint8_t role = 0; role < 2; role++)
		if (!um_side_new(&s->sides[role], role, channel))
			puts("refused");
}

static int call_side(struct sides *s, int who, uint8_t *taken, um_effects *effects)
{
	um_side *side = &s->sides[who];
	uint8_t octets[23], sapi = draw(2) ? 3 : 0;
	um_message m;
	switch (draw(12)) {
	case 0:
		m = message((int)draw(22));
		return um_side_open(side, &m, effects);
	case 1:
		return um_side_open_bare(side, effects);
	case 2:
		m = message((int)draw(256));
		return um_side_send(side, sapi, &m, effects);
	case 3:
		m = message((int)draw(60));
		return um_side_send(side, sapi, &m, effects);
	case 4:
		m = message((int)draw(23));
		return um_side_unit(side, sapi, &m, effects);
	case 5:
		return draw(20) ? -1 : um_side_close(side, sapi, effects);
	case 6:
		return um_side_timer(side, sapi, effects);
	case 7:
		return um_side_idle(side, effects);
	default:
		return arrives(&s->air, 1 - who, octets) ? um_side_take(side, octets, taken, effects) : -1;
	}
}

/* The fields of one or two ends, without the padding. */
static uint32_t hash(const void *ends, size_t links)
{
	enum { FIELDS = offsetof(um_end, held) + 8 * sizeof(um_message) };
	uint32_t h = 2166136261u;
	for (size_t link = 0; link < links; link++)
		for (size_t i = 0; i < FIELDS; i++)
			h = (h ^ ((const uint8_t *)ends)[link * sizeof(um_end) + i]) * 16777619u;
	return h;
}

static void put_effects(const um_effects *e)
{
	for (int i = 0; i < e->notice_count; i++) {
		const um_notice *n = &e->notices[i];
		printf(" %d,%llu,%d,", n->kind, (unsigned long long)n->number, n->reason);
		put_octets(n->message.octets, n->message.count);
	}
	for (int i = 0; i < e->frame_count; i++) {
		putchar(' ');
		put_octets(e->frames[i], 23);
	}
}

static void put_call(const char *name, int answer, const void *ends, size_t links, const um_effects *effects)
{
	printf("%s %d %u", name, answer, hash(ends, links));
	if (answer == UM_END_DONE)
		put_effects(effects);
}

static void calls_of_ends(void)
{
	static struct ends s;
	begin_ends(&s);
	for (int i = 0; i < CALLS; i++) {
		int who = (int)draw(2);
		um_effects effects;
		if (draw(300) == 0)
			begin_ends(&s);
		int answer = call_end(&s, who, &effects);
		put_call("end", answer, &s.ends[who], 1, &effects);
		putchar('\n');
		if (answer == UM_END_DONE)
			add(&s.air, who, &effects);
	}
}

static void calls_of_sides(void)
{
	static struct sides s;
	begin_sides(&s);
	for (int i = 0; i < CALLS; i++) {
		int who = (int)draw(2);
		um_effects effects;
		uint8_t taken = 9;
		if (draw(300) == 0)
			begin_sides(&s);
		int answer = call_side(&s, who, &taken, &effects);
		put_call("side", answer, &s.sides[who], 2, &effects);
		printf(" %d\n", answer == UM_END_DONE ? taken : 9);
		if (answer == UM_END_DONE)
			add(&s.air, who, &effects);
	}
}

int main(void)
{
	for (int i = 0; i < BLOCKS; i++)
		block(i);
	calls_of_ends();
	calls_of_sides();
	return 0;
}
