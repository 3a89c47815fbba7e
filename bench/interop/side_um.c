/* um as a side: its data link; and its endpoints with one queue and T200 counted from the call. */
#include "side.h"
#include <stdlib.h>
#include <string.h>

static const uint8_t SAPIS[LINK_COUNT] = { 0, 3 }, LAYER1[2];

long now;

void line_add(struct side *s, const uint8_t block[23])
{
	struct line *l = &s->line;
	if (l->count < LINE_ROOM)
		memcpy(l->blocks[(l->first + l->count++) % LINE_ROOM], block, 23);
}

bool line_next(struct side *s, uint8_t block[23])
{
	struct line *l = &s->line;
	if (!l->count)
		return false;
	memcpy(block, l->blocks[l->first], 23);
	l->first = (l->first + 1) % LINE_ROOM;
	l->count--;
	return true;
}

static void tell(struct side *s, int link, const um_notice *n)
{
	static const enum event events[] = { 0, OPENED, GOT, UNIT, ACKED, OVERSIZE, CLOSED };
	bool octets = n->kind == UM_OPENED || n->kind == UM_GOT || n->kind == UM_UNIT;
	int number = n->kind == UM_ENDED ? n->reason : octets ? n->message.count : (int)n->number;
	s->report(s, link, events[n->kind], octets ? n->message.octets : NULL, number);
}

static long block_of(const struct side *s)
{
	return s->on == UM_SACCH ? 102 : 51;
}

static void end(struct side *s)
{
	free(s->own);
}

/* -- the data link -- */

struct loop {
	um_datalink link;
	long last;         /* the time of the last slot */
	bool waits;        /* `repeat` goes into the next slot */
	uint8_t repeat[23];
};

static um_datalink *link_of(struct side *s)
{
	return &((struct loop *)s->own)->link;
}

static bool tell_all(struct side *s, uint8_t answer, const um_report *r)
{
	for (int i = 0; answer != UM_END_NO_FRAME && i < r->notice_count; i++)
		tell(s, r->sapis[i] ? LINK3 : LINK0, &r->notices[i]);
	return answer == UM_END_DONE;
}

/* A mobile hears SAPI 3 only while SAPI 0 is established: on SDCCH by a handshake that is not on the air, on SACCH by a call. */
static void establish(um_datalink *link)
{
	static const um_message info = { 1, { 1 } };
	const um_frame ua = { .kind = UM_UA, .pf = 1, .count = 1, .info = { 1 } };
	um_report r;
	uint8_t block[23];
	if (um_datalink_open(link, &info) != UM_END_DONE || um_datalink_next(link, LAYER1, block, &r) != UM_END_DONE ||
	    !um_write_frame(&ua, UM_SDCCH, block) || um_datalink_take(link, block, &r) != UM_END_DONE || link->link0.end.state != UM_OPEN)
		abort();
}

static void begin(struct side *s)
{
	struct loop *l = s->own = calloc(1, sizeof *l);
	long slots = (s->t200 + block_of(s) - 1) / block_of(s);
	uint8_t t200 = (uint8_t)(slots > 253 ? 253 : slots);
	l->last = now;
	if (!um_datalink_new_for(&l->link, s->role, s->on, s->normal ? UM_NORMAL : UM_BY_CONTENTION, t200, t200 + 2) ||
	    um_datalink_main(&l->link, true) != UM_END_DONE)
		abort();
	if (s->alone && s->role == UM_MOBILE && s->on == UM_SDCCH)
		establish(&l->link);
}

static bool open_link(struct side *s, int link, const um_message *info)
{
	return (info->count ? um_datalink_open(link_of(s), info) : um_datalink_establish(link_of(s), SAPIS[link])) == UM_END_DONE;
}

static bool send(struct side *s, int link, const um_message *m)
{
	return um_datalink_send(link_of(s), SAPIS[link], m) == UM_END_DONE;
}

static bool unit(struct side *s, int link, const um_message *m)
{
	uint8_t block[23];
	if (um_datalink_unit(link_of(s), SAPIS[link], m, LAYER1, block) != UM_END_DONE)
		return false;
	line_add(s, block);
	return true;
}

static bool close_link(struct side *s, int link)
{
	return um_datalink_close(link_of(s), SAPIS[link]) == UM_END_DONE;
}

static bool resume(struct side *s, const um_message *m)
{
	(void)m;
	return um_datalink_establish(link_of(s), 0) == UM_END_DONE;
}

static void take(struct side *s, const uint8_t block[23])
{
	um_report r;
	uint8_t answer = um_datalink_take(link_of(s), block, &r);
	tell_all(s, answer, &r);
	if (answer == UM_END_NO_FRAME)
		s->report(s, 0, ERROR, NULL, 0);
}

static bool slot(struct side *s, uint8_t block[23])
{
	um_report r;
	uint8_t answer = um_datalink_next(link_of(s), LAYER1, block, &r);
	return tell_all(s, answer, &r);
}

/* Units go into free slots. */
static bool next(struct side *s, uint8_t block[23])
{
	struct loop *l = s->own;
	if (l->waits) {
		l->waits = false;
		memcpy(block, l->repeat, 23);
		return true;
	}
	return slot(s, block) || line_next(s, block);
}

/* T200 counts slots, the calls of `next`. If the time has advanced by more than one, it has expired: slots go by until a frame is due. */
static void timers(struct side *s)
{
	struct loop *l = s->own;
	for (int left = now - l->last > block_of(s) ? 256 : 0; left > 0 && !l->waits; left--)
		l->waits = slot(s, l->repeat);
	l->last = now;
}

const struct player um_player = { "um", begin, open_link, send, unit, close_link, resume, take, next, timers, end };

/* -- endpoints, one queue, T200 from the call -- */

struct plain {
	um_end ends[LINK_COUNT];
	long expiry[LINK_COUNT]; /* when T200 expires; 0 while it does not run */
};

static um_end *end_of(struct side *s, int link)
{
	return &((struct plain *)s->own)->ends[link];
}

static bool after(struct side *s, int link, uint8_t answer, const um_effects *effects)
{
	struct plain *p = s->own;
	um_frame f;
	if (answer != UM_END_DONE)
		return false;
	for (int i = 0; i < effects->frame_count; i++) {
		line_add(s, effects->frames[i]);
		if (um_read_frame(effects->frames[i], s->on, &f) == UM_FRAME && (f.kind == UM_I || f.kind == UM_SABM || f.kind == UM_DISC))
			p->expiry[link] = now + s->t200;
	}
	for (int i = 0; i < effects->notice_count; i++)
		tell(s, link, &effects->notices[i]);
	return true;
}

static void plain_begin(struct side *s)
{
	s->own = calloc(1, sizeof(struct plain));
	for (int link = 0; link < LINK_COUNT; link++)
		if (!um_end_new(end_of(s, link), s->role, SAPIS[link], s->on))
			abort();
}

static bool plain_open(struct side *s, int link, const um_message *info)
{
	um_effects e;
	um_end *end = end_of(s, link);
	return after(s, link, info->count ? um_end_open(end, info, &e) : um_end_open_bare(end, &e), &e);
}

static bool plain_send(struct side *s, int link, const um_message *m)
{
	um_effects e;
	return after(s, link, um_end_send(end_of(s, link), m, &e), &e);
}

static bool plain_unit(struct side *s, int link, const um_message *m)
{
	um_effects e;
	return after(s, link, um_end_unit(end_of(s, link), m, &e), &e);
}

static bool plain_close(struct side *s, int link)
{
	um_effects e;
	return after(s, link, um_end_close(end_of(s, link), &e), &e);
}

static void plain_take(struct side *s, const uint8_t block[23])
{
	um_effects e;
	for (int link = 0; link < LINK_COUNT; link++) {
		uint8_t answer = um_end_take(end_of(s, link), block, &e);
		if (!after(s, link, answer, &e) && link == 0)
			s->report(s, 0, ERROR, NULL, 0);
	}
}

static bool plain_next(struct side *s, uint8_t block[23])
{
	um_effects e;
	if (line_next(s, block))
		return true;
	if (um_end_idle(end_of(s, 0), &e) == UM_END_DONE)
		memcpy(block, e.frames[0], 23);
	return false;
}

static void plain_timers(struct side *s)
{
	struct plain *p = s->own;
	um_effects e;
	for (int link = 0; link < LINK_COUNT; link++)
		if (p->expiry[link] && now >= p->expiry[link]) {
			p->expiry[link] = 0;
			after(s, link, um_end_timer(&p->ends[link], &e), &e);
		}
}

const struct player plain_player = {
	"um, T200 from the call", plain_begin, plain_open, plain_send, plain_unit, plain_close, NULL, plain_take, plain_next, plain_timers, end
};
