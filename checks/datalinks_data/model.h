/* A data link as DECISIONS and GSM 04.06 say it, written apart from the sources of um and without its library: frames, links, both SAPIs,
 * slot by slot. model.c compares the two. */
#ifndef MODEL_H
#define MODEL_H
#include <stdbool.h>
#include <stdint.h>
#include <string.h>

enum kind { I, RR, RNR, REJ, SABM, DM, UI, DISC, UA, NO_KIND };
enum state { IDLE, OPENING, OPEN, CLOSING, CLOSED };
enum notice_kind { NO_NOTICE, OPENED, GOT, UNIT, ACKED, OVERSIZE, ENDED };
enum reason { CONTENTION, FAILED, REFUSED, RELEASED };
enum answer { DONE, NOT_IDLE, NOT_OPEN, NOT_RUNNING, EMPTY, TOO_LONG, FULL, NO_STATE, NO_CALL, NO_FRAME, FREE };
enum { MOBILE, NETWORK, INFO = 20, MESSAGE = 251, MESSAGES = 8, NOTICES = 3 };

/* Rules of the data link that the model can leave out: a SABM without information returns to a network's link; a SABM opens an open link
 * again; a SABM in Closing gets a DM; a UA or DM before the SABM or DISC was sent is ignored; an I frame that is due says an RR; T200 of
 * SAPI 3 stands still while SAPI 0 is heard; a DM with F = 1 in Open is ignored unless an I frame was repeated with P = 1. */
enum rule { ALL_RULES, RETURN, AGAIN, REFUSAL, UNSENT, EARLY, NEEDLESS, STILL, UNASKED, RULES };
static const char *const RULE[RULES] = { "nothing", "return", "again", "refusal", "unsent", "early", "needless", "still", "unasked" };
static enum rule lacks;

typedef struct {
	uint8_t kind, sapi, cr, pf, nr, ns, more, count, info[INFO];
} frame;

typedef struct {
	uint8_t count, octets[MESSAGE];
} message;

typedef struct {
	uint8_t role, sapi, on_sacch, t200;
	bool is_normal; /* SAPI 0 opens as SAPI 3 does */
	enum state state;
	uint8_t repeats, va, vr, held_count, place; /* place: segments of the first message held that are acknowledged */
	bool is_out; /* an I frame awaits its acknowledgement */
	bool is_rejecting, has_heard;
	bool is_over; /* the message joined is too long */
	message opened_by, held[MESSAGES], joined;
	uint64_t done;
	bool is_sent, owes;
	uint8_t clock;
	frame answer;
} link;

typedef struct {
	link links[2];
	bool has_heard_sapi0, is_main;
} side;

typedef struct {
	int count;
	struct notice { uint8_t kind, reason, sapi; uint64_t number; message message; } notices[NOTICES + 1];
} report;

static bool by_contention(const link *l) { return l->sapi == 0 && !l->is_normal; }
static uint8_t command_bit(const link *l) { return l->role == NETWORK; }
static int n201(const link *l) { return l->on_sacch ? 18 : 20; }
static int n200(const link *l) { return l->state == OPEN && !l->on_sacch ? 23 : 5; }
static bool awaits_answer(const link *l) { return l->state == OPENING || l->state == CLOSING || (l->state == OPEN && l->is_out); }
static bool is_info_of(const frame *f, const message *m) { return f->count == m->count && !memcmp(f->info, m->octets, m->count); }

static void put_message(message *m, const uint8_t *octets, int count)
{
	memset(m, 0, sizeof *m);
	m->count = (uint8_t)count;
	if (count)
		memcpy(m->octets, octets, (size_t)count);
}

static void note(report *r, const link *l, enum notice_kind kind, enum reason reason, uint64_t number, const uint8_t *octets, int count)
{
	struct notice *n = &r->notices[r->count < NOTICES ? r->count++ : NOTICES];
	*n = (struct notice){ .kind = (uint8_t)kind, .reason = (uint8_t)reason, .sapi = l->sapi, .number = number };
	put_message(&n->message, octets, count);
}

static void start_afresh(link *l)
{
	link new = { .role = l->role, .sapi = l->sapi, .on_sacch = l->on_sacch, .is_normal = l->is_normal, .t200 = l->t200 };
	*l = new;
}

static void make_side(side *s, int role, bool on_sacch, bool is_normal, int t200, int t200_sapi3)
{
	memset(s, 0, sizeof *s);
	for (int i = 0; i < 2; i++)
		s->links[i] = (link){ .role = (uint8_t)role, .sapi = (uint8_t)(3 * i), .on_sacch = on_sacch, .is_normal = is_normal && !i,
			.t200 = (uint8_t)(i ? t200_sapi3 : t200) };
}

static void owe(link *l, enum kind kind, int pf, int nr, const message *info)
{
	l->owes = true;
	l->answer = (frame){ .kind = (uint8_t)kind, .sapi = l->sapi, .cr = !command_bit(l), .pf = (uint8_t)pf, .nr = (uint8_t)nr };
	if (info) {
		l->answer.count = info->count;
		memcpy(l->answer.info, info->octets, info->count);
	}
}

static void make_due(link *l)
{
	l->is_sent = false;
	l->clock = 0;
}

static bool may_send(const link *l) { return l->state == OPEN && !l->is_out && l->held_count; }

static void send_next(link *l)
{
	if (!may_send(l))
		return;
	l->is_out = true;
	l->repeats = 0;
	make_due(l);
}

static void end_link(link *l, report *r, enum reason reason)
{
	l->state = CLOSED;
	note(r, l, ENDED, reason, 0, NULL, 0);
}

static void begin_open(link *l, const frame *f, report *r)
{
	l->state = OPEN;
	note(r, l, OPENED, 0, 0, f->info, f->count);
}

/* The SABM of the other side opens the link here. */
static void accept_opening(link *l, const frame *f, report *r)
{
	put_message(&l->opened_by, f->info, f->count);
	begin_open(l, f, r);
	owe(l, UA, 1, 0, &l->opened_by);
}

static void take_nr(link *l, int nr, report *r)
{
	if (!l->is_out || nr != (l->va + 1) % 8 || (!l->is_sent && lacks != EARLY))
		return;
	l->is_out = false;
	l->va = (uint8_t)nr;
	l->repeats = 0;
	if ((l->place + 1) * n201(l) < l->held[0].count) {
		l->place++;
		return;
	}
	l->place = 0;
	l->held_count--;
	memmove(&l->held[0], &l->held[1], l->held_count * sizeof l->held[0]);
	l->done += l->done != UINT64_MAX;
	note(r, l, ACKED, 0, l->done, NULL, 0);
}

static void take_segment(link *l, const frame *f, report *r)
{
	l->is_rejecting = false;
	l->vr = (uint8_t)((l->vr + 1) % 8);
	l->is_over = l->is_over || l->joined.count + f->count > MESSAGE;
	if (!l->is_over) {
		memcpy(l->joined.octets + l->joined.count, f->info, f->count);
		l->joined.count = (uint8_t)(l->joined.count + f->count);
	}
	if (f->more)
		return;
	note(r, l, l->is_over ? OVERSIZE : GOT, 0, 0, l->joined.octets, l->is_over ? 0 : l->joined.count);
	l->joined.count = 0;
	l->is_over = false;
}

static void take_i(link *l, const frame *f, report *r)
{
	take_nr(l, f->nr, r);
	if (f->ns == l->vr) {
		take_segment(l, f, r);
		if (f->pf || !may_send(l))
			owe(l, RR, f->pf, l->vr, NULL);
	} else if (f->pf || !l->is_rejecting) {
		owe(l, REJ, f->pf, l->vr, NULL);
		l->is_rejecting = true;
	}
	send_next(l);
}

/* A SABM in Open is a repeat, a new opening, or another mobile's. */
static void take_sabm_in_open(link *l, const frame *f, report *r)
{
	bool returns = by_contention(l) && l->role == NETWORK && f->count == 0 && lacks != RETURN;
	if (by_contention(l) && l->role == MOBILE)
		return;
	if (returns)
		l->is_normal = true;
	else if (!is_info_of(f, &l->opened_by))
		return;
	else if (!l->has_heard || lacks == AGAIN) {
		owe(l, UA, 1, 0, &l->opened_by);
		return;
	}
	start_afresh(l);
	accept_opening(l, f, r);
}

static void take_in_open(link *l, const frame *f, bool is_command, report *r)
{
	l->has_heard = l->has_heard || f->kind == I || f->kind == RR || f->kind == RNR;
	switch (f->kind) {
	case I: take_i(l, f, r); break;
	case RR:
		take_nr(l, f->nr, r);
		if (is_command && f->pf)
			owe(l, RR, 1, l->vr, NULL);
		send_next(l);
		break;
	case SABM: take_sabm_in_open(l, f, r); break;
	case DISC:
		end_link(l, r, RELEASED);
		owe(l, UA, 1, 0, NULL);
		break;
	case DM:
		if (!f->pf || (l->is_out && l->repeats) || lacks == UNASKED)
			end_link(l, r, FAILED);
		break;
	default: break;
	}
}

static void take_in_opening(link *l, const frame *f, report *r)
{
	if (f->kind == SABM && !by_contention(l) && f->count == 0)
		owe(l, UA, 1, 0, NULL);
	else if (f->kind == DISC)
		owe(l, DM, 1, 0, NULL);
	else if (f->kind == DM && f->pf)
		end_link(l, r, REFUSED);
	else if (f->kind == UA && f->pf && is_info_of(f, &l->opened_by))
		begin_open(l, f, r);
	else if (f->kind == UA && f->pf && by_contention(l))
		end_link(l, r, CONTENTION);
}

static void take_in_closing(link *l, const frame *f, report *r)
{
	if (f->pf && (f->kind == DM || (f->kind == UA && f->count == 0)))
		end_link(l, r, RELEASED);
	else if (f->kind == DISC || (f->kind == SABM && lacks != REFUSAL))
		owe(l, f->kind == DISC ? UA : DM, 1, 0, NULL);
}

static void take_in_idle(link *l, const frame *f, bool is_poll, report *r)
{
	bool is_refused = f->kind == SABM && by_contention(l) && l->role == MOBILE;
	if (f->kind == SABM && !is_refused && by_contention(l) == (f->count != 0))
		accept_opening(l, f, r);
	else if (is_refused || f->kind == DISC || is_poll)
		owe(l, DM, 1, 0, NULL);
}

static void link_take(link *l, const frame *in, report *r)
{
	frame f = *in;
	bool is_command = f.cr != command_bit(l), is_answer = f.kind == UA || f.kind == DM, is_poll;
	bool must_be_command = f.kind == I || f.kind == SABM || f.kind == UI || f.kind == DISC;
	if (is_answer && (is_command || ((l->state == OPENING || l->state == CLOSING) && !l->is_sent && lacks != UNSENT)))
		return;
	if (must_be_command && !is_command)
		return;
	if (!by_contention(l) && l->state == CLOSED && f.kind == SABM && f.count == 0)
		start_afresh(l);
	f.kind = f.kind == REJ ? RR : f.kind;
	is_poll = is_command && f.pf && (f.kind == I || f.kind == RR);
	if (f.kind == UI) {
		if (f.count)
			note(r, l, UNIT, 0, 0, f.info, f.count);
		return;
	}
	switch (l->state) {
	case IDLE: take_in_idle(l, &f, is_poll, r); break;
	case OPENING: take_in_opening(l, &f, r); break;
	case OPEN: take_in_open(l, &f, is_command, r); break;
	case CLOSING: take_in_closing(l, &f, r); break;
	case CLOSED:
		if (f.kind == SABM || f.kind == DISC || is_poll)
			owe(l, DM, 1, 0, NULL);
	}
}

static void model_take(side *s, const frame *f, report *r)
{
	const link *l = &s->links[0];
	bool takes_sapi3 = l->role == NETWORK || (l->on_sacch ? s->is_main : l->state == OPEN || l->state == CLOSING);
	r->count = 0;
	s->has_heard_sapi0 = s->has_heard_sapi0 || (f->sapi == 0 && f->kind != UI);
	if (f->sapi == 0 || (f->sapi == 3 && takes_sapi3))
		link_take(&s->links[f->sapi == 3], f, r);
}

/* The calls of layer 3. */
static enum answer begin_opening(link *l, const message *info)
{
	l->state = OPENING;
	l->repeats = 0;
	l->opened_by = *info;
	make_due(l);
	return DONE;
}

static enum answer model_open(link *l, const message *info)
{
	if (!by_contention(l) || l->role == NETWORK)
		return NO_CALL;
	if (l->state != IDLE)
		return NOT_IDLE;
	if (info->count == 0 || info->count > n201(l))
		return info->count ? TOO_LONG : EMPTY;
	return begin_opening(l, info);
}

static enum answer model_establish(link *l)
{
	static const message none;
	if (l->state == OPENING || l->state == CLOSING)
		return NOT_IDLE;
	if (l->state != IDLE || by_contention(l)) {
		l->is_normal = l->sapi == 0;
		start_afresh(l);
	}
	return begin_opening(l, &none);
}

static enum answer model_send(link *l, const uint8_t *octets, int count)
{
	if (l->state != OPEN)
		return NOT_OPEN;
	if (count == 0 || count > MESSAGE)
		return count ? TOO_LONG : EMPTY;
	if (l->held_count == MESSAGES)
		return FULL;
	put_message(&l->held[l->held_count++], octets, count);
	send_next(l);
	return DONE;
}

static enum answer model_close(link *l)
{
	if (l->state != OPEN)
		return NOT_OPEN;
	l->state = CLOSING;
	l->repeats = 0;
	make_due(l);
	return DONE;
}

/* The frame that awaits an answer, as it is made in its slot. */
static frame awaited_frame(const link *l, int poll)
{
	frame f = { .kind = l->state == OPENING ? SABM : l->state == CLOSING ? DISC : I, .sapi = l->sapi, .cr = command_bit(l), .pf = 1 };
	if (l->state == OPENING) {
		f.count = l->opened_by.count;
		memcpy(f.info, l->opened_by.octets, f.count);
	} else if (l->state == OPEN) {
		int from = l->place * n201(l), rest = l->held[0].count - from;
		f.pf = (uint8_t)poll;
		f.ns = l->va;
		f.nr = l->vr;
		f.more = rest > n201(l);
		f.count = (uint8_t)(f.more ? n201(l) : rest);
		memcpy(f.info, l->held[0].octets + from, f.count);
	}
	return f;
}

static bool link_slot(link *l, frame *f, report *r)
{
	bool is_due = awaits_answer(l) && l->clock == 0, sabm_first = is_due && l->state == OPENING && !l->is_sent;
	bool is_needless = is_due && l->state == OPEN && l->answer.kind == RR && !l->answer.pf && lacks != NEEDLESS;
	if (l->owes && !sabm_first && !is_needless) {
		*f = l->answer;
		l->owes = false;
		return true;
	}
	if (!is_due)
		return false;
	l->owes = l->owes && sabm_first;
	l->clock = l->t200;
	if (!l->is_sent) {
		l->is_sent = true;
		*f = awaited_frame(l, 0);
		return true;
	}
	if (l->repeats >= n200(l)) {
		end_link(l, r, FAILED);
		return false;
	}
	l->repeats++;
	*f = awaited_frame(l, 1);
	return true;
}

static bool model_next(side *s, frame *f, report *r)
{
	r->count = 0;
	if (s->links[0].clock)
		s->links[0].clock--;
	if (s->links[1].clock && (!s->has_heard_sapi0 || lacks == STILL))
		s->links[1].clock--;
	s->has_heard_sapi0 = false;
	return link_slot(&s->links[0], f, r) || link_slot(&s->links[1], f, r);
}

/* Octets (section 3). */
static const uint8_t UNNUMBERED[NO_KIND] = { [SABM] = 0x2f, [DM] = 0x0f, [UI] = 0x03, [DISC] = 0x43, [UA] = 0x63 };

static bool has_info(int kind) { return kind == I || kind == SABM || kind == UI || kind == UA; }

static void write_octets(const frame *f, bool on_sacch, uint8_t block[23])
{
	uint8_t *o = block + (on_sacch ? 2 : 0);
	memset(block, 0x2b, 23);
	memset(block, 0, (size_t)(o - block));
	o[0] = (uint8_t)(f->sapi << 2 | f->cr << 1 | 1);
	if (f->kind == I)
		o[1] = (uint8_t)(f->nr << 5 | f->pf << 4 | f->ns << 1);
	else
		o[1] = (uint8_t)(f->kind <= REJ ? f->nr << 5 | f->pf << 4 | (f->kind - RR) << 2 | 1 : UNNUMBERED[f->kind] | f->pf << 4);
	o[2] = (uint8_t)(f->count << 2 | f->more << 1 | 1);
	memcpy(o + 3, f->info, f->count);
}

static uint8_t kind_of(uint8_t control)
{
	if (!(control & 1))
		return I;
	if ((control & 3) == 1)
		return (uint8_t)(control & 8 && control & 4 ? NO_KIND : RR + (control >> 2 & 3));
	for (uint8_t kind = SABM; kind < NO_KIND; kind++)
		if ((control & 0xef) == UNNUMBERED[kind])
			return kind;
	return NO_KIND;
}

static bool read_octets(const uint8_t block[23], bool on_sacch, frame *f)
{
	const uint8_t *o = block + (on_sacch ? 2 : 0);
	*f = (frame){ .kind = kind_of(o[1]), .sapi = o[0] >> 2 & 7, .cr = o[0] >> 1 & 1, .pf = o[1] >> 4 & 1, .more = o[2] >> 1 & 1 };
	f->count = o[2] >> 2;
	if ((o[0] & 0xe1) != 1 || f->kind == NO_KIND || !(o[2] & 1))
		return false;
	if (f->kind <= REJ)
		f->nr = o[1] >> 5;
	if (f->kind == I)
		f->ns = o[1] >> 1 & 7;
	if (f->count > (has_info(f->kind) ? on_sacch ? 18 : 20 : 0) || (f->kind == I ? f->count == 0 : f->more))
		return false;
	memcpy(f->info, o + 3, f->count);
	return true;
}
#endif
