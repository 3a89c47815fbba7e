/* Compares um_datalink with the model of model.h, call by call: answers, blocks, reports, and all that the struct says.
 *
 *   model [SLOTS [RULE [SEED]]]
 *
 * Two data links on a channel with delays and losses, layer 3 at random, T200 of any length, hostile blocks, and structs that are altered
 * and restored. RULE is one that the model then lacks, so that it must differ. The status is 1 if it differs. */
#include "draw.h"
#include "um.h"
#include "model.h"
#include <stdio.h>
#include <stdlib.h>

enum { RING = 8, SHOWN = 10 };

typedef struct {
	uint8_t octets[23];
	bool arrives;
} block;

typedef struct {
	um_datalink ours[2];
	side models[2];
	block air[2][RING];
	bool on_sacch, is_altered;
	uint32_t delay, slot, length, hostile, lost, calls;
} run;

static uint64_t differences, slots, calls, hostile_blocks, altered, refused, openings;

static void same(bool is_same, const char *what)
{
	if (!is_same && differences++ < SHOWN && lacks == ALL_RULES)
		printf("model: slot %llu: %s differs\n", (unsigned long long)slots, what);
}

static bool is_message(const um_message *a, const message *b) { return a->count == b->count && !memcmp(a->octets, b->octets, b->count); }

/* A message that a call writes has zeros after its octets. */
static bool is_written(const um_message *a, const message *b)
{
	um_message whole = { .count = b->count };
	memcpy(whole.octets, b->octets, b->count);
	return !memcmp(a, &whole, sizeof whole);
}

/* Notices that a report has, and zeros after them. */
static void same_report(const um_report *ours, const report *models, const char *what)
{
	static const struct notice nothing;
	bool is_same = ours->notice_count == models->count;
	for (int i = 0; i < NOTICES && is_same; i++) {
		const um_notice *a = &ours->notices[i];
		const struct notice *b = i < models->count ? &models->notices[i] : &nothing;
		is_same = ours->sapis[i] == b->sapi && a->kind == b->kind && a->reason == b->reason && a->number == b->number &&
		          is_written(&a->message, &b->message);
		openings += b->kind == OPENED;
	}
	same(is_same, what);
}

/* The frame owed, with the SAPI that the struct has. */
static bool is_answer(const um_timed_end *t, const link *l)
{
	frame f = l->answer;
	uint8_t octets[23];
	f.sapi = t->end.sapi;
	write_octets(&f, l->on_sacch, octets);
	return !memcmp(octets, t->answer, 23);
}

static bool is_same_window(const um_end *e, const link *l)
{
	bool is_same = e->va == l->va && e->vr == l->vr && e->vs == (l->va + l->is_out) % 8 && e->done == l->done;
	is_same = is_same && e->held_count == l->held_count && (!l->held_count || e->place == l->place);
	for (int i = 0; i < l->held_count && is_same; i++)
		is_same = is_message(&e->held[i], &l->held[i]);
	if (e->part == UM_PART_WHOLE)
		return is_same && !l->joined.count && !l->is_over;
	if (e->part == UM_PART_OVER)
		return is_same && l->is_over;
	return is_same && !l->is_over && e->joined.count == l->joined.count && !memcmp(e->joined.octets, l->joined.octets, l->joined.count);
}

static bool is_same_link(const um_timed_end *t, const link *l)
{
	const um_end *e = &t->end;
	bool is_same = e->role == l->role && e->sapi == (by_contention(l) ? 0 : 3) && e->channel == l->on_sacch && e->state == l->state;
	is_same = is_same && !e->rejecting == !l->is_rejecting && e->kept.count == l->opened_by.count;
	is_same = is_same && !memcmp(e->kept.octets, l->opened_by.octets, e->kept.count) && is_same_window(e, l);
	if (awaits_answer(l))
		is_same = is_same && (l->state == OPEN ? e->repeats : e->retries) == l->repeats;
	is_same = is_same && t->t200 == l->t200 && !t->sent == !l->is_sent && t->clock == l->clock && !t->heard == !l->has_heard;
	return is_same && !t->owed == !l->owes && (!l->owes || is_answer(t, l));
}

static void same_state(const um_datalink *ours, const side *models, const char *what)
{
	same(is_same_link(&ours->link0, &models->links[0]) && is_same_link(&ours->link3, &models->links[1]) &&
		!ours->heard0 == !models->has_heard_sapi0 && !ours->main == !models->is_main, what);
}

static void load_link(link *l, const um_timed_end *t, uint8_t sapi)
{
	const um_end *e = &t->end;
	*l = (link){ .role = e->role, .sapi = sapi, .on_sacch = e->channel, .t200 = t->t200, .is_normal = sapi == 0 && e->sapi == 3,
		.state = (enum state)e->state, .repeats = e->state == UM_OPEN ? e->repeats : e->retries, .va = e->va, .vr = e->vr,
		.held_count = e->held_count, .place = e->place, .is_out = e->va != e->vs, .is_rejecting = e->rejecting, .has_heard = t->heard,
		.is_over = e->part == UM_PART_OVER, .done = e->done, .is_sent = t->sent, .owes = t->owed, .clock = t->clock };
	put_message(&l->opened_by, e->kept.octets, e->kept.count);
	for (int i = 0; i < e->held_count; i++)
		put_message(&l->held[i], e->held[i].octets, e->held[i].count);
	if (e->part == UM_PART_OPEN)
		put_message(&l->joined, e->joined.octets, e->joined.count);
	if (l->owes)
		(void)read_octets(t->answer, l->on_sacch, &l->answer);
	l->answer.sapi = sapi;
}

static void draw_octets(uint8_t *octets, int count)
{
	for (int i = 0; i < count; i++)
		octets[i] = (uint8_t)draw(256);
}

/* Any octets, a block with a bit changed, or any frame. */
static void draw_block(const run *r, uint8_t octets[23], const uint8_t *old)
{
	frame f = { .kind = (uint8_t)draw(NO_KIND), .cr = (uint8_t)draw(2), .pf = (uint8_t)draw(2) };
	uint32_t how = draw(4);
	f.sapi = (uint8_t)(draw(8) ? 3 * draw(2) : draw(8));
	if (how == 0)
		draw_octets(octets, 23);
	else if (how == 1) {
		memcpy(octets, old, 23);
		octets[(r->on_sacch ? 2 : 0) + draw(3)] ^= (uint8_t)(1u << draw(8));
	} else {
		if (f.kind <= REJ)
			f.nr = (uint8_t)draw(8);
		f.ns = (uint8_t)(f.kind == I ? draw(8) : 0);
		f.more = (uint8_t)(f.kind == I ? draw(2) : 0);
		f.count = (uint8_t)(has_info(f.kind) && (f.kind != SABM || draw(2)) ? draw(r->on_sacch ? 19 : 21) : 0);
		f.count = (uint8_t)(f.count + (f.kind == I && !f.count));
		draw_octets(f.info, f.count);
		write_octets(&f, r->on_sacch, octets);
	}
}

static void take(run *r, int at, const uint8_t octets[23])
{
	um_datalink before = r->ours[at];
	um_report ours;
	report models;
	frame f;
	uint8_t answer = um_datalink_take(&r->ours[at], octets, &ours);
	bool is_frame = read_octets(octets, r->on_sacch, &f);
	same(answer == (is_frame ? UM_END_DONE : UM_END_NO_FRAME), "the answer of take");
	if (answer != UM_END_DONE || !is_frame) {
		same(!memcmp(&before, &r->ours[at], sizeof before), "a refused block");
		return;
	}
	model_take(&r->models[at], &f, &models);
	same_report(&ours, &models, "a report of take");
	same_state(&r->ours[at], &r->models[at], "the state after take");
}

static void arrive(run *r, int at)
{
	block *from = &r->air[!at][(r->slot + RING - 1 - r->delay) % RING];
	uint8_t octets[23];
	if (from->arrives)
		take(r, at, from->octets);
	from->arrives = false;
	if (draw(100) < r->hostile) {
		draw_block(r, octets, from->octets);
		take(r, at, octets);
		hostile_blocks++;
	}
}

/* A call of layer 3, on both. Answers whether they answer alike. */
static bool invoke(um_datalink *ours, side *models, um_message *m)
{
	uint32_t what = draw(40);
	uint8_t sapi = (uint8_t)(draw(40) ? 3 * draw(2) : 1 + draw(2)), answer = UM_END_DONE, wanted = DONE;
	bool is_link = sapi % 3 == 0;
	link *l = &models->links[sapi == 3];
	if (what < 6) {
		message info;
		m->count = (uint8_t)(m->count % 23);
		put_message(&info, m->octets, m->count);
		answer = um_datalink_open(ours, m);
		wanted = (uint8_t)model_open(&models->links[0], &info);
	} else if (what < 14) {
		answer = um_datalink_establish(ours, sapi);
		wanted = (uint8_t)(is_link ? model_establish(l) : NO_CALL);
	} else if (what < 16) {
		answer = um_datalink_open_bare(ours);
		wanted = (uint8_t)model_establish(&models->links[1]);
	} else if (what < 33) {
		answer = um_datalink_send(ours, sapi, m);
		wanted = (uint8_t)(is_link ? model_send(l, m->octets, m->count) : NO_CALL);
	} else if (what < 35) {
		answer = um_datalink_close(ours, sapi);
		wanted = (uint8_t)(is_link ? model_close(l) : NO_CALL);
	} else if (what < 36 && is_link && draw(4) == 0) {
		answer = um_datalink_close_local(ours, sapi);
		start_afresh(l);
	} else {
		models->is_main = draw(2);
		answer = um_datalink_main(ours, models->is_main);
	}
	return answer == wanted;
}

/* The messages that are not acknowledged. */
static void compare_held(run *r, int at)
{
	for (int i = 0; i < 2; i++) {
		const link *l = &r->models[at].links[i];
		um_message m;
		uint8_t index = (uint8_t)draw(MESSAGES + 2);
		uint8_t answer = um_datalink_unacked(&r->ours[at], (uint8_t)(3 * i), index, &m);
		same(answer == (index < l->held_count ? UM_END_DONE : UM_END_EMPTY), "the answer of unacked");
		same(answer != UM_END_DONE || is_written(&m, &l->held[index]), "a message of unacked");
	}
}

static void call(run *r, int at)
{
	while (draw(20) < r->calls && draw(3)) {
		um_message m;
		m.count = (uint8_t)(draw(30) ? 1 + draw(draw(2) ? 251 : 30) : draw(2) ? 0 : 252 + draw(4));
		draw_octets(m.octets, 255);
		same(invoke(&r->ours[at], &r->models[at], &m), "the answer of a call");
		same_state(&r->ours[at], &r->models[at], "the state after a call");
		calls++;
	}
	compare_held(r, at);
}

static void alter(run *r, um_datalink *d)
{
	um_timed_end *t = draw(2) ? &d->link0 : &d->link3;
	um_end *e = &t->end;
	switch (draw(17)) {
	case 0: e->state = (uint8_t)draw(6); break;
	case 1: e->vr = (uint8_t)draw(9); break;
	case 2: e->vs = e->va = (uint8_t)draw(8); break;
	case 3: e->vs = (uint8_t)((e->va + 1) & 7); break;
	case 4: e->repeats = (uint8_t)draw(30); break;
	case 5: e->retries = (uint8_t)draw(8); break;
	case 6: t->clock = (uint8_t)draw(14); break;
	case 7: t->sent = (uint8_t)draw(3); break;
	case 8: t->heard = (uint8_t)draw(3); break;
	case 9: e->held_count = (uint8_t)draw(10); break;
	case 10: e->place = (uint8_t)draw(16); break;
	case 11: e->kept.count = (uint8_t)draw(22); break;
	case 12: e->part = (uint8_t)draw(4); break;
	case 13: t->owed = (uint8_t)draw(3); break;
	case 14:
		draw_block(r, t->answer, t->answer);
		t->owed = 1;
		break;
	case 15: e->sapi = (uint8_t)draw(4); break;
	default: ((uint8_t *)d)[draw(sizeof *d)] = (uint8_t)draw(256);
	}
}

/* A struct that is altered is a data link, and the model continues from it, or is refused and stays as it is. */
static void restore(run *r, int at)
{
	um_datalink d = r->ours[at], before;
	um_report ours;
	uint8_t layer1[2] = { 0, 0 }, octets[23];
	for (uint32_t i = draw(3) + 1; i > 0; i--)
		alter(r, &d);
	if (!um_datalink_valid(&d)) {
		before = d;
		same(um_datalink_next(&d, layer1, octets, &ours) == UM_END_NONE && !memcmp(&d, &before, sizeof d), "a struct that is no data link");
		refused++;
		return;
	}
	r->ours[at] = d;
	load_link(&r->models[at].links[0], &d.link0, 0);
	load_link(&r->models[at].links[1], &d.link3, 3);
	r->models[at].has_heard_sapi0 = d.heard0;
	r->models[at].is_main = d.main;
	same_state(&d, &r->models[at], "the restored state");
	altered++;
}

static void compare_unit(run *r, int at, const uint8_t layer1[2], uint8_t octets[23])
{
	um_message m = { .count = (uint8_t)draw(23) };
	uint8_t sapi = (uint8_t)(draw(9) ? 3 * draw(2) : 1 + draw(2)), made[23], written[23], answer;
	uint8_t wanted = sapi % 3 ? NO_CALL : !m.count ? EMPTY : m.count > (r->on_sacch ? 18 : 20) ? TOO_LONG : DONE;
	frame f = { .kind = UI, .cr = at == NETWORK, .sapi = sapi, .count = m.count };
	draw_octets(m.octets, m.count);
	answer = um_datalink_unit(&r->ours[at], sapi, &m, layer1, written);
	same(answer == wanted, "the answer of unit");
	if (wanted != DONE)
		return;
	memcpy(f.info, m.octets, m.count);
	write_octets(&f, r->on_sacch, made);
	if (r->on_sacch)
		memcpy(made, layer1, 2);
	same(!memcmp(made, written, 23), "a block of unit");
	memcpy(octets, written, 23);
}

static void send(run *r, int at)
{
	block *to = &r->air[at][r->slot % RING];
	frame f = { .kind = UI, .cr = at == NETWORK }, sent;
	um_report ours;
	report models;
	uint8_t layer1[2], made[23], answer;
	bool is_frame = model_next(&r->models[at], &sent, &models);
	draw_octets(layer1, 2);
	answer = um_datalink_next(&r->ours[at], layer1, to->octets, &ours);
	same(answer == (is_frame ? UM_END_DONE : UM_END_FREE), "the answer of next");
	write_octets(is_frame ? &sent : &f, r->on_sacch, made);
	if (r->on_sacch)
		memcpy(made, layer1, 2);
	same(!memcmp(made, to->octets, 23), "a block of next");
	same_report(&ours, &models, "a report of next");
	same_state(&r->ours[at], &r->models[at], "the state after next");
	if (!is_frame && draw(3) == 0)
		compare_unit(r, at, layer1, to->octets);
	to->arrives = draw(100) >= r->lost;
}

static void start(run *r)
{
	bool is_normal = draw(2);
	memset(r, 0, sizeof *r);
	r->on_sacch = draw(2);
	r->delay = draw(5);
	r->length = 50 + draw(1500);
	r->hostile = draw(3) ? 0 : 1 + draw(20);
	r->is_altered = draw(3) == 0;
	r->lost = draw(3) ? draw(45) : 0;
	r->calls = 1 + draw(20);
	for (uint8_t at = 0; at < 2; at++) {
		uint8_t t200 = (uint8_t)(2 + draw(11)), t200_sapi3 = (uint8_t)(2 + draw(11));
		same(um_datalink_new_for(&r->ours[at], at, r->on_sacch, is_normal, t200, t200_sapi3), "a new data link");
		make_side(&r->models[at], at, r->on_sacch, is_normal, t200, t200_sapi3);
		same_state(&r->ours[at], &r->models[at], "a new state");
	}
}

int main(int argc, char **argv)
{
	uint64_t wanted = argc > 1 ? strtoull(argv[1], NULL, 10) : 1000000;
	static run r;
	for (int i = 0; i < RULES; i++)
		if (argc > 2 && !strcmp(argv[2], RULE[i]))
			lacks = (enum rule)i;
	seed(argc > 3 ? strtoull(argv[3], NULL, 10) : 0);
	while (slots < wanted)
		for (start(&r); r.slot < r.length; r.slot++, slots++)
			for (int at = 0; at < 2; at++) {
				arrive(&r, at);
				call(&r, at);
				if (r.is_altered && draw(50) == 0)
					restore(&r, at);
				send(&r, at);
			}
	printf("model: %llu slots, %llu calls, %llu hostile blocks, %llu openings, %llu altered structs taken and %llu refused: %llu "
		"differences\n",
		(unsigned long long)slots, (unsigned long long)calls, (unsigned long long)hostile_blocks, (unsigned long long)openings,
		(unsigned long long)altered, (unsigned long long)refused, (unsigned long long)differences);
	return differences != 0;
}
