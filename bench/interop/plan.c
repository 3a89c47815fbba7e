/* The plan of a session, from a seed: its losses or noise, its timers, and who opens, sends and closes what, and when. */
#include "session.h"
#include "draw.h"
#include <string.h>

static uint64_t plan_seed;
static uint32_t place;

static uint32_t below(uint32_t n)
{
	return drawn(plan_seed, 0, place++) % n;
}

static void fill_message(um_message *m, int count)
{
	m->count = (uint8_t)count;
	for (int i = 0; i < count; i++)
		m->octets[i] = (uint8_t)below(256);
}

/* A message of any length, of a length near the limit of a frame or a message, or a short one. */
static int length(void)
{
	static const int edges[] = { 1, 2, 17, 18, 19, 20, 21, 36, 37, 40, 41, 160, 240, 241, 250, 251 };
	uint32_t kind = below(3);
	return kind == 0 ? 1 + (int)below(251) : kind == 1 ? edges[below(16)] : 1 + (int)below(30);
}

static void plan_link(struct planned_link *l, int busy)
{
	for (int r = 0; r < 2; r++) {
		l->count[r] = (int)below(MESSAGES + 1);
		for (int i = 0; i < l->count[r]; i++) {
			l->pause[r][i] = (int)below((uint32_t)(2 * busy));
			fill_message(&l->messages[r][i], length());
		}
	}
}

void plan_session(struct plan *p, uint64_t seed, uint8_t on, const char *scene)
{
	static const int rates[6] = { 0, 10, 50, 100, 200, 300 }, sigmas[6] = { 30, 36, 40, 43, 46, 50 };
	const long block = on == UM_SACCH ? 102 : 51;
	memset(p, 0, sizeof *p);
	plan_seed = p->seed = seed;
	place = 0;
	p->on = on;
	if (seed / 6 % 4 == 3)
		p->sigma = sigmas[seed % 6];
	else
		p->loss = rates[seed % 6];
	p->polled = below(2);
	p->fills = below(2);
	p->early = below(7) == 0;
	p->early_at = 5 + (int)below(150);
	p->closer = (int)below(2);
	for (int r = 0; r < 2; r++)
		p->t200[r] = (8 + (long)below(4)) * block + (long)below((uint32_t)block);
	p->links[LINK0].wanted = scene[0] == '0' || scene[0] == 'a';
	p->links[LINK3].wanted = scene[0] != '0';
	p->links[LINK3].opener = scene[0] == 'm' ? MOBILE : scene[0] == 'n' ? NETWORK : scene[0] == 'b' ? EITHER : (int)below(3);
	fill_message(&p->links[LINK0].info, 1 + (int)below(on == UM_SACCH ? 18 : 20));
	int busy = 1 + (int)below(12);
	for (int l = 0; l < LINK_COUNT; l++)
		plan_link(&p->links[l], busy);
}
