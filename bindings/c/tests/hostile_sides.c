/* Calls of sides with hostile states: random octets, small numbers, and live states that are exchanged or spoiled. Each call answers, and
 * writes, what the um_end call does on a copy of its link, and leaves the other link as it is; a refused call writes nothing. */
#include "um.h"
#include <stddef.h>
#include <stdio.h>
#include <string.h>

enum { SIDES = 20000, CALLS = 8, FIELDS = offsetof(um_end, held) + 8 * sizeof(um_message) };

static uint64_t drawn = 88172645463325252u;

static uint32_t draw(uint32_t below)
{
	drawn ^= drawn << 13;
	drawn ^= drawn >> 7;
	drawn ^= drawn << 17;
	return (uint32_t)(drawn >> 33) % below;
}

static void fill(void *octets, size_t count, uint32_t below)
{
	for (size_t i = 0; i < count; i++)
		((uint8_t *)octets)[i] = (uint8_t)draw(below);
}

static int call_end(int call, um_end *end, const um_message *message, const uint8_t octets[23], um_effects *effects)
{
	switch (call) {
	case 0: return um_end_open(end, message, effects);
	case 1: return um_end_open_bare(end, effects);
	case 2: return um_end_send(end, message, effects);
	case 3: return um_end_unit(end, message, effects);
	case 4: return um_end_close(end, effects);
	case 5: return um_end_timer(end, effects);
	case 6: return um_end_idle(end, effects);
	default: return um_end_take(end, octets, effects);
	}
}

static int call_side(int call, um_side *side, uint8_t sapi, const um_message *message, const uint8_t octets[23], um_effects *effects)
{
	uint8_t taken = 0;
	switch (call) {
	case 0: return um_side_open(side, message, effects);
	case 1: return um_side_open_bare(side, effects);
	case 2: return um_side_send(side, sapi, message, effects);
	case 3: return um_side_unit(side, sapi, message, effects);
	case 4: return um_side_close(side, sapi, effects);
	case 5: return um_side_timer(side, sapi, effects);
	case 6: return um_side_idle(side, effects);
	default: return um_side_take(side, octets, &taken, effects);
	}
}

static bool belongs_together(const um_side *side)
{
	return side->link0.sapi == 0 && side->link3.sapi == 3 && side->link0.role == side->link3.role &&
		side->link0.channel == side->link3.channel;
}

/* Two sides that exchange blocks without loss, so that states of every kind come by. */
static um_side live[2];

static void step(void)
{
	um_effects effects = {0};
	um_message message = {0};
	int who = (int)draw(2);
	uint8_t sapi = draw(2) ? 3 : 0, taken;
	message.count = (uint8_t)(1 + draw(60));
	fill(message.octets, message.count, 256);
	if (draw(40) == 0)
		for (int i = 0; i < 2; i++)
			if (!um_side_new(&live[i], (uint8_t)i, draw(2) != 0 && live[0].link0.channel))
				puts("um_side_new refuses");
	if (draw(2))
		message.count = 5;
	if (call_side((int)draw(draw(8) ? 4 : 7), &live[who], sapi, &message, message.octets, &effects) != UM_END_DONE)
		return;
	for (int i = 0; i < effects.frame_count; i++) {
		um_effects answer = {0};
		if (um_side_take(&live[!who], effects.frames[i], &taken, &answer) == UM_END_DONE)
			for (int j = 0; j < answer.frame_count; j++)
				if (um_side_take(&live[who], answer.frames[j], &taken, &effects) != UM_END_DONE)
					return;
	}
}

static void draw_side(um_side *side)
{
	step();
	*side = live[draw(2)];
	switch (draw(6)) {
	case 0: fill(side, sizeof *side, 256); break;
	case 1: fill(side, sizeof *side, 4); break;
	case 2: side->link3 = live[draw(2)].link3; break;
	case 3: side->link0 = side->link3; break;
	default:
		for (uint32_t i = draw(4); i > 0; i--)
			((uint8_t *)side)[draw(2) * sizeof(um_end) + 8 + draw(13)] = (uint8_t)draw(draw(2) ? 8 : 256);
	}
	if (draw(2)) {
		side->link0.sapi = 0;
		side->link3.sapi = 3;
		side->link3.role = side->link0.role;
		side->link3.channel = side->link0.channel;
	}
}

/* The link that a call is about: 0, 3, or -1 if there is none. A block that is no frame, or of another SAPI, goes to SAPI 0. */
static int link_of(int call, const um_side *side, uint8_t sapi, const uint8_t octets[23])
{
	um_frame frame;
	if (call == 7)
		return um_read_frame(octets, side->link0.channel, &frame) == UM_FRAME && frame.sapi == 3 ? 3 : 0;
	if (call == 0 || call == 6)
		return 0;
	if (call == 1)
		return 3;
	return sapi == 0 || sapi == 3 ? sapi : -1;
}

static bool one_call(int call, const um_side *before)
{
	um_side side = *before;
	um_message message;
	uint8_t octets[23], sapi = (uint8_t)(draw(8) ? 3 * draw(2) : draw(256));
	um_effects effects, wanted;
	fill(&message, sizeof message, 256);
	if (draw(8))
		message.count = (uint8_t)(1 + draw(20));
	fill(octets, sizeof octets, 256);
	if (draw(4)) {
		const uint8_t frame[] = {(uint8_t)(1 + 2 * draw(2) + 12 * draw(2)), (uint8_t)draw(256), (uint8_t)(draw(20) * 4 + 1)};
		memcpy(octets + (before->link0.channel == UM_SACCH ? 2 : 0), frame, sizeof frame);
	}
	memset(&effects, 0x5a, sizeof effects);
	wanted = effects;
	int link = link_of(call, before, sapi, octets), answer = UM_END_NO_CALL;
	um_end end = link == 3 ? before->link3 : before->link0;
	if (!belongs_together(before))
		answer = UM_END_NONE;
	else if (link >= 0)
		answer = call_end(call, &end, &message, octets, &wanted);
	if (call_side(call, &side, sapi, &message, octets, &effects) != answer)
		return false;
	if (answer != UM_END_DONE)
		return !memcmp(&side, before, sizeof side) && !memcmp(&effects, &wanted, sizeof effects);
	const um_end *mine = link == 3 ? &side.link3 : &side.link0, *other = link == 3 ? &side.link0 : &side.link3;
	const um_end *was = link == 3 ? &before->link0 : &before->link3;
	for (int i = 0; i < 3; i++)
		if (effects.notices[i].kind != wanted.notices[i].kind || effects.notices[i].number != wanted.notices[i].number ||
				memcmp(&effects.notices[i].message, &wanted.notices[i].message, sizeof(um_message)))
			return false;
	return effects.frame_count == wanted.frame_count && !memcmp(effects.frames, wanted.frames, sizeof effects.frames) &&
		!memcmp(mine, &end, FIELDS) && !memcmp(other, was, FIELDS);
}

int main(void)
{
	int done = 0, refused = 0;
	if (!um_side_new(&live[0], UM_MOBILE, UM_SDCCH) || !um_side_new(&live[1], UM_NETWORK, UM_SDCCH))
		return 1;
	for (int i = 0; i < SIDES; i++) {
		um_side side;
		um_effects effects;
		draw_side(&side);
		for (int call = 0; call < CALLS; call++)
			if (!one_call(call, &side)) {
				printf("hostile_sides: side %d, call %d: another answer, state or effects than the end's\n", i, call);
				return 1;
			}
		if (um_side_idle(&side, &effects) == UM_END_DONE)
			done++;
		else
			refused++;
	}
	if (done < SIDES / 10 || refused < SIDES / 10) {
		printf("hostile_sides: %d states pass, %d do not\n", done, refused);
		return 1;
	}
	printf("library: %d sides with hostile states, of which %d pass\n", SIDES, done);
	return 0;
}
