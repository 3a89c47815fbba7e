/* A mobile and a network over a noisy path that loses blocks: each block is sent as four bursts, with noise, and decoded again. The
 * mobile opens the link, both send messages, and the mobile releases the link.
 *
 * Time advances in slots of 235 ms, in which each endpoint sends one SDCCH block. T200 counts from the time at which a block that awaits
 * an answer goes on the air, and exceeds the round trip with the blocks queued before it.
 *
 *   cc -Ibindings/c examples/c/session.c dist/$(uname -m)-linux/libum.a -o session && ./session */
#include "air.h"
#include "um_more.h"
#include <stdio.h>
#include <string.h>

enum { SLOT = 235, T200 = 4, LINES = 200 };

typedef struct {
	const char *name;
	um_end end;
	uint8_t queue[16][23];
	int queued, timer;      /* `timer`: slots until T200 expires, or 0 if it does not run */
	int opened, got, acked, closed;
} side;

static int now;

static um_message message_of(int count)
{
	um_message message = { .count = (uint8_t)count };
	for (int i = 0; i < count; i++)
		message.octets[i] = (uint8_t)i;
	return message;
}

static void queue(side *s, const um_effects *effects)
{
	for (int i = 0; i < effects->frame_count; i++)
		memcpy(s->queue[s->queued++], effects->frames[i], 23);
	for (int i = 0; i < effects->notice_count; i++) {
		const um_notice *notice = &effects->notices[i];
		printf("%5d ms  %-7s ", now, s->name);
		if (notice->kind == UM_OPENED)
			s->opened++, printf("is open\n");
		else if (notice->kind == UM_GOT)
			s->got++, printf("got a message of %d octets\n", notice->message.count);
		else if (notice->kind == UM_ACKED)
			s->acked++, printf("has message %d acknowledged\n", (int)notice->number);
		else if (notice->kind == UM_ENDED)
			s->closed++, printf(notice->reason == UM_RELEASED ? "is closed\n" : "has failed\n");
	}
}

static void send(side *s, int count)
{
	um_message message = message_of(count);
	um_effects effects;
	if (um_end_send(&s->end, &message, &effects) == UM_END_DONE)
		queue(s, &effects);
}

/* Sends a block over the noisy path; one in four fades. Returns whether it is received, and writes its octets. */
static bool is_received(const uint8_t sent[23], uint8_t octets[23])
{
	int strength = air_random() >> 30 == 0 ? 250 : 40;
	uint8_t bursts[4][148];
	int8_t soft[4][148];
	um_block_report report;
	if (!um_send_block(sent, 7, bursts))
		return false;
	for (int b = 0; b < 4; b++)
		for (int i = 0; i < 148; i++)
			soft[b][i] = air_soft(bursts[b][i], strength);
	if (!um_receive_block((const int8_t (*)[148])soft, &report) || !report.accepted)
		return false;
	memcpy(octets, report.octets, 23);
	return true;
}

/* Runs one slot of an endpoint: T200 may expire, and the first queued block goes on the air. */
static void slot(side *s, side *other)
{
	um_effects effects;
	um_frame frame;
	uint8_t octets[23];
	if (s->timer && --s->timer == 0 && um_end_timer(&s->end, &effects) == UM_END_DONE) {
		printf("%5d ms  %-7s T200 expires\n", now, s->name);
		queue(s, &effects);
	}
	if (s->queued == 0)
		return;
	bool is_there = is_received(s->queue[0], octets);
	if (um_read_frame(s->queue[0], UM_SDCCH, &frame) == UM_FRAME) {
		printf("%5d ms  %-7s sends %s%s\n", now, s->name, um_kind_name(frame.kind), is_there ? "" : ", which is lost");
		if (frame.kind == UM_SABM || frame.kind == UM_DISC || frame.kind == UM_I)
			s->timer = T200;
	}
	memmove(s->queue[0], s->queue[1], sizeof s->queue - 23);
	s->queued--;
	if (is_there && um_end_take(&other->end, octets, &effects) == UM_END_DONE)
		queue(other, &effects);
}

int main(void)
{
	side mobile = { .name = "mobile" }, network = { .name = "network" };
	um_message info = message_of(9);
	um_effects effects;
	um_end_new(&mobile.end, UM_MOBILE, 0, UM_SDCCH);
	um_end_new(&network.end, UM_NETWORK, 0, UM_SDCCH);
	if (um_end_open(&mobile.end, &info, &effects) == UM_END_DONE)
		queue(&mobile, &effects);
	for (int line = 0; line < LINES && !(mobile.closed && network.closed); line++, now += SLOT) {
		int mobile_was = mobile.opened, network_was = network.opened, done = mobile.acked == 2 && network.acked == 1;
		slot(&mobile, &network);
		slot(&network, &mobile);
		if (mobile.opened > mobile_was)
			send(&mobile, 5), send(&mobile, 60);
		if (network.opened > network_was)
			send(&network, 30);
		if (!done && mobile.acked == 2 && network.acked == 1 && um_end_close(&mobile.end, &effects) == UM_END_DONE)
			queue(&mobile, &effects);
	}
	bool is_well = mobile.closed == 1 && network.closed == 1 && mobile.got == 1 && network.got == 2;
	printf("%s\n", is_well ? "each message arrived exactly once" : "something is missing");
	return !is_well;
}
