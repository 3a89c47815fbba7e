/* 64 links over a channel that loses one block in ten: each mobile opens its link, sends a message, and closes when it is acknowledged.
 *
 *   cc -Ibindings/c examples/c/links.c dist/$(uname -m)-linux/libum.a -o links && ./links */
#include "air.h"
#include "um.h"
#include <stdio.h>

enum { LINKS = 64, SIDES = 2 * LINKS, SLOTS = 1000 };
static int got, closed, refused;

static void handle(um_datalink *side, const um_report *report)
{
	static const um_message message = { .count = 100 };
	for (int i = 0; i < report->notice_count; i++) {
		const um_notice *notice = &report->notices[i];
		if (notice->kind == UM_OPENED && side->link0.end.role == UM_MOBILE)
			refused += um_datalink_send(side, report->sapis[i], &message) != UM_END_DONE;
		if (notice->kind == UM_ACKED)
			refused += um_datalink_close(side, report->sapis[i]) != UM_END_DONE;
		got += notice->kind == UM_GOT && notice->message.count == 100;
		closed += notice->kind == UM_ENDED && notice->reason == UM_RELEASED;
	}
}

int main(void)
{
	static um_datalink sides[SIDES];
	static uint8_t blocks[SIDES][23];
	bool arrives[SIDES] = { false };
	um_message info = { .count = 2, .octets = { 0x05, 0x24 } };
	um_report report;
	int slot = 0;
	for (int i = 0; i < SIDES; i++) {
		um_datalink_new(&sides[i], i % 2 ? UM_NETWORK : UM_MOBILE, UM_SDCCH, 4, 6);
		refused += i % 2 == 0 && um_datalink_open(&sides[i], &info) != UM_END_DONE;
	}
	for (; closed < SIDES && slot < SLOTS; slot++) {
		for (int i = 0; i < SIDES; i++)
			if (arrives[i] && um_datalink_take(&sides[i], blocks[i], &report) == UM_END_DONE)
				handle(&sides[i], &report);
		for (int i = 0; i < SIDES; i++) {
			refused += um_datalink_next(&sides[i], (uint8_t[2]){ 0 }, blocks[i ^ 1], &report) == UM_END_NONE;
			handle(&sides[i], &report);
			arrives[i ^ 1] = air_random() % 10 != 0;
		}
	}
	printf("%d links, one block in ten lost: after %d slots %d messages have arrived and %d sides are closed\n", LINKS, slot, got, closed);
	return closed < SIDES || refused;
}
