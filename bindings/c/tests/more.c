/* Tests um_more.h: the words of each enum, hard bits, whether T200 runs, and the saved form, whose places are worked by hand. */
#include "um_more.h"
#include <stdio.h>

static int failed;

static void check(bool holds, const char *what)
{
	if (!holds) {
		printf("library: %s\n", what);
		failed = 1;
	}
}

/* The words of the numbers from 0 on, separated by spaces; every later number is unknown. */
static void words(const char *(*name)(unsigned), const char *wanted)
{
	char said[256] = "";
	unsigned number = 0;
	for (const char *at = wanted; at; at = strchr(at + 1, ' '), number++) {
		strcat(said, number ? " " : "");
		strcat(said, name(number));
	}
	check(!strcmp(said, wanted), said);
	for (; number < 300; number++)
		check(!strcmp(name(number), "unknown"), "a number outside an enum is unknown");
	check(!strcmp(name(~0u), "unknown"), "the greatest number is unknown");
}

static void names(void)
{
	words(um_kind_name, "i rr rnr rej sabm dm ui disc ua");
	words(um_channel_name, "sdcch sacch bcch ccch fcch sch rach facch");
	words(um_combination_name, "bcch_ccch bcch_ccch_sdcch4 sdcch8 tch_f tch_h");
	words(um_direction_name, "downlink uplink");
	words(um_placing_name, "placed unplaced noplace");
	words(um_taken_name, "taken block nosoft noslot noframe doubled late");
	words(um_role_name, "mobile network");
	words(um_state_name, "idle opening open closing closed");
	words(um_notice_name, "none opened got unit acked oversize closed");
	words(um_reason_name, "contention failed refused released");
	words(um_fault_name, "none nr ua dm");
	words(um_answer_name, "ok notidle notopen notrunning empty toolong full noend nocall noframe free");
	words(um_reading_name, "frame lpd ea control el length empty more nochannel");
	words(um_repaired_name, "holds repaired norepair nobits");
	check(!strcmp(um_kind_name(UM_UA), "ua") && !strcmp(um_notice_name(UM_ENDED), "closed") && !strcmp(um_reason_name(UM_RELEASED), "released")
		&& !strcmp(um_answer_name(UM_END_NO_FRAME), "noframe") && !strcmp(um_reading_name(UM_NO_CHANNEL), "nochannel")
		&& !strcmp(um_repaired_name(UM_NO_BITS), "nobits"), "the last words are those of the last numbers");
}

static void hard_bits(void)
{
	int8_t values[592] = { 0 };
	check(!um_are_hard_bits(values, 592) && !um_are_hard_bits(values, 0), "zeros are a lost block");
	values[591] = 1;
	check(um_are_hard_bits(values, 592) && !um_are_hard_bits(values, 591), "a single 1 among zeros makes hard bits");
	values[590] = -1;
	check(!um_are_hard_bits(values, 592), "-1 is no hard bit");
	values[590] = 2;
	check(!um_are_hard_bits(values, 592), "2 is no hard bit");
}

static void saved_ends(void)
{
	um_end network, mobile, back;
	um_effects opened, done;
	um_message message = { 3, { 7, 8, 9 } };
	uint8_t octets[UM_END_OCTETS], again[UM_END_OCTETS];
	check(um_end_new(&network, UM_NETWORK, 3, UM_SACCH) && um_end_new(&mobile, UM_MOBILE, 3, UM_SACCH), "new endpoints");
	um_end_to_bytes(&network, octets);
	check(!memcmp(octets, "umE1\0\0\0\0\0\0\0\0\1\3\1\0", 16), "head, no message acknowledged, network, SAPI 3, SACCH, idle");
	check(!um_end_timer_runs(&network), "nothing awaits an answer");
	check(um_end_open_bare(&network, &opened) == UM_END_DONE && um_end_timer_runs(&network), "the SABM awaits an answer");
	check(um_end_take(&mobile, opened.frames[0], &done) == UM_END_DONE, "the SABM arrives");
	check(um_end_take(&network, done.frames[0], &done) == UM_END_DONE && !um_end_timer_runs(&network), "the UA arrives");
	check(um_end_send(&network, &message, &done) == UM_END_DONE && um_end_timer_runs(&network), "the I frame awaits an answer");
	network.done = 0x0102030405060708; /* as after so many messages */
	network.vs = network.va = 1;
	um_end_to_bytes(&network, octets);
	check(!memcmp(octets, "umE1\x08\7\6\5\4\3\2\1\1\3\1\2\0", 17), "done, least significant octet first; network, SAPI 3, SACCH, open");
	/* 4 of the head, 8 of done, 11 before held_count; 2 later `kept`, two messages before `held` */
	check(octets[23] == 1 && octets[25] == 0 && octets[25 + 512] == 3 && !memcmp(octets + 25 + 513, "\7\x08\x09\0", 4), "one message is held");
	check(um_end_from_bytes(&back, octets) && !memcmp(&back.role, &network.role, 1) && back.done == network.done, "it is restored");
	um_end_to_bytes(&back, again);
	check(!memcmp(octets, again, sizeof octets), "and saved again");
	memset(&back, 0xa5, sizeof back);
	mobile = back;
	for (int at = 0; at < 4; at++) {
		memcpy(again, octets, sizeof again);
		again[at]++;
		check(!um_end_from_bytes(&back, again) && !memcmp(&back, &mobile, sizeof back), "another head is refused, and nothing is written");
	}
	memcpy(again, octets, sizeof again);
	again[12] = 2;
	check(!um_end_from_bytes(&back, again) && !memcmp(&back, &mobile, sizeof back), "no endpoint has the role 2");
}

static void saved_sides(void)
{
	um_side side, back;
	um_effects done;
	um_message info = { 2, { 5, 36 } };
	uint8_t octets[UM_SIDE_OCTETS], again[UM_SIDE_OCTETS];
	check(um_side_new(&side, UM_MOBILE, UM_SDCCH) && um_side_open(&side, &info, &done) == UM_END_DONE, "a side opens");
	check(um_side_timer_runs(&side, 0) && !um_side_timer_runs(&side, 3) && !um_side_timer_runs(&side, 1), "T200 of SAPI 0 alone runs");
	um_side_to_bytes(&side, octets);
	check(!memcmp(octets, "umS1\0\0\0\0\0\0\0\0\0\0\0\1", 16) && octets[25] == 2 && octets[27] == 36, "opening with two octets");
	check(!memcmp(octets + 4 + 2581, "\0\0\0\0\0\0\0\0\0\3\0\0", 12), "the link of SAPI 3 is idle");
	check(um_side_from_bytes(&back, octets), "it is restored");
	um_side_to_bytes(&back, again);
	check(!memcmp(octets, again, sizeof octets), "and saved again");
	for (int at = 0; at < 2; at++) {
		memcpy(again, octets, sizeof again);
		again[at ? 4 + 2581 + 11 : 15] = 9;
		check(!um_side_from_bytes(&back, again), "each endpoint is tested");
	}
	memcpy(again, octets, sizeof again);
	again[4 + 2581 + 10] = 1;
	check(!um_side_from_bytes(&back, again), "endpoints of two channels are no side");
	um_end end;
	octets[2] = 'E';
	check(um_end_from_bytes(&end, octets) && !um_side_from_bytes(&back, octets), "a saved endpoint is no side");
}

static void saved_slots(void)
{
	um_slot slot, back, before;
	um_slot_block block;
	int8_t burst[148] = { -5 };
	uint8_t octets[UM_SLOT_OCTETS], again[UM_SLOT_OCTETS];
	check(um_slot_new(&slot, UM_SDCCH8, UM_UPLINK, 3, 64, 1), "a receiver");
	burst[147] = 9;
	check(um_slot_take(&slot, 15, burst, &block) == UM_SLOT_TAKEN, "the first burst of SDCCH 0 in the uplink");
	um_slot_to_bytes(&slot, octets);
	check(!memcmp(octets, "umT2\x0f\0\0\0\x0f\0\0\0\2\1\3\x40\1\1\xfb", 19) && octets[18 + 147] == 9 && octets[18 + 148] == 0
		&& octets[610] == 78, "last and first frame 15; SDCCH/8, uplink, time slot 3, 64 words, one erasure, one burst, no limit");
	check(um_slot_from_bytes(&back, octets), "it is restored");
	um_slot_to_bytes(&back, again);
	check(!memcmp(octets, again, sizeof octets), "and saved again");
	memset(&back, 0xa5, sizeof back);
	before = back;
	octets[15] = 0;
	check(!um_slot_from_bytes(&back, octets) && !memcmp(&back, &before, sizeof back), "no receiver tries no words");
	octets[15] = 1, octets[610] = 79;
	check(!um_slot_from_bytes(&back, octets), "no receiver has a limit of 79");
	octets[610] = 18, octets[3] = '1';
	check(!um_slot_from_bytes(&back, octets), "the form before the limit");
}

static void saved_links(void)
{
	um_datalink link, back, before;
	um_message info = { 2, { 5, 36 } };
	uint8_t octets[UM_DATALINK_OCTETS], again[UM_DATALINK_OCTETS];
	check(um_datalink_new(&link, UM_MOBILE, UM_SACCH, 4, 6) && um_datalink_main(&link, true) == UM_END_DONE
		&& um_datalink_open(&link, &info) == UM_END_DONE, "a data link opens");
	um_datalink_to_bytes(&link, octets);
	check(!memcmp(octets, "umL2\0\0\0\0\0\0\0\0\0\0\1\1", 16) && octets[4 + 2581] == 4 && octets[4 + 2609 + 2581] == 6
		&& octets[4 + 2609 + 9] == 3 && octets[5222] == 0 && octets[5223] == 1, "its ends, each T200, and what was said of SAPI 0");
	octets[3] = '1';
	check(!um_datalink_from_bytes(&back, octets), "the form without `heard` is refused");
	octets[3] = '2';
	check(um_datalink_from_bytes(&back, octets), "it is restored");
	um_datalink_to_bytes(&back, again);
	check(!memcmp(octets, again, sizeof octets), "and saved again");
	memset(&back, 0xa5, sizeof back);
	before = back;
	octets[4 + 2581] = 0;
	check(!um_datalink_from_bytes(&back, octets) && !memcmp(&back, &before, sizeof back), "no data link has a T200 of 0");
	octets[4 + 2581] = 4, octets[2] = 'S';
	check(!um_datalink_from_bytes(&back, octets), "another head");
}

/* After UM_ENDED the answer to the other side's release waits for its slot; a SABM and its answer, and a release, do too. */
static void idle_links(void)
{
	um_datalink mobile, network;
	um_message info = { 1, { 5 } };
	um_report report;
	uint8_t block[23];
	const uint8_t layer1[2] = { 0, 0 };
	check(um_datalink_new(&mobile, UM_MOBILE, UM_SDCCH, 4, 6) && um_datalink_new(&network, UM_NETWORK, UM_SDCCH, 4, 6) &&
	      um_datalink_idle(&mobile) && um_datalink_idle(&network), "new data links are idle");
	check(um_datalink_open(&mobile, &info) == UM_END_DONE && !um_datalink_idle(&mobile), "a SABM waits");
	check(um_datalink_next(&mobile, layer1, block, &report) == UM_END_DONE && !um_datalink_idle(&mobile), "it awaits an answer");
	check(um_datalink_take(&network, block, &report) == UM_END_DONE && !um_datalink_idle(&network), "the answer waits");
	check(um_datalink_next(&network, layer1, block, &report) == UM_END_DONE && um_datalink_idle(&network), "the answer went out");
	check(um_datalink_take(&mobile, block, &report) == UM_END_DONE && um_datalink_idle(&mobile), "the answer has arrived");
	check(um_datalink_close(&mobile, 0) == UM_END_DONE && um_datalink_next(&mobile, layer1, block, &report) == UM_END_DONE &&
	      um_datalink_take(&network, block, &report) == UM_END_DONE && report.notices[0].kind == UM_ENDED && !um_datalink_idle(&network),
	      "the answer to a release waits, although the link has ended");
	check(um_datalink_next(&network, layer1, block, &report) == UM_END_DONE && um_datalink_take(&mobile, block, &report) == UM_END_DONE &&
	      um_datalink_idle(&network) && um_datalink_idle(&mobile), "both have ended");
	memset(&mobile, 0xee, sizeof mobile);
	check(!um_datalink_idle(&mobile), "no data link");
}

int main(void)
{
	names();
	hard_bits();
	saved_ends();
	saved_sides();
	saved_slots();
	saved_links();
	idle_links();
	printf("library: um_more.h: names, hard bits, T200 and saved states%s\n", failed ? ": failed" : "");
	return failed;
}
