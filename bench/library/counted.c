/* Calls of which instructions are counted, since their times were not measured: each once, in a static program, by callgrind's
 * --toggle-collect=CALL. Blocks are received as they were sent; of a data link a message waits for its acknowledgement. */
#include "um.h"
#include <stdio.h>

int main(void)
{
	static const uint8_t layer1[2], octets[23] = { 0, 0, 3, 3, 0x49, 6 };
	static uint8_t block[4][148], bursts[8][148], answer[23], info[19], wrong;
	static int8_t soft[8][148], joined[4][148];
	static um_block_report report;
	static um_facch_erasure erasure;
	static um_datalink sides[2];
	static um_message message = { .count = 251 };
	static um_report told;
	static um_said said;
	uint32_t rank, refused = 0;
	int32_t sum;

	for (int rate = 0; rate < 2; rate++) {
		refused += !um_send_block(octets, 5, block);
		refused += rate ? !um_steal_facch_h((const uint8_t (*)[148])block, bursts) : !um_steal_facch_f((const uint8_t (*)[148])block, bursts);
		for (int at = 0; at < 8 * 148; at++)
			soft[at / 148][at % 148] = bursts[at / 148][at % 148] ? -127 : 127;
		if (rate)
			refused += !um_join_facch_h((const int8_t (*)[148])soft, joined) ||
				!um_receive_facch_h_erasing((const int8_t (*)[148])soft, 16, 4, &report, &rank, &erasure) || !report.accepted;
		else
			refused += !um_join_facch_f((const int8_t (*)[148])soft, joined) ||
				!um_receive_facch_f_erasing((const int8_t (*)[148])soft, 16, 4, &report, &rank, &erasure) || !report.accepted;
	}
	refused += !um_stealing_flags((const int8_t (*)[148])joined, &sum, &wrong) || wrong;
	refused += !um_read_b4(octets, info);
	um_write_b4(layer1, info, answer);
	refused += !um_datalink_new_for(&sides[0], UM_MOBILE, UM_SDCCH, UM_NORMAL, 4, 6);
	sides[1] = sides[0];
	sides[1].link0.end.role = sides[1].link3.end.role = UM_NETWORK;
	refused += um_datalink_establish(&sides[0], 0) != UM_END_DONE;
	for (int slot = 0; slot < 4; slot++) {
		refused += um_datalink_next(&sides[slot % 2], layer1, answer, &told) == UM_END_NONE;
		refused += um_datalink_take(&sides[1 - slot % 2], answer, &told) != UM_END_DONE;
	}
	refused += um_datalink_send(&sides[0], 0, &message) != UM_END_DONE;
	refused += um_datalink_unacked(&sides[0], 0, 0, &message) != UM_END_DONE || message.count != 251;
	refused += !um_datalink_valid(&sides[0]);
	refused += um_say_again(&said, UM_SDCCH, UM_END_FREE, answer) != UM_END_FREE;
	if (refused)
		puts("a call was refused");
	return refused != 0;
}
