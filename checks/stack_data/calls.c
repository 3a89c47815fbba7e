/* Prints the stack that each call of um.h takes at most: `NAME OCTETS`. A call runs on a painted stack of its own, in the states of an
 * end, a data link and a slot, with the blocks that make it do most: the octets that it overwrote, less those of a call that does nothing. */
#define _XOPEN_SOURCE 700
#include "um.h"
#include <stdio.h>
#include <stdlib.h>
#include <string.h>
#include <ucontext.h>

enum { SIZE = 1 << 16, PAINT = 0xc7, STATES = 7, BLOCKS = 10 };

static unsigned char stack[SIZE];
static ucontext_t here, there;

/* what the calls read and write */
static uint8_t octets[23], block[23], b4[19], layer1[2], bits[4][148], stolen[8][148], stream[114], access_bits[88], sync_bits[148], word[228], info[25], bsic[6], sapi, tsc, wrong[4], ra;
static int8_t soft[4][148], halves[8][148], joined[4][148];
static uint32_t rank, frame_number;
static int32_t flags;
static um_block_report report;
static um_erasure erasure;
static um_margin_report margin;
static um_repair_report repaired;
static um_access_report access_report;
static um_sync_report sync_report;
static um_time time_of;
static um_sch sch;
static um_place place;
static um_frame frame;
static um_message message;
static um_effects effects;
static um_report told;
static um_slot slot;
static um_slot_block taken;
static um_traffic traffic;
static um_facch_erasure facch_erasure;
static um_traffic_block heard;
static um_traffic_place traffic_place;
static um_traffic_sender traffic_sender;
static um_end end;
static um_side side;
static um_datalink link;
static um_said said;
static volatile uint32_t answer;

/* X(name, call): each export of um.h; checks/stack compares the list with the header */
#define CALLS(X) \
	X(um_version, um_version()) \
	X(um_send_block, um_send_block(octets, 3, bits)) \
	X(um_receive_block, um_receive_block((const int8_t (*)[148])soft, &report)) \
	X(um_receive_block_among, um_receive_block_among((const int8_t (*)[148])soft, 64, &report, &rank)) \
	X(um_receive_block_erasing, um_receive_block_erasing((const int8_t (*)[148])soft, 64, 4, &report, &rank, &erasure)) \
	X(um_detect_training, um_detect_training((const int8_t (*)[148])soft, &tsc, wrong)) \
	X(um_margin_block, um_margin_block((const int8_t (*)[148])soft, &margin)) \
	X(um_steal_facch_f, um_steal_facch_f((const uint8_t (*)[148])bits, stolen)) \
	X(um_steal_facch_h, um_steal_facch_h((const uint8_t (*)[148])bits, stolen)) \
	X(um_join_facch_f, um_join_facch_f((const int8_t (*)[148])halves, joined)) \
	X(um_join_facch_h, um_join_facch_h((const int8_t (*)[148])halves, joined)) \
	X(um_receive_facch_f_erasing, um_receive_facch_f_erasing((const int8_t (*)[148])halves, 64, 8, &report, &rank, &facch_erasure)) \
	X(um_receive_facch_h_erasing, um_receive_facch_h_erasing((const int8_t (*)[148])halves, 64, 6, &report, &rank, &facch_erasure)) \
	X(um_stealing_flags, um_stealing_flags((const int8_t (*)[148])soft, &flags, &tsc)) \
	X(um_repair, um_repair(word, &repaired)) \
	X(um_send_access, um_send_access(word, bsic, access_bits)) \
	X(um_receive_access, um_receive_access(soft[0], bsic, &access_report)) \
	X(um_send_sync, um_send_sync(word, sync_bits)) \
	X(um_receive_sync, um_receive_sync(soft[0], &sync_report)) \
	X(um_time_of_frame, um_time_of_frame(frame_number, &time_of)) \
	X(um_frame_of_time, um_frame_of_time(&time_of, &frame_number)) \
	X(um_read_sch, um_read_sch(info, &sch)) \
	X(um_write_sch, um_write_sch(5, 1327, info)) \
	X(um_write_ra, (um_write_ra(3, info), 0)) \
	X(um_read_ra, um_read_ra(word, &ra)) \
	X(um_write_bsic, um_write_bsic(5, bsic)) \
	X(um_read_bsic, um_read_bsic(bsic, &ra)) \
	X(um_place_frame, um_place_frame(UM_SDCCH8, UM_UPLINK, 1, frame_number, &place)) \
	X(um_next_block, um_next_block(UM_SDCCH8, UM_UPLINK, 1, UM_SDCCH, 7, frame_number, &rank)) \
	X(um_place_traffic, um_place_traffic(UM_HALF_RATE_1, UM_UPLINK, frame_number, &traffic_place)) \
	X(um_next_facch, um_next_facch(UM_HALF_RATE_1, UM_UPLINK, frame_number, &rank)) \
	X(um_slot_new, um_slot_new(&slot, UM_SDCCH8, UM_UPLINK, 1, 64, 4)) \
	X(um_slot_take, um_slot_take(&slot, 18, soft[3], &taken)) \
	X(um_slot_miss, um_slot_miss(&slot, 600, &taken)) \
	X(um_slot_restart, um_slot_restart(&slot)) \
	X(um_slot_end, um_slot_end(&slot, &taken)) \
	X(um_traffic_new, um_traffic_new(&traffic, UM_FULL_RATE, UM_UPLINK, 1, 64, 4)) \
	X(um_traffic_take, um_traffic_take(&traffic, 7, halves[7], &heard)) \
	X(um_traffic_miss, um_traffic_miss(&traffic, 20, &heard)) \
	X(um_traffic_restart, um_traffic_restart(&traffic)) \
	X(um_traffic_end, um_traffic_end(&traffic, &heard)) \
	X(um_traffic_sender_new, um_traffic_sender_new(&traffic_sender, UM_FULL_RATE, UM_UPLINK, 5)) \
	X(um_traffic_sender_facch, um_traffic_sender_facch(&traffic_sender, octets)) \
	X(um_traffic_sender_speech, um_traffic_sender_speech(&traffic_sender, (const uint8_t (*)[148])bits)) \
	X(um_traffic_sender_burst, um_traffic_sender_burst(&traffic_sender, 4, stolen[0])) \
	X(um_cipher_bits, um_cipher_bits(bits[0], stream)) \
	X(um_soft_cipher, um_soft_cipher(soft[0], stream)) \
	X(um_read_frame, um_read_frame(block, UM_SDCCH, &frame)) \
	X(um_write_frame, um_write_frame(&frame, UM_SDCCH, octets)) \
	X(um_read_b4, um_read_b4(octets, b4)) \
	X(um_write_b4, (um_write_b4(layer1, b4, octets), 0)) \
	X(um_end_new, um_end_new(&end, UM_MOBILE, 0, UM_SDCCH)) \
	X(um_end_open, um_end_open(&end, &message, &effects)) \
	X(um_end_open_bare, um_end_open_bare(&side.link3, &effects)) \
	X(um_end_send, um_end_send(&end, &message, &effects)) \
	X(um_end_unit, um_end_unit(&end, &message, &effects)) \
	X(um_end_close, um_end_close(&end, &effects)) \
	X(um_end_timer, um_end_timer(&end, &effects)) \
	X(um_end_idle, um_end_idle(&end, &effects)) \
	X(um_end_take, um_end_take(&end, block, &effects)) \
	X(um_side_new, um_side_new(&side, UM_MOBILE, UM_SDCCH)) \
	X(um_side_open, um_side_open(&side, &message, &effects)) \
	X(um_side_open_bare, um_side_open_bare(&side, &effects)) \
	X(um_side_send, um_side_send(&side, 0, &message, &effects)) \
	X(um_side_unit, um_side_unit(&side, 0, &message, &effects)) \
	X(um_side_close, um_side_close(&side, 0, &effects)) \
	X(um_side_timer, um_side_timer(&side, 0, &effects)) \
	X(um_side_idle, um_side_idle(&side, &effects)) \
	X(um_side_take, um_side_take(&side, block, &sapi, &effects)) \
	X(um_datalink_new, um_datalink_new(&link, UM_MOBILE, UM_SDCCH, 4, 6)) \
	X(um_datalink_new_for, um_datalink_new_for(&link, UM_MOBILE, UM_SDCCH, UM_NORMAL, 4, 6)) \
	X(um_datalink_valid, um_datalink_valid(&link)) \
	X(um_datalink_open, um_datalink_open(&link, &message)) \
	X(um_datalink_establish, um_datalink_establish(&link, 0)) \
	X(um_datalink_open_bare, um_datalink_open_bare(&link)) \
	X(um_datalink_send, um_datalink_send(&link, 0, &message)) \
	X(um_datalink_unacked, um_datalink_unacked(&link, 0, 0, &message)) \
	X(um_datalink_unit, um_datalink_unit(&link, 0, &message, layer1, octets)) \
	X(um_datalink_close, um_datalink_close(&link, 0)) \
	X(um_datalink_close_local, um_datalink_close_local(&link, 0)) \
	X(um_datalink_main, um_datalink_main(&link, true)) \
	X(um_datalink_take, um_datalink_take(&link, block, &told)) \
	X(um_datalink_next, um_datalink_next(&link, layer1, octets, &told)) \
	X(um_datalink_fault, um_datalink_fault(&link, block)) \
	X(um_say_again, um_say_again(&said, UM_SDCCH, UM_END_DONE, octets))

#define BODY(name, call) static void try_##name(void) { answer += (uint32_t)(call); }
CALLS(BODY)
static void nothing(void) { answer++; }

#define ROW(name, call) { #name, try_##name },
static const struct { const char *name; void (*call)(void); } calls[] = { CALLS(ROW) };
enum { COUNT = sizeof calls / sizeof calls[0] };

static void (*current)(void);
static void enter(void) { current(); }

/* The octets of the stack that the call overwrites. */
static size_t used_by(void (*call)(void))
{
	size_t first = 0;
	current = call;
	memset(stack, PAINT, SIZE);
	getcontext(&there);
	there.uc_stack.ss_sp = stack;
	there.uc_stack.ss_size = SIZE;
	there.uc_link = &here;
	makecontext(&there, enter, 0);
	swapcontext(&here, &there);
	while (first < SIZE && stack[first] == PAINT) first++;
	return SIZE - first;
}

static int failed;
static void expect(bool holds, const char *what)
{
	if (!holds && !failed++) fprintf(stderr, "calls: %s\n", what);
}

/* A frame of the network to the mobile, in `block`. */
static void arrives(uint8_t kind, uint8_t cr, uint8_t ns, uint8_t nr)
{
	memset(&frame, 0, sizeof frame);
	frame.kind = kind;
	frame.cr = cr;
	frame.ns = ns;
	frame.nr = nr;
	frame.pf = kind == UM_UA || kind == UM_SABM || kind == UM_DISC;
	if (kind == UM_UA || kind == UM_I || kind == UM_UI) {
		frame.count = 5;
		memset(frame.info, 9, 5);
	}
	expect(um_write_frame(&frame, UM_SDCCH, block), "a frame is not written");
}

static const uint8_t kinds[BLOCKS][4] = { { UM_UA, 0, 0, 0 }, { UM_I, 1, 0, 0 }, { UM_I, 1, 0, 1 }, { UM_RR, 0, 0, 1 }, { UM_REJ, 0, 0, 0 }, { UM_REJ, 0, 0, 1 },
	{ UM_DISC, 1, 0, 0 }, { UM_DM, 0, 0, 0 }, { UM_UI, 1, 0, 0 }, { UM_I, 1, 3, 0 } };

/* An end, a side and a data link of a mobile: new, with a SABM sent, open, with eight messages, with half a message, closing, closed. */
static void set_states(int state)
{
	message.count = 5;
	memset(message.octets, 9, 255);
	expect(um_end_new(&end, UM_MOBILE, 0, UM_SDCCH) && um_side_new(&side, UM_MOBILE, UM_SDCCH) && um_datalink_new(&link, UM_MOBILE, UM_SDCCH, 4, 6), "new");
	if (state > 0)
		expect(um_end_open(&end, &message, &effects) == UM_END_DONE && um_side_open(&side, &message, &effects) == UM_END_DONE
			&& um_datalink_open(&link, &message) == UM_END_DONE && um_datalink_next(&link, layer1, octets, &told) == UM_END_DONE, "open");
	if (state > 1) {
		arrives(UM_UA, 0, 0, 0);
		expect(um_end_take(&end, block, &effects) == UM_END_DONE && um_side_take(&side, block, &sapi, &effects) == UM_END_DONE
			&& um_datalink_take(&link, block, &told) == UM_END_DONE, "established");
	}
	message.count = 251;
	for (int many = 0; state > 2 && many < 8; many++)
		expect(um_end_send(&end, &message, &effects) == UM_END_DONE && um_side_send(&side, 0, &message, &effects) == UM_END_DONE
			&& um_datalink_send(&link, 0, &message) == UM_END_DONE, "send");
	if (state > 2) expect(um_datalink_next(&link, layer1, octets, &told) == UM_END_DONE, "next");
	if (state > 3) {
		arrives(UM_I, 1, 0, 0);
		block[2] |= 2; /* M: more follows */
		expect(um_end_take(&end, block, &effects) == UM_END_DONE && um_side_take(&side, block, &sapi, &effects) == UM_END_DONE
			&& um_datalink_take(&link, block, &told) == UM_END_DONE, "half a message");
	}
	if (state > 4)
		expect(um_end_close(&end, &effects) == UM_END_DONE && um_side_close(&side, 0, &effects) == UM_END_DONE && um_datalink_close(&link, 0) == UM_END_DONE, "close");
	if (state > 5) {
		arrives(UM_DM, 0, 0, 0);
		expect(um_end_take(&end, block, &effects) == UM_END_DONE && um_side_take(&side, block, &sapi, &effects) == UM_END_DONE
			&& um_datalink_take(&link, block, &told) == UM_END_DONE, "closed");
	}
	message.count = state < 2 ? 5 : 251;
}

/* Noise in the bursts, three of them in a slot that waits for the fourth, seven with stealing flags in a traffic channel that waits for the
 * eighth, and a word whose CRC fails. */
static void set_noise(int round)
{
	for (int at = 0; at < 592; at++) soft[at / 148][at % 148] = (int8_t)(round % 2 ? rand() % 255 - 127 : rand() % 2 ? 127 : -127);
	for (int at = 0; at < 8 * 148; at++) halves[at / 148][at % 148] = at % 148 == 60 || at % 148 == 87 ? -127 : (int8_t)(rand() % 255 - 127);
	for (int at = 0; at < 228; at++) word[at] = rand() & 1;
	for (int at = 0; at < 114; at++) stream[at] = rand() & 1;
	memset(stolen, 0, sizeof stolen);
	memset(bits, 0, sizeof bits);
	memcpy(bsic, word, 6);
	frame_number = (uint32_t)rand() % UM_FRAMES;
	expect(um_slot_new(&slot, UM_SDCCH8, UM_UPLINK, 1, 64, 4), "slot");
	for (uint32_t at = 15; at < 18; at++) expect(um_slot_take(&slot, at, soft[at - 15], &taken) == UM_SLOT_TAKEN, "slot");
	expect(um_traffic_new(&traffic, UM_FULL_RATE, UM_UPLINK, 1, 64, 4), "traffic");
	for (uint32_t at = 0; at < 7; at++) expect(um_traffic_take(&traffic, at, halves[at], &heard) <= UM_TRAFFIC_BLOCK, "traffic");
	expect(um_time_of_frame(frame_number, &time_of) && um_write_sch(5, 1327, info), "time");
}

int main(void)
{
	static size_t most[COUNT];
	size_t least = used_by(nothing);
	for (int round = 0; round < 12; round++)
		for (int state = 0; state < STATES; state++)
			for (int kind = 0; kind < BLOCKS; kind++)
				for (int at = 0; at < COUNT; at++) {
					/* the calls that decode depend on the noise of the round, the others on state and frame */
					const char *name = calls[at].name;
					bool decodes = !strstr(name, "end_") && !strstr(name, "side_") && !strstr(name, "link_") && !strstr(name, "frame");
					if (decodes ? state || kind : round != 0)
						continue;
					srand(round);
					set_noise(round);
					set_states(state);
					arrives(kinds[kind][0], kinds[kind][1], kinds[kind][2], kinds[kind][3]);
					size_t used = used_by(calls[at].call) - least;
					if (used > most[at] && used < SIZE) most[at] = used;
				}
	for (int at = 0; at < COUNT; at++) printf("%s %zu\n", calls[at].name, most[at]);
	return failed != 0;
}
