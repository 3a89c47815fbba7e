/* Tests the calls of um.h for time, channels, time slots and erasures, and um_soft.h.
 *
 *   slots FRAMES.OUT SCHEDULE.OUT      the repository's vectors, made by libosmocore and from osmo-bts's tables */
#include "um.h"
#include "um_soft.h"
#include <math.h>
#include <stdio.h>
#include <stdlib.h>
#include <string.h>

enum { RANDOM_FRAMES = 4600 }; /* of each of the 22 lines of the schedule: more than 100,000 */
static int failed;

static void check(bool holds, const char *what)
{
	if (!holds) {
		printf("library: %s\n", what);
		failed = 1;
	}
}

static void frames(const char *name)
{
	FILE *in = fopen(name, "r");
	unsigned long frame, t1, t2, t3;
	um_time time;
	uint32_t back;
	int count = 0;

	check(in != NULL, "the vectors of frame numbers open");
	for (; in && fscanf(in, "%lu %lu %lu %lu", &frame, &t1, &t2, &t3) == 4; count++)
		check(um_time_of_frame((uint32_t)frame, &time) && time.t1 == t1 && time.t2 == t2 && time.t3 == t3
			&& um_frame_of_time(&time, &back) && back == frame, "T1, T2 and T3 of a frame number are libosmocore's");
	check(count == 1000, "there are 1,000 frame numbers");
	if (in)
		fclose(in);
	time.t1 = 2048;
	time.t2 = time.t3 = 0;
	check(!um_time_of_frame(UM_FRAMES, &time) && time.t1 == 2048, "a frame number past the hyperframe is refused");
	check(!um_frame_of_time(&time, &back), "a T1 of 2048 is refused");
}

static void access_numbers(void)
{
	/* RA 0x13 is sent 1 1 0 0 1 0 0 0, and BSIC 13 goes 0 0 1 1 0 1 */
	static const uint8_t ra_bits[8] = { 1, 1, 0, 0, 1, 0, 0, 0 }, bsic_bits[6] = { 0, 0, 1, 1, 0, 1 };
	uint8_t info[8], bits[6], ra, bsic;

	um_write_ra(0x13, info);
	check(!memcmp(info, ra_bits, 8) && um_read_ra(info, &ra) && ra == 0x13, "RA is written least significant bit first, and read");
	check(um_write_bsic(13, bits) && !memcmp(bits, bsic_bits, 6) && um_read_bsic(bits, &bsic) && bsic == 13,
		"a BSIC is written most significant bit first, and read");
	bits[0] = 2;
	check(!um_write_bsic(64, bits) && bits[0] == 2 && !um_read_bsic(bits, &bsic), "a BSIC of 64, or a bit of 2, is refused");
}

static void synchronisation(void)
{
	/* BSIC 13 and frame number 1326 * 1029 + 41: T1 1029 = 10000000101b, T2 15, T3 41, T3' 4 = 100b. The octets are 001101 10 (BSIC, top
	 * of T1), 00000010, 1 01111 10 and 0, each sent least significant bit first. */
	static const uint8_t want[25] = { 0, 1, 1, 0, 1, 1, 0, 0, 0, 1, 0, 0, 0, 0, 0, 0, 0, 1, 1, 1, 1, 1, 0, 1, 0 };
	uint8_t info[25];
	um_sch sch;

	check(um_write_sch(13, 1326 * 1029 + 41, info) && !memcmp(info, want, 25), "the bits of SCH are those computed by hand");
	check(um_read_sch(info, &sch) && sch.bsic == 13 && sch.ncc == 1 && sch.bcc == 5 && sch.frame == 1326 * 1029 + 41, "and are read back");
	check(!um_write_sch(64, 1, info) && !um_write_sch(0, 2, info) && !um_write_sch(0, UM_FRAMES + 1, info) && !memcmp(info, want, 25),
		"a BSIC of 64, a frame without SCH and one that does not exist are refused");
	info[24] = info[16] = info[17] = 1;
	check(!um_read_sch(info, &sch), "a T3' of 7 is refused");
	memcpy(info, want, 25);
	info[22] = 1;
	check(!um_read_sch(info, &sch), "a T2 of 31 is refused");
}

static const char *const channels[] = { "sdcch", "sacch", "bcch", "ccch", "fcch", "sch", "rach" };
static const char *const combinations[] = { "bcch_ccch", "bcch_ccch_sdcch4", "sdcch8", "tch_f" };

/* Whether a frame carries what a word of the schedule says; blocks of CCCH have no number there. */
static void one_frame(uint8_t combination, uint8_t direction, uint8_t timeslot, uint32_t frame, const char *want)
{
	um_place place;
	uint32_t first;
	char made[32] = "-";
	uint8_t answer = um_place_frame(combination, direction, timeslot, frame, &place);

	if (answer == UM_PLACED)
		snprintf(made, sizeof(made), place.channel == UM_CCCH ? "%s.*.%d" : "%s.%d.%d", channels[place.channel],
			place.channel == UM_CCCH ? place.burst : place.subchannel, place.burst);
	check(answer != UM_NO_PLACE && !strcmp(made, want), "a frame's channel, subchannel and burst are those of osmo-bts");
	if (answer != UM_PLACED)
		return;
	check(place.first == frame - (combination == UM_TCH_F ? 26u : 1u) * place.burst
		|| frame < 26u * place.burst, "a block begins as many frames before as it has had bursts");
	check(um_next_block(combination, direction, timeslot, place.channel, place.subchannel, place.first, &first)
		&& first == place.first, "the next block from its first frame on is the block itself");
}

/* A line of the schedule, over two and a half cycles and in random frames. */
static void one_schedule(uint8_t combination, uint8_t direction, uint8_t timeslot, char *words)
{
	char *frames_of[104], *word;
	uint32_t count = 0;

	for (word = strtok(words, " \n"); word && count < 104; word = strtok(NULL, " \n"))
		frames_of[count++] = word;
	check(count == (combination == UM_TCH_F ? 104u : 102u), "a cycle has 102 frames, or 104");
	for (uint32_t frame = 0; count && frame < 5 * count / 2; frame++)
		one_frame(combination, direction, timeslot, frame, frames_of[frame % count]);
	for (int i = 0; count && i < RANDOM_FRAMES; i++) {
		uint32_t frame = (uint32_t)(((uint64_t)rand() << 16 ^ (uint64_t)rand()) % UM_FRAMES);
		one_frame(combination, direction, timeslot, frame, frames_of[frame % count]);
	}
}

static void schedule(const char *name)
{
	FILE *in = fopen(name, "r");
	char line[4096], *words[3];
	uint8_t combination;
	uint32_t first;
	um_place place;
	int count = 0;

	check(in != NULL, "the vectors of the schedule open");
	for (; in && fgets(line, sizeof(line), in); count++) {
		words[0] = line;
		words[1] = strchr(words[0], ' ') + 1;
		words[2] = strchr(words[1], ' ') + 1;
		words[1][-1] = 0;
		for (combination = 0; combination < 3 && strcmp(combinations[combination], line); combination++)
			;
		one_schedule(combination, words[1][0] == 'u', (uint8_t)atoi(words[2]), strchr(words[2], ' ') + 1);
	}
	check(count == 22, "the schedule has 22 lines");
	if (in)
		fclose(in);
	check(um_next_block(UM_SDCCH8, UM_DOWNLINK, 0, UM_SACCH, 5, 88, &first) && first == 102 + 87,
		"after frame 88, SACCH 5 of SDCCH/8 begins in frame 87 of the next two multiframes");
	check(um_next_block(UM_BCCH_CCCH, UM_DOWNLINK, 0, UM_BCCH, 0, UM_FRAMES - 1, &first) && first == 2, "after the last frame comes frame 0");
	check(!um_next_block(UM_BCCH_CCCH, UM_DOWNLINK, 0, UM_SDCCH, 0, 0, &first), "BCCH and CCCH have no SDCCH");
	check(um_place_frame(5, 0, 0, 0, &place) == UM_NO_PLACE && um_place_frame(0, 2, 0, 0, &place) == UM_NO_PLACE
		&& um_place_frame(0, 0, 8, 0, &place) == UM_NO_PLACE && um_place_frame(0, 0, 0, UM_FRAMES, &place) == UM_NO_PLACE,
		"numbers out of range have no place");
}

static void soften(uint8_t bits[4][148], int8_t soft[4][148])
{
	check(um_soft_from_bits(bits[0], soft[0], 592), "hard bits become soft bits");
}

static bool same_but_padding(const um_block_report *a, const um_block_report *b)
{
	return a->metric == b->metric && a->wrong_training == b->wrong_training && a->wrong_coded == b->wrong_coded && a->tsc == b->tsc
		&& a->accepted == b->accepted && !memcmp(a->octets, b->octets, 23) && !memcmp(a->word, b->word, 228);
}

/* Random noise in place of one burst: the block is lost to one word, and saved without that burst. */
static void erasing(void)
{
	uint8_t octets[23], bits[4][148];
	int8_t soft[4][148];
	um_block_report one, report;
	um_erasure erasure;
	uint32_t rank;
	int saved = 0, lost = 0;

	srand(61);
	for (int round = 0; round < 200; round++) {
		int bad = round % 4;
		for (int i = 0; i < 23; i++)
			octets[i] = (uint8_t)rand();
		check(um_send_block(octets, 3, bits), "a block is sent");
		soften(bits, soft);
		for (int i = 0; i < 148; i++)
			soft[bad][i] = rand() & 1 ? 127 : -127;
		check(um_receive_block((const int8_t (*)[148])soft, &one), "a block is received");
		check(um_receive_block_erasing((const int8_t (*)[148])soft, 1, 4, &report, &rank, &erasure), "a block is decoded with erasures");
		check(erasure.wrong_training[0] + erasure.wrong_training[1] + erasure.wrong_training[2] + erasure.wrong_training[3]
			== (int)one.wrong_training, "the wrong training bits of the bursts add up to those of the block");
		if (one.accepted)
			check(erasure.erased == 4 && same_but_padding(&one, &report), "an accepted block is reported as it is");
		else {
			lost++;
			saved += report.accepted && erasure.erased == bad;
		}
		check(!report.accepted || !memcmp(report.octets, octets, 23), "no block is accepted wrongly");
		check(um_receive_block_erasing((const int8_t (*)[148])soft, 1, 0, &report, &rank, &erasure) && same_but_padding(&one, &report)
			&& erasure.erased == 4, "without erasures the report is um_receive_block's");
	}
	check(lost >= 100 && saved == lost, "each block with a burst of noise is saved without that burst");
	check(!um_receive_block_erasing((const int8_t (*)[148])soft, 1, 5, &report, &rank, &erasure), "five erasures are refused");
	uint8_t tsc, wrong[4];
	check(um_detect_training((const int8_t (*)[148])soft, &tsc, wrong) && tsc == 3 && !memcmp(wrong, erasure.wrong_training, 4),
		"the training sequence is detected without decoding");
}

/* SDCCH/8 subchannel 2 and its SACCH, with a burst that never came, and refusals. */
static void slots(void)
{
	uint8_t octets[23] = { 1, 2, 3 }, bits[4][148];
	int8_t soft[4][148];
	um_slot slot, before;
	um_slot_block block;
	um_block_report report;

	check(!um_slot_new(&slot, 5, 0, 0, 1, 0) && !um_slot_new(&slot, UM_TCH_H, 0, 0, 1, 0)
		&& !um_slot_new(&slot, 2, 2, 0, 1, 0) && !um_slot_new(&slot, 2, 0, 8, 1, 0)
		&& !um_slot_new(&slot, 2, 0, 0, 0, 0) && !um_slot_new(&slot, 2, 0, 0, 65, 0) && !um_slot_new(&slot, 2, 0, 0, 1, 5),
		"numbers out of range make no receiver");
	check(um_slot_new(&slot, UM_SDCCH8, UM_DOWNLINK, 3, 1, 0), "a receiver is made");
	check(um_send_block(octets, 5, bits), "a block is sent");
	soften(bits, soft);
	for (uint32_t i = 0; i < 4; i++)
		check(um_slot_take(&slot, 510 + 8 + i, soft[i], &block) == (i == 3 ? UM_SLOT_BLOCK : UM_SLOT_TAKEN), "four bursts make a block");
	check(um_receive_block((const int8_t (*)[148])soft, &report), "a block is received");
	check(block.channel == UM_SDCCH && block.subchannel == 2 && block.first == 518 && block.heard == 4 && block.rank == 1
		&& same_but_padding(&block.report, &report) && report.accepted && !memcmp(report.octets, octets, 23),
		"the block is SDCCH 2's, and its report um_receive_block's");
	before = slot;
	check(um_slot_take(&slot, 521, soft[0], &block) == UM_SLOT_DOUBLED && um_slot_take(&slot, 520, soft[0], &block) == UM_SLOT_LATE
		&& um_slot_take(&slot, UM_FRAMES, soft[0], &block) == UM_SLOT_NO_FRAME && !memcmp(&slot, &before, sizeof(slot)),
		"frames doubled, late or past the hyperframe change nothing");
	int8_t worst[148] = { -128 };
	check(um_slot_take(&slot, 522, worst, &block) == UM_SLOT_NO_SOFT && !memcmp(&slot, &before, sizeof(slot)), "nor does a soft bit of -128");
	/* the second and the fourth burst of SACCH 0 never come: the block ends with the next frame taken */
	check(um_slot_take(&slot, 510 + 32, soft[0], &block) == UM_SLOT_TAKEN && um_slot_miss(&slot, 510 + 33, &block) == UM_SLOT_TAKEN
		&& um_slot_take(&slot, 510 + 34, soft[2], &block) == UM_SLOT_TAKEN && um_slot_take(&slot, 510 + 36, soft[0], &block) == UM_SLOT_BLOCK,
		"a later frame ends a block");
	memset(soft[1], 0, 148);
	memset(soft[3], 0, 148);
	check(um_receive_block((const int8_t (*)[148])soft, &report), "a block is received");
	check(block.channel == UM_SACCH && block.subchannel == 0 && block.first == 542 && block.heard == 2
		&& same_but_padding(&block.report, &report), "its report is of the bursts that came and zeros");
	check(slot.first == 546 && slot.heard == 1, "the later frame begins its own block");
	slot.words = 0;
	check(um_slot_miss(&slot, 600, &block) == UM_SLOT_NONE, "a state with no words to try is not valid");
	/* across the end of the hyperframe */
	check(um_slot_new(&slot, UM_BCCH_CCCH, UM_DOWNLINK, 0, 1, 0) && um_slot_miss(&slot, UM_FRAMES - 1, &block) == UM_SLOT_TAKEN
		&& um_slot_miss(&slot, 0, &block) == UM_SLOT_TAKEN && um_slot_miss(&slot, UM_FRAMES - 1, &block) == UM_SLOT_LATE,
		"frame 0 follows the last of the hyperframe");
}

/* A receiver that begins again, one whose recording ends, and one with a limit. */
static void restarted_ended_limited(void)
{
	static const uint8_t octets[23] = { 3, 3, 1, 0x2b };
	uint8_t bits[4][148];
	int8_t soft[4][148];
	um_slot slot, before;
	um_slot_block block;
	um_erasure erasure;
	um_block_report report;
	uint32_t rank;
	int limited = 0, tried = 0;

	check(um_send_block(octets, 2, bits), "a block is sent");
	soften(bits, soft);
	check(um_slot_new(&slot, UM_SDCCH8, UM_DOWNLINK, 1, 64, 4) && slot.limit == 78, "a receiver has no limit at first");
	slot.limit = 18;
	/* one false frame number, and all true frames are late */
	check(um_slot_miss(&slot, 51000, &block) == UM_SLOT_TAKEN && um_slot_take(&slot, 8, soft[0], &block) == UM_SLOT_LATE, "a late frame");
	check(um_slot_restart(&slot) && slot.last == UM_FRAMES && slot.first == UM_FRAMES && slot.heard == 0 && slot.words == 64
		&& slot.erasures == 4 && slot.limit == 18 && slot.combination == UM_SDCCH8 && slot.timeslot == 1, "the settings stay");
	for (uint32_t i = 0; i < 3; i++)
		check(um_slot_take(&slot, 8 + i, soft[i], &block) == UM_SLOT_TAKEN, "frames after it are taken");
	check(um_slot_end(&slot, &block) == UM_SLOT_BLOCK && block.first == 8 && block.heard == 3 && block.subchannel == 2
		&& block.report.accepted && !memcmp(block.report.octets, octets, 23), "the last block of a recording is ended at once");
	before = slot;
	check(um_slot_end(&slot, &block) == UM_SLOT_TAKEN && !memcmp(&slot, &before, sizeof slot), "then there is none");
	slot.limit = 79;
	before = slot;
	check(um_slot_end(&slot, &block) == UM_SLOT_NONE && !um_slot_restart(&slot) && !memcmp(&slot, &before, sizeof slot),
		"a limit of 79 is none");
	/* with a limit each report is that of one word, or of all, by the three best bursts */
	srand(78);
	for (int round = 0; round < 400; round++) {
		int three = 0, worst = 0;
		check(um_slot_new(&slot, UM_SDCCH8, UM_DOWNLINK, 1, 16, 2), "a receiver");
		slot.limit = (uint8_t)(rand() % 40);
		soften(bits, soft);
		for (int b = 0; b < 4; b++)
			for (int i = 0; i < 148; i++)
				if (rand() % 100 < round % 40)
					soft[b][i] = (int8_t)-soft[b][i];
		for (uint32_t i = 0; i < 4; i++)
			check(um_slot_take(&slot, i, soft[i], &block) == (i == 3 ? UM_SLOT_BLOCK : UM_SLOT_TAKEN), "four bursts make a block");
		for (int b = 0; b < 4; b++) {
			three += block.erasure.wrong_training[b];
			worst = block.erasure.wrong_training[b] > worst ? block.erasure.wrong_training[b] : worst;
		}
		bool all = three - worst <= slot.limit;
		check(um_receive_block_erasing((const int8_t (*)[148])soft, all ? 16 : 1, all ? 2 : 0, &report, &rank, &erasure)
			&& same_but_padding(&block.report, &report) && block.rank == rank && !memcmp(&block.erasure, &erasure, sizeof erasure),
			"words and erasures are tried if the three best bursts have few wrong training bits");
		limited += !all;
		tried += all && (rank > 1 || erasure.erased < 4);
	}
	check(limited > 20 && tried > 5, "both come about");
}

/* SACCH of TCH/F, time slot 0: its bursts are in frames 12, 38, 64 and 90 of 104, with frames of traffic between them */
static void traffic_between(void)
{
	static const uint8_t octets[23] = { 0, 0, 3, 3, 1, 0x2b };
	uint8_t bits[4][148];
	int8_t soft[4][148], noise[148];
	um_slot slot;
	um_slot_block block;
	uint32_t frame;
	int blocks = 0;

	memset(noise, 77, sizeof noise);
	check(um_send_block(octets, 3, bits) && um_soft_from_bits(bits[0], soft[0], 592), "a block of SACCH");
	check(um_slot_new(&slot, UM_TCH_F, UM_DOWNLINK, 0, 1, 0), "a time slot with TCH/F");
	for (frame = 0; frame < 104; frame++) {
		bool sacch = frame % 26 == 12;
		if (um_slot_take(&slot, frame, sacch ? soft[frame / 26] : noise, &block) == UM_SLOT_BLOCK) {
			blocks++;
			check(frame == 90 && block.channel == UM_SACCH && block.first == 12 && block.heard == 4 && block.report.accepted
				&& memcmp(block.report.octets, octets, 23) == 0, "the block of SACCH between frames of traffic");
		}
	}
	check(blocks == 1, "one block of SACCH in 104 frames of TCH/F");
}

static void soft_bits(void)
{
	static const int8_t sbits[3] = { -128, 0, 127 };
	static const uint8_t octets[5] = { 0, 127, 128, 254, 255 }, bits[2] = { 1, 2 };
	static const float llrs[6] = { 0.3f, -0.3f, 100.0f, -100.0f, 0.125f, -0.375f };
	int8_t soft[6];

	um_soft_from_sbits(sbits, soft, 3);
	check(soft[0] == -127 && soft[1] == 0 && soft[2] == 127, "libosmocore's soft bits");
	um_soft_from_trx(octets, soft, 5);
	check(soft[0] == 127 && soft[1] == 0 && soft[2] == -1 && soft[3] == -127 && soft[4] == -127, "octets of the TRX protocol");
	soft[0] = 9;
	check(!um_soft_from_bits(bits, soft, 2) && soft[0] == 9, "a bit of 2 is refused");
	check(um_soft_from_llr(llrs, UM_LLR_SCALE, soft, 6) && soft[0] == 1 && soft[1] == -1 && soft[2] == 127 && soft[3] == -127
		&& soft[4] == 0 && soft[5] == -2, "logarithms of likelihood ratios, halves rounded to even, and limited");
	static const float halves[8] = { 1.5f, 2.5f, -1.5f, -2.5f, 126.5f, -126.5f, INFINITY, -INFINITY };
	static const int8_t even[8] = { 2, 2, -2, -2, 126, -126, 127, -127 };
	int8_t rounded[8];
	check(um_soft_from_llr(halves, 1, rounded, 8) && !memcmp(rounded, even, 8), "halves to even, and infinities");
	check(!um_soft_from_llr(halves, 0, rounded, 8) && !um_soft_from_llr(halves, INFINITY, rounded, 8)
		&& !um_soft_from_llr(halves, NAN, rounded, 8) && !memcmp(rounded, even, 8), "a scale of 0 or without end is refused");
	const float once[1] = {-15}; /* -15 times the float 3.3 is -49.4999993, and -49.5 as a float */
	check(um_soft_from_llr(once, 3.3f, rounded, 1) && rounded[0] == -49, "rounded once");
	check(um_soft_from_llr(llrs, -10, soft, 2) && soft[0] == -3 && soft[1] == 3, "a negative scale for numbers that are positive for a 1");
	float none[2] = { 1, NAN };
	soft[0] = 9;
	check(!um_soft_from_llr(none, 4, soft, 2) && soft[0] == 9, "what is not a number is refused");
}

int main(int argc, char **argv)
{
	if (argc != 3)
		return 2;
	frames(argv[1]);
	access_numbers();
	synchronisation();
	schedule(argv[2]);
	erasing();
	slots();
	restarted_ended_limited();
	traffic_between();
	soft_bits();
	return failed;
}
