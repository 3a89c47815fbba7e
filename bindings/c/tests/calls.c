/* Tests each call of um.h on worked values, its refusals, and that it writes nothing beyond what the header states.
 *
 *   calls CODE.IN CODE.OUT      the repository's vectors, made by libosmocoding */
#include "um.h"
#include <stddef.h>
#include <stdio.h>
#include <stdlib.h>
#include <string.h>

static int failed;

static void check(bool holds, const char *what)
{
	if (!holds) {
		printf("library: %s\n", what);
		failed = 1;
	}
}

typedef uint8_t block_bursts[4][148], access_burst[88], sync_burst[148], block_octets[23], b4_octets[19];

/* A value with sixteen marked octets on either side. */
#define ROOM(type) struct { uint8_t before[16]; type value; uint8_t after[16]; }
#define MARK(room) memset(&(room), 0xa5, sizeof(room))
static bool is_marked(const void *memory, size_t count)
{
	for (size_t i = 0; i < count; i++)
		if (((const uint8_t *)memory)[i] != 0xa5)
			return false;
	return true;
}
#define AROUND(room) (is_marked((room).before, 16) && is_marked((room).after, 16))
#define UNTOUCHED(room) is_marked(&(room), sizeof(room))

static void soften(const uint8_t *bits, int8_t *soft, int count)
{
	for (int i = 0; i < count; i++)
		soft[i] = bits[i] ? -127 : 127;
}

static void version(void)
{
	unsigned long major, minor, patch;

	check(sscanf(UM_VERSION, "%lu.%lu.%lu", &major, &minor, &patch) == 3
		&& um_version() == 1000000 * major + 1000 * minor + patch, "the version of the library is that of its header");
	check(um_version() == UM_VERSION_NUMBER, "the header has the version as the same number");
}

static void blocks(void)
{
	/* the network's fill frame: its CRC is 2c4e540233 */
	uint8_t octets[23] = { 0x03, 0x03, 0x01 };
	static const uint8_t crc[5] = { 0x2c, 0x4e, 0x54, 0x02, 0x33 };
	ROOM(block_bursts) sent;
	ROOM(um_block_report) report;
	int8_t soft[4][148];

	memset(octets + 3, 0x2b, 20);
	MARK(sent);
	check(!um_send_block(octets, 8, sent.value) && UNTOUCHED(sent), "a training sequence of 8 is refused, and nothing is written");
	check(um_send_block(octets, 7, sent.value) && AROUND(sent), "a block is encoded, and nothing but its bursts is written");
	soften(sent.value[0], soft[0], 592);
	soft[1][10] *= -1;
	soft[1][20] *= -1;
	soft[1][30] *= -1;
	MARK(report);
	check(um_receive_block((const int8_t (*)[148])soft, &report.value) && AROUND(report), "a block is decoded");
	check(report.value.metric == 57150 && report.value.wrong_training == 0 && report.value.wrong_coded == 3 && report.value.tsc == 7
		&& report.value.accepted == 1 && !memcmp(report.value.octets, octets, 23), "the report of three wrong bits");
	for (int i = 0; i < 224; i++) {
		uint8_t octet = i < 184 ? octets[i / 8] : crc[(i - 184) / 8];
		check(report.value.word[i] == (octet >> i % 8 & 1), "the word of the report is the data and the CRC");
	}
	check(!report.value.word[224] && !report.value.word[225] && !report.value.word[226] && !report.value.word[227], "the tail");
	soft[3][147] = -128;
	ROOM(um_block_report) refused;
	MARK(refused);
	check(!um_receive_block((const int8_t (*)[148])soft, &refused.value) && UNTOUCHED(refused), "a value of -128 is refused");
	ROOM(um_margin_report) margin;
	MARK(margin);
	check(!um_margin_block((const int8_t (*)[148])soft, &margin.value) && UNTOUCHED(margin), "a value of -128 is refused");
	soft[3][147] = 127;
	check(um_margin_block((const int8_t (*)[148])soft, &margin.value) && AROUND(margin) && margin.value.margin >= 254
		&& !memcmp(margin.value.word, report.value.word, 228), "three wrong bits leave a margin of at least 254");
	soften(sent.value[0], soft[0], 592);
	check(um_margin_block((const int8_t (*)[148])soft, &margin.value) && margin.value.margin == 7 * 254,
		"the next word differs in seven coded bits");
	memset(soft, 0, sizeof soft);
	check(um_margin_block((const int8_t (*)[148])soft, &margin.value) && margin.value.margin == 0 && margin.value.word[223] == 0
		&& margin.value.next[223] == 1, "four lost bursts have margin 0, and the next word has a 1 as its last free bit");
	check(um_receive_block((const int8_t (*)[148])soft, &report.value) && !report.value.accepted && report.value.metric == 0
		&& report.value.wrong_training == 104 && report.value.wrong_coded == 456 && report.value.octets[0] == 0, "four lost bursts");
}

/* The codeword sent and a neighbour differ in seven coded bits, of which four are received as the neighbour has them. So the neighbour
 * is the likelier by one bit, and the word that was sent is the second. */
static void among(void)
{
	static const uint8_t places[4][2] = { { 0, 3 }, { 0, 131 }, { 1, 115 }, { 1, 129 } };
	uint8_t octets[23] = { 0x03, 0x03, 0x01 }, sent[4][148];
	ROOM(um_block_report) report;
	ROOM(uint32_t) rank;
	um_block_report alone;
	int8_t soft[4][148];

	memset(octets + 3, 0x2b, 20);
	check(um_send_block(octets, 7, sent), "a block is encoded");
	soften(sent[0], soft[0], 592);
	for (int i = 0; i < 4; i++)
		soft[places[i][0]][places[i][1]] *= -1;
	MARK(report);
	MARK(rank);
	check(!um_receive_block_among((const int8_t (*)[148])soft, 0, &report.value, &rank.value) && UNTOUCHED(report) && UNTOUCHED(rank),
		"a list of 0 words is refused");
	check(!um_receive_block_among((const int8_t (*)[148])soft, 65, &report.value, &rank.value) && UNTOUCHED(report) && UNTOUCHED(rank),
		"a list of 65 words is refused");
	soft[3][147] = -128;
	check(!um_receive_block_among((const int8_t (*)[148])soft, 64, &report.value, &rank.value) && UNTOUCHED(report) && UNTOUCHED(rank),
		"a value of -128 is refused");
	soft[3][147] = sent[3][147] ? -127 : 127;
	check(um_receive_block_among((const int8_t (*)[148])soft, 1, &report.value, &rank.value) && AROUND(report) && AROUND(rank)
		&& rank.value == 1 && !report.value.accepted && report.value.metric == 57150, "the CRC of the most likely word does not match");
	check(um_receive_block((const int8_t (*)[148])soft, &alone) && alone.metric == 57150 && alone.wrong_coded == 3
		&& !alone.accepted && !memcmp(alone.word, report.value.word, 228), "and the word is that of um_receive_block");
	for (uint32_t most = 2; most <= 64; most += 31)
		check(um_receive_block_among((const int8_t (*)[148])soft, most, &report.value, &rank.value) && AROUND(report) && AROUND(rank)
			&& rank.value == 2 && report.value.accepted && !memcmp(report.value.octets, octets, 23) && report.value.metric == 56896
			&& report.value.wrong_coded == 4 && report.value.tsc == 7 && report.value.wrong_training == 0, "the second word is the one sent");
	memset(soft, 0, sizeof soft);
	check(um_receive_block_among((const int8_t (*)[148])soft, 64, &report.value, &rank.value) && rank.value == 1 && !report.value.accepted
		&& report.value.metric == 0 && report.value.word[223] == 0, "four lost bursts stay lost");
}

static void repairs(void)
{
	/* 23 octets of zeros have a CRC of 40 ones */
	uint8_t word[224] = { 0 };
	ROOM(um_repair_report) report;

	memset(word + 184, 1, 40);
	MARK(report);
	check(um_repair(word, &report.value) == UM_HOLDS && UNTOUCHED(report), "a word whose CRC holds");
	word[184] = 0, word[195] = 0;
	check(um_repair(word, &report.value) == UM_REPAIRED && AROUND(report) && report.value.first == 184 && report.value.span == 12
		&& report.value.word[184] == 1 && report.value.word[195] == 1 && report.value.word[0] == 0, "an error burst of twelve bits");
	word[192] = 0, word[195] = 1, word[200] = 0;
	MARK(report);
	check(um_repair(word, &report.value) == UM_NO_REPAIR && UNTOUCHED(report), "three wrong bits too far apart");
	word[0] = 2;
	check(um_repair(word, &report.value) == UM_NO_BITS && UNTOUCHED(report), "an octet that is not a bit");
}

static void bursts(void)
{
	static const uint8_t zeros[25], ones[6] = { 1, 1, 1, 1, 1, 1 }, bad[25] = { 0, 0, 2 };
	ROOM(access_burst) access;
	ROOM(sync_burst) sync;
	ROOM(um_access_report) access_report;
	ROOM(um_sync_report) sync_report;
	int8_t soft[148];
	char digits[89];

	MARK(access);
	check(!um_send_access(bad, ones, access.value) && UNTOUCHED(access), "a bit of 2 is refused");
	check(!um_send_access(zeros, bad, access.value) && UNTOUCHED(access), "a code with a 2 is refused");
	check(um_send_access(zeros, zeros, access.value) && AROUND(access), "an access burst is encoded");
	for (int i = 0; i < 88; i++)
		digits[i] = '0' + access.value[i];
	digits[88] = 0;
	check(!strcmp(digits, "0011101001001011011111111001100110101010001111000000000000000000011101001101001000011000"), "the access burst");
	soften(access.value, soft, 88);
	MARK(access_report);
	check(um_receive_access(soft, zeros, &access_report.value) && AROUND(access_report) && access_report.value.accepted == 1
		&& access_report.value.metric == 4572 && access_report.value.wrong_training == 0 && access_report.value.wrong_coded == 0
		&& !memcmp(access_report.value.info, zeros, 8) && access_report.value.word[8] == 1, "the access burst is decoded");
	check(um_receive_access(soft, ones, &access_report.value) && !access_report.value.accepted, "it is not accepted for another code");
	MARK(access_report);
	check(!um_receive_access(soft, bad, &access_report.value) && UNTOUCHED(access_report), "a code with a 2 is refused");
	soft[0] = -128;
	check(!um_receive_access(soft, ones, &access_report.value) && UNTOUCHED(access_report), "a value of -128 is refused");

	MARK(sync);
	check(!um_send_sync(bad, sync.value) && UNTOUCHED(sync), "a bit of 2 is refused");
	check(um_send_sync(zeros, sync.value) && AROUND(sync), "a synchronisation burst is encoded");
	soften(sync.value, soft, 148);
	soft[3] = 0;
	MARK(sync_report);
	check(um_receive_sync(soft, &sync_report.value) && AROUND(sync_report) && sync_report.value.accepted == 1
		&& sync_report.value.metric == 9906 - 127 && sync_report.value.wrong_training == 0 && sync_report.value.wrong_coded == 1
		&& !memcmp(sync_report.value.info, zeros, 25)
		&& sync_report.value.word[25] == 1, "the synchronisation burst is decoded");
	soft[147] = -128;
	MARK(sync_report);
	check(!um_receive_sync(soft, &sync_report.value) && UNTOUCHED(sync_report), "a value of -128 is refused");
}

/* The first octets of a block, filled up to 23, and the expected reading. */
static const struct { uint8_t first[3], fill; uint8_t answer; um_frame frame; } readings[] = {
	{ { 0x01, 0x03, 0x01 }, 0x2b, UM_FRAME, { .kind = UM_UI } },
	{ { 0x03, 0x03, 0x01 }, 0xff, UM_FRAME, { .kind = UM_UI, .cr = 1 } },
	{ { 0x03, 0x75, 0x01 }, 0x2b, UM_FRAME, { .kind = UM_RNR, .cr = 1, .nr = 3, .pf = 1 } },
	{ { 0x49, 0x06, 0x1b }, 0x00, UM_LPD, { 0 } },     { { 0x00, 0x00, 0x00 }, 0x00, UM_EA, { 0 } },
	{ { 0x01, 0x0d, 0x01 }, 0x2b, UM_CONTROL, { 0 } }, { { 0x01, 0x03, 0x00 }, 0x2b, UM_EL, { 0 } },
	{ { 0x01, 0x00, 0x55 }, 0x2b, UM_LENGTH, { 0 } },  { { 0x01, 0x01, 0x05 }, 0x2b, UM_LENGTH, { 0 } },
	{ { 0x01, 0x00, 0x01 }, 0x2b, UM_EMPTY, { 0 } },   { { 0x01, 0x03, 0x03 }, 0x2b, UM_MORE, { 0 } },
};

static void frames(void)
{
	ROOM(um_frame) frame;
	ROOM(block_octets) octets;
	uint8_t block[23];

	for (size_t i = 0; i < sizeof readings / sizeof *readings; i++) {
		memset(block, readings[i].fill, 23);
		memcpy(block, readings[i].first, 3);
		MARK(frame);
		check(um_read_frame(block, UM_SDCCH, &frame.value) == readings[i].answer, "the reading of a block");
		if (readings[i].answer == UM_FRAME)
			check(AROUND(frame) && !memcmp(&frame.value, &readings[i].frame, sizeof frame.value), "the fields of a frame");
		else
			check(UNTOUCHED(frame), "a refusal writes nothing");
	}
	check(um_read_frame(block, 2, &frame.value) == UM_NO_CHANNEL && UNTOUCHED(frame), "there is no channel 2");

	um_frame i_frame = { .kind = UM_I, .pf = 1, .ns = 5, .nr = 2, .count = 2, .info = { 0x06, 0x01 } };
	static const uint8_t written[5] = { 0x01, 0x5a, 0x09, 0x06, 0x01 };
	MARK(octets);
	check(um_write_frame(&i_frame, UM_SDCCH, octets.value) && AROUND(octets) && !memcmp(octets.value, written, 5)
		&& octets.value[5] == 0x2b && octets.value[22] == 0x2b, "an I frame is written");
	check(um_write_frame(&i_frame, UM_SACCH, octets.value) && octets.value[0] == 0 && octets.value[1] == 0
		&& !memcmp(octets.value + 2, written, 5) && octets.value[22] == 0x2b, "an I frame is written on SACCH");
	check(um_read_frame(octets.value, UM_SACCH, &frame.value) == UM_FRAME && !memcmp(&frame.value, &i_frame, sizeof i_frame), "and read back");
	MARK(octets);
	um_frame wrong[] = { i_frame, i_frame, i_frame, i_frame, i_frame, i_frame, i_frame };
	wrong[0].kind = 9, wrong[1].sapi = 8, wrong[2].ns = 8, wrong[3].nr = 8, wrong[4].count = 21, wrong[5].count = 0;
	wrong[6].kind = UM_RR; /* carries no information */
	for (int i = 0; i < 7; i++)
		check(!um_write_frame(&wrong[i], UM_SDCCH, octets.value) && UNTOUCHED(octets), "fields that describe no frame are refused");
	i_frame.count = 19;
	check(!um_write_frame(&i_frame, UM_SACCH, octets.value) && UNTOUCHED(octets), "19 octets do not fit on SACCH");
	check(!um_write_frame(&i_frame, 2, octets.value) && UNTOUCHED(octets), "there is no channel 2");
}

/* System information 6 by 3GPP TS 44.018, 9.1.40: L2 pseudo length 11, cell identity, location area, cell options, NCC permitted, rest octets;
 * in a block of SACCH with layer 1 octets 05 03. */
static const uint8_t si6_block[23] = {
	0x05, 0x03, 0x03, 0x03,
	0x2d, 0x06, 0x1e, 0x00, 0x01, 0x62, 0xf2, 0x10, 0x00, 0x01, 0x05, 0xff, 0x8b, 0x2b, 0x2b, 0x2b, 0x2b, 0x2b, 0x2b,
};

static void format_b4(void)
{
	ROOM(b4_octets) info;
	ROOM(block_octets) octets;
	uint8_t block[23];

	MARK(info);
	check(um_read_b4(si6_block, info.value) && AROUND(info) && !memcmp(info.value, si6_block + 4, 19), "system information 6 is read whole");
	MARK(octets);
	um_write_b4(si6_block, si6_block + 4, octets.value);
	check(AROUND(octets) && !memcmp(octets.value, si6_block, 23), "and written");

	memcpy(block, si6_block, 23);
	block[3] = 0x13;
	check(um_read_b4(block, info.value), "with P = 1");
	MARK(info);
	static const struct { uint8_t place, octet; } others[] = { { 2, 0x01 }, { 2, 0x0f }, { 2, 0x83 }, { 2, 0x02 }, { 3, 0x01 }, { 3, 0x3f }, { 3, 0x23 } };
	for (size_t i = 0; i < sizeof others / sizeof *others; i++) {
		memcpy(block, si6_block, 23);
		block[others[i].place] = others[i].octet;
		check(!um_read_b4(block, info.value) && UNTOUCHED(info), "another frame is none of format B4");
	}

	um_frame si5 = { .kind = UM_UI, .cr = 1, .count = 18, .info = { 0x06, 0x1d } };
	check(um_write_frame(&si5, UM_SACCH, block) && um_read_b4(block, info.value) && info.value[0] == 0x49 && info.value[2] == 0x1d,
		"a length octet of 18 octets is the L2 pseudo length of system information 5");
}

static void read_bits(const char *digits, uint8_t *bits, int count)
{
	for (int i = 0; i < count; i++)
		bits[i] = digits[i] == '1';
}

static void same_line(FILE *out, const char *form, const char *code, const uint8_t *bits, int count)
{
	char wanted[400], line[400];
	int at = sprintf(wanted, form, code);
	for (int i = 0; i < count; i++)
		wanted[at++] = '0' + bits[i];
	strcpy(wanted + at, "\n");
	check(fgets(line, sizeof line, out) && !strcmp(line, wanted), "a burst of the vectors");
}

static int vectors(const char *from, const char *to)
{
	FILE *in = fopen(from, "r"), *out = fopen(to, "r");
	char line[400], first[64], second[64];
	int count = 0;

	if (!in || !out)
		return -1;
	for (; fgets(line, sizeof line, in); count++) {
		unsigned tsc, octet;
		uint8_t octets[23], info[25], bsic[6], burst[4][148];
		if (sscanf(line, "block %u %63s", &tsc, first) == 2) {
			for (int i = 0; i < 23; i++)
				octets[i] = sscanf(first + 2 * i, "%2x", &octet) == 1 ? (uint8_t)octet : 0;
			check(um_send_block(octets, (uint8_t)tsc, burst), "a block of the vectors");
			for (int b = 0; b < 4; b++)
				same_line(out, "n %s", "", burst[b], 148);
		} else if (sscanf(line, "rach %63s %63s", first, second) == 2) {
			read_bits(first, info, 8);
			read_bits(second, bsic, 6);
			check(um_send_access(info, bsic, burst[0]), "an access burst of the vectors");
			same_line(out, "a %s ", second, burst[0], 88);
		} else if (sscanf(line, "sch %63s", first) == 1) {
			read_bits(first, info, 25);
			check(um_send_sync(info, burst[0]), "a synchronisation burst of the vectors");
			same_line(out, "s %s", "", burst[0], 148);
		}
	}
	fclose(in);
	fclose(out);
	return count;
}

int main(int argc, char **argv)
{
	int count = argc == 3 ? vectors(argv[1], argv[2]) : 0;
	check(count >= 0, "the vectors are missing");
	version();
	blocks();
	among();
	repairs();
	bursts();
	frames();
	format_b4();
	if (!failed)
		printf("library: each call from C behaves as the header states; %d vectors\n", count);
	return failed;
}
