/* Tests the calls for FACCH: recorded blocks, what they write and what they refuse.
 *
 *   facch FACCH.OUT      52 blocks of osmo-bts with the bursts that carried them, and their octets by libosmocoding */
#include "um.h"
#include <stdio.h>
#include <stdlib.h>
#include <string.h>

static int failed;

static void check(bool holds, const char *what)
{
	if (!holds) {
		printf("library: %s\n", what);
		failed = 1;
	}
}

/* The bursts of a block, at full or half rate. */
struct bursts {
	bool half_rate;
	int count;
	uint8_t bits[8][148];
	int8_t soft[8][148];
};

static bool steal(const uint8_t block[4][148], struct bursts *bursts)
{
	return bursts->half_rate ? um_steal_facch_h(block, bursts->bits) : um_steal_facch_f(block, bursts->bits);
}

static bool join(const struct bursts *bursts, int8_t block[4][148])
{
	return bursts->half_rate ? um_join_facch_h((const int8_t (*)[148])bursts->soft, block)
		: um_join_facch_f((const int8_t (*)[148])bursts->soft, block);
}

static void soften(struct bursts *bursts)
{
	for (int b = 0; b < bursts->count; b++)
		for (int p = 0; p < 148; p++)
			bursts->soft[b][p] = bursts->bits[b][p] ? -127 : 127;
}

/* Whether a burst of a block holds bits of another one, by the standard's rule: the odd-numbered coded bits and hl of the bursts before the
 * last two or four, the even-numbered ones and hu of those after the first four. */
static bool is_of_another(const struct bursts *bursts, int b, int p)
{
	if (p < 3 || (p > 60 && p < 87) || p > 144)
		return false;
	return p % 2 ? b >= 4 : b < (bursts->half_rate ? 2 : 4);
}

static bool receive(const struct bursts *bursts, uint32_t most, uint8_t erasures, um_block_report *report, uint32_t *rank,
	um_facch_erasure *erasure)
{
	return bursts->half_rate ? um_receive_facch_h_erasing((const int8_t (*)[148])bursts->soft, most, erasures, report, rank, erasure)
		: um_receive_facch_f_erasing((const int8_t (*)[148])bursts->soft, most, erasures, report, rank, erasure);
}

static int saved;

/* A recorded block, of which one burst comes inverted, strong but for its training bits, and the others weak: erased, it does no harm */
static void erasing(const struct bursts *air, const uint8_t octets[23])
{
	struct bursts bursts = *air;
	um_block_report report;
	um_facch_erasure erasure;
	uint32_t rank = 0;

	soften(&bursts);
	check(receive(&bursts, 1, (uint8_t)bursts.count, &report, &rank, &erasure) && report.accepted && !memcmp(report.octets, octets, 23)
		&& rank == 1 && report.metric == 57912 && report.tsc == 5 && !report.wrong_training && !report.wrong_coded && erasure.erased == 8,
		"a block received as sent is erased in no burst");
	for (int lost = 0; lost < bursts.count; lost++) {
		for (int b = 0; b < bursts.count; b++)
			for (int p = 0; p < 148; p++)
				bursts.soft[b][p] = (int8_t)((air->bits[b][p] == (b == lost) ? 1 : -1) * (b == lost && (p < 61 || p > 86) ? 127 : 10));
		check(receive(&bursts, 1, 1, &report, &rank, &erasure) && report.accepted && !memcmp(report.octets, octets, 23)
			&& report.tsc == 5 && report.wrong_training == 26 && (erasure.erased == lost || erasure.erased == 8),
			"a block is received without its inverted burst");
		for (int b = 0; b < 8; b++)
			check(erasure.wrong_training[b] == (b == lost ? 26 : 0), "the wrong training bits of each burst");
		saved += erasure.erased == lost;
	}
}

/* A recorded block: received, and written into bursts of other bits */
static void recorded(const struct bursts *air, const uint8_t octets[23])
{
	struct bursts bursts = *air;
	uint8_t block[4][148];
	int8_t joined[4][148];
	um_block_report report;
	int32_t sum = 0;
	uint8_t wrong = 9;

	soften(&bursts);
	check(join(&bursts, joined) && um_receive_block((const int8_t (*)[148])joined, &report) && report.accepted
		&& !memcmp(report.octets, octets, 23) && report.metric == 57912 && !report.wrong_training && report.tsc == 5, "a recorded block");
	check(um_stealing_flags((const int8_t (*)[148])joined, &sum, &wrong) && sum == -1016 && !wrong, "its stealing flags");
	for (int other = 0; other < 2; other++) {
		memset(bursts.bits, other, sizeof bursts.bits);
		if (!um_send_block(octets, 5, block) || !steal((const uint8_t (*)[148])block, &bursts)) {
			check(false, "a block is written");
			return;
		}
		for (int b = 0; b < bursts.count; b++)
			for (int p = 0; p < 148; p++)
				if (bursts.bits[b][p] != (is_of_another(&bursts, b, p) ? other : air->bits[b][p])) {
					check(false, "a block is written as osmo-bts does, and nothing else");
					return;
				}
	}
}

static int recordings(const char *path)
{
	char line[512];
	struct bursts bursts = { 0 };
	uint8_t octets[23];
	int count = 0, read = 0;
	FILE *file = fopen(path, "r");

	if (!file)
		return 0;
	while (fgets(line, sizeof line, file)) {
		char channel[8], digits[47];
		if (sscanf(line, "block %7s %*d %46s", channel, digits) == 2) {
			memset(&bursts, 0, sizeof bursts);
			bursts.half_rate = !strncmp(channel, "half", 4);
			bursts.count = bursts.half_rate ? 6 : 8;
			read = 0;
			for (int i = 0; i < 23; i++) {
				char octet[3] = { digits[2 * i], digits[2 * i + 1], 0 };
				octets[i] = (uint8_t)strtoul(octet, NULL, 16);
			}
		} else if (line[0] != '#' && read < bursts.count) {
			const char *bits = strchr(line, ' ');
			for (int p = 0; bits && p < 148; p++)
				bursts.bits[read][p] = bits[1 + p] == '1';
			if (++read == bursts.count) {
				recorded(&bursts, octets);
				erasing(&bursts, octets);
				count++;
			}
		}
	}
	fclose(file);
	return count;
}

static void flags(void)
{
	int8_t block[4][148] = { { 0 } };
	int32_t sum = 7;
	uint8_t wrong = 9;
	for (int b = 0; b < 4; b++) {
		block[b][60] = 127;
		block[b][87] = (int8_t)(b < 3 ? -100 : 0);
		block[b][59] = block[b][61] = block[b][86] = block[b][88] = -1; /* neighbours that are no flags */
	}
	check(um_stealing_flags((const int8_t (*)[148])block, &sum, &wrong) && sum == 4 * 127 - 300 && wrong == 5, "five flags do not say FACCH");
	block[2][3] = -128;
	sum = 7, wrong = 9;
	check(!um_stealing_flags((const int8_t (*)[148])block, &sum, &wrong) && sum == 7 && wrong == 9, "-128 is refused, and nothing written");
}

static void refusals(bool half_rate)
{
	struct bursts bursts = { .half_rate = half_rate, .count = half_rate ? 6 : 8 }, before;
	uint8_t block[4][148] = { { 0 } };
	int8_t joined[4][148];

	for (int b = 0; b < bursts.count; b++)
		for (int p = 0; p < 148; p += 49) {
			memset(bursts.bits, 0, sizeof bursts.bits);
			bursts.bits[b][p] = 2;
			before = bursts;
			check(!steal((const uint8_t (*)[148])block, &bursts) && !memcmp(&bursts, &before, sizeof bursts), "a 2 in the bursts is refused");
			memset(bursts.soft, 0, sizeof bursts.soft);
			bursts.soft[b][p] = -128;
			memset(joined, 77, sizeof joined);
			check(!join(&bursts, joined) && joined[0][0] == 77 && joined[3][147] == 77, "-128 is refused, and nothing written");
		}
	for (int what = 0; what < 4; what++) {
		um_block_report report, untouched;
		um_facch_erasure erasure = { 99, { 0 } };
		uint32_t rank = 99;
		memset(bursts.soft, 0, sizeof bursts.soft);
		bursts.soft[bursts.count - 1][147] = (int8_t)(what == 3 ? -128 : 0);
		memset(&untouched, 77, sizeof untouched);
		report = untouched;
		check(!receive(&bursts, what == 0 ? 0 : what == 1 ? 65 : 64, (uint8_t)(bursts.count + (what == 2)), &report, &rank, &erasure)
			&& !memcmp(&report, &untouched, sizeof report) && rank == 99 && erasure.erased == 99, "no word, 65, an erasure too many and -128");
	}
	memset(bursts.bits, 1, sizeof bursts.bits);
	block[3][147] = 255;
	before = bursts;
	check(!steal((const uint8_t (*)[148])block, &bursts) && !memcmp(&bursts, &before, sizeof bursts), "a 255 in the block is refused");
	block[3][147] = 0;
	check(steal((const uint8_t (*)[148])block, &bursts) && (half_rate ? bursts.bits[6][0] : bursts.bits[7][3]) == 1,
		"no burst after the last, and no bit of another block, is written");
}

int main(int argc, char **argv)
{
	if (argc != 2) {
		fprintf(stderr, "usage: facch FACCH.OUT\n");
		return 2;
	}
	check(recordings(argv[1]) == 52, "52 blocks are recorded");
	check(saved > 0, "blocks are received only without a burst");
	flags();
	refusals(false);
	refusals(true);
	return failed;
}
