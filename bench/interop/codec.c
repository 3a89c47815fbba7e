/* Blocks, access bursts and synchronisation bursts through the coders and decoders of um and of libosmocoding.
 *
 *   codec BLOCKS SEED
 *
 * For each noise level it prints how many were tried, how many each decoder received as sent, how many only one of them accepted, how many
 * were encoded differently, accepted with different octets or with a different count of bit errors, and how many accepted ones were wrong.
 *
 * Both must encode the same bits. If both accept the same octets, they must count the same bit errors. If several words are equally likely,
 * the two may choose differently: at most one in 100 may be accepted by only one of them or as another word, and no block that
 * libosmocoding accepts may be likelier than um's. The blocks include soft bits of 0 and lost bursts; all 256 access words are combined
 * with all 64 identity codes. */
#define UM_OSMO_OWN_NAMES
#include "um_osmo.h"
#include "draw.h"
#include <osmocom/core/bits.h>
#include <osmocom/coding/gsm0503_coding.h>
#include <stdio.h>
#include <stdlib.h>

struct tally { long tried, coded_otherwise, osmo, um, um_alone, osmo_alone, octets_differ, errors_differ, wrong, better; };
static long passed, failed;

static void judge(const char *what, double sigma, const struct tally *t, bool clean)
{
	bool good = !t->coded_otherwise && !t->errors_differ && !t->better && t->um_alone + t->osmo_alone + t->octets_differ <= t->tried / 100
		&& (!clean || (t->um == t->tried && t->osmo == t->tried));
	passed += good;
	failed += !good;
	printf("%s sigma %.0f: %ld osmo %ld um %ld osmo-alone %ld um-alone %ld coded-otherwise %ld other-octets %ld other-errors %ld "
		"wrong %ld%s\n", what, sigma, t->tried, t->osmo, t->um, t->osmo_alone, t->um_alone, t->coded_otherwise, t->octets_differ,
		t->errors_differ, t->wrong, good ? "" : " FAILED");
}

static void compare(struct tally *t, bool osmo, bool um, const uint8_t *theirs, const uint8_t *ours, const uint8_t *sent, size_t count)
{
	t->tried++;
	t->osmo += osmo && !memcmp(theirs, sent, count);
	t->um += um && !memcmp(ours, sent, count);
	t->wrong += (osmo && memcmp(theirs, sent, count)) || (um && memcmp(ours, sent, count));
	t->osmo_alone += osmo && !um;
	t->um_alone += um && !osmo;
	t->octets_differ += osmo && um && memcmp(theirs, ours, count);
}

static void add_noise(const ubit_t *bits, sbit_t *soft, int count, double sigma, uint64_t seed, uint64_t stream)
{
	for (int i = 0; i < count; i++)
		soft[i] = noisy(bits[i], 60, sigma, seed, stream, (uint64_t)i);
}

/* Whether the block that libosmocoding accepts is likelier than the word that um reports. */
static bool fits_better(const uint8_t *octets, const sbit_t *soft)
{
	ubit_t coded[464];
	int8_t whole[4][148] = { { 0 } };
	um_block_report report;
	int metric = 0;
	gsm0503_xcch_encode(coded, octets);
	for (int i = 0; i < 464; i++)
		if (i % 116 != 57 && i % 116 != 58) /* the stealing flags */
			metric += coded[i] ? -soft[i] : soft[i];
	for (int i = 0; i < 4; i++) {
		memcpy(whole[i] + 3, soft + 116 * i, 58);
		memcpy(whole[i] + 87, soft + 116 * i + 58, 58);
	}
	return !um_receive_block((const int8_t (*)[148])whole, &report) || metric > report.metric;
}

/* Every sixteenth block has a lost burst. */
static void blocks(uint64_t seed, long count, double sigma)
{
	struct tally t = { 0 };
	for (long k = 0; k < count; k++) {
		uint8_t sent[23], theirs[23], ours[23];
		ubit_t by_osmo[464], by_um[464];
		sbit_t soft[464];
		int errors[2], bits[2];
		for (int i = 0; i < 23; i++)
			sent[i] = (uint8_t)drawn(seed, (uint64_t)(2 * k), (uint64_t)i);
		gsm0503_xcch_encode(by_osmo, sent);
		um_xcch_encode(by_um, sent);
		t.coded_otherwise += memcmp(by_osmo, by_um, 464) != 0;
		add_noise(k % 2 ? by_um : by_osmo, soft, 464, sigma, seed, (uint64_t)(2 * k + 1));
		if (sigma > 0 && k % 16 == 15)
			memset(soft + 116 * (k / 16 % 4), 0, 116);
		bool osmo = gsm0503_xcch_decode(theirs, soft, &errors[0], &bits[0]) == 0;
		bool um = um_xcch_decode(ours, soft, &errors[1], &bits[1]) == 0;
		compare(&t, osmo, um, theirs, ours, sent, 23);
		t.better += osmo && fits_better(theirs, soft);
		t.errors_differ += (osmo && um && !memcmp(theirs, ours, 23) && errors[0] != errors[1]) || bits[0] != bits[1];
	}
	judge("blocks", sigma, &t, sigma == 0);
}

static void number_to_bits(uint8_t *bits, unsigned number, int count)
{
	for (int i = 0; i < count; i++)
		bits[i] = number >> (count - 1 - i) & 1;
}

/* An access burst is 88 bits: extended tail 8, synchronisation 41, data 36, tail 3. libosmocoding takes only the data, and the eight bits
 * of information least significant bit first. */
static void access_bursts(uint64_t seed, double sigma)
{
	struct tally t = { 0 };
	for (unsigned k = 0; k < 256 * 64; k++) {
		uint8_t word = (uint8_t)(k / 64), code = k % 64, info[8], code_bits[6], burst[88], theirs = 0, ours = 0;
		int8_t soft[88] = { 0 };
		ubit_t by_osmo[36];
		um_access_report heard;
		int errors, bits;
		for (int i = 0; i < 8; i++)
			info[i] = word >> i & 1;
		number_to_bits(code_bits, code, 6);
		t.coded_otherwise += !um_send_access(info, code_bits, burst);
		gsm0503_rach_ext_encode(by_osmo, word, code, false);
		t.coded_otherwise += memcmp(by_osmo, burst + 49, 36) != 0;
		add_noise(by_osmo, soft + 49, 36, sigma, seed, k);
		bool osmo = gsm0503_rach_decode_ber(&theirs, soft + 49, code, &errors, &bits) == 0;
		bool um = um_receive_access(soft, code_bits, &heard) && heard.accepted;
		for (int i = 0; i < 8 && um; i++)
			ours |= (uint8_t)(heard.info[i] << i);
		compare(&t, osmo, um, &theirs, &ours, &word, 1);
		t.errors_differ += osmo && um && theirs == ours && errors != (int)heard.wrong_coded;
	}
	judge("access", sigma, &t, sigma == 0);
}

/* A synchronisation burst is 148 bits: tail 3, data 39, training 64, data 39, tail 3. */
static void sync_bursts(uint64_t seed, long count, double sigma)
{
	struct tally t = { 0 };
	for (long k = 0; k < count; k++) {
		uint8_t sent[4] = { 0 }, theirs[4] = { 0 }, ours[4] = { 0 }, info[25], burst[148];
		int8_t soft[148] = { 0 };
		ubit_t by_osmo[78];
		um_sync_report heard;
		for (int i = 0; i < 25; i++) {
			info[i] = drawn(seed, (uint64_t)(2 * k), (uint64_t)i) & 1;
			sent[i / 8] |= (uint8_t)(info[i] << i % 8);
		}
		t.coded_otherwise += !um_send_sync(info, burst);
		gsm0503_sch_encode(by_osmo, sent);
		t.coded_otherwise += memcmp(by_osmo, burst + 3, 39) || memcmp(by_osmo + 39, burst + 106, 39);
		sbit_t data[78];
		add_noise(by_osmo, data, 78, sigma, seed, (uint64_t)(2 * k + 1));
		memcpy(soft + 3, data, 39);
		memcpy(soft + 106, data + 39, 39);
		bool osmo = gsm0503_sch_decode(theirs, data) == 0;
		bool um = um_receive_sync(soft, &heard) && heard.accepted;
		for (int i = 0; i < 25 && um; i++)
			ours[i / 8] |= (uint8_t)(heard.info[i] << i % 8);
		compare(&t, osmo, um, theirs, ours, sent, 4);
	}
	judge("sync", sigma, &t, sigma == 0);
}

int main(int count_of_words, char **words)
{
	static const double sigmas[] = { 0, 20, 35, 45, 50, 55, 60, 70 };
	long count = count_of_words > 1 ? atol(words[1]) : 4000;
	uint64_t seed = count_of_words > 2 ? strtoull(words[2], NULL, 10) : 1;
	for (int i = 0; i < 8; i++)
		blocks(mixed(seed + (uint64_t)i), count / 8, sigmas[i]);
	for (int i = 0; i < 3; i++)
		access_bursts(mixed(seed + 100 + (uint64_t)i), 30.0 * i);
	for (int i = 0; i < 3; i++)
		sync_bursts(mixed(seed + 200 + (uint64_t)i), count / 2, i == 0 ? 0 : i == 1 ? 45 : 65);
	printf("codec: %ld passed, %ld failed\n", passed, failed);
	return failed != 0;
}
