/* Compares um with libosmocoding on noisy blocks, also of FACCH, access bursts and synchronisation bursts: both encode the same bits, and
 * if both accept, the octets and the count of bit errors are the same. Both count a soft bit of 0 as a bit error. And with libosmocore on
 * frame numbers: their parts, and the synchronisation bursts that say them.
 *
 * If two words are equally likely, the two may choose differently; um takes the lexicographically first. This is rare: at most one in a
 * thousand may be accepted by only one of them. */
#define UM_OSMO_OWN_NAMES
#define _DEFAULT_SOURCE
#include "um_osmo.h"
#include <osmocom/gsm/gsm_utils.h>
#include <stdio.h>
#include <stdlib.h>

#pragma GCC diagnostic ignored "-Wdeprecated-declarations"

struct tally {
	int coded, both, um_alone, osmo_alone, octets, errors;
};

static void soften(sbit_t *soft, const ubit_t *bits, int count, int noise)
{
	for (int i = 0; i < count; i++) {
		int value = 0;
		for (int k = 0; k < 4; k++)
			value += rand() % (2 * noise + 1) - noise;
		value = (bits[i] ? -64 : 64) + value / 2;
		soft[i] = (sbit_t)(value > 127 ? 127 : value < -127 ? -127 : value);
	}
}

static void count(struct tally *tally, bool um, bool osmo, bool same_octets, bool same_errors)
{
	tally->both += osmo && um;
	tally->um_alone += um && !osmo;
	tally->osmo_alone += osmo && !um;
	tally->octets += osmo && um && !same_octets;
	tally->errors += osmo && um && !same_errors;
}

static void one_block(struct tally *tally)
{
	uint8_t sent[23], theirs[23], ours[23];
	ubit_t a[464], b[464];
	sbit_t soft[464];
	int their_errors, our_errors, bits;
	for (int i = 0; i < 23; i++)
		sent[i] = (uint8_t)rand();
	gsm0503_xcch_encode(a, sent);
	um_xcch_encode(b, sent);
	tally->coded += memcmp(a, b, 464) != 0;
	soften(soft, a, 464, 20 + rand() % 120);
	bool osmo = gsm0503_xcch_decode(theirs, soft, &their_errors, &bits) == 0;
	bool um = um_xcch_decode(ours, soft, &our_errors, &bits) == 0;
	count(tally, um, osmo, !memcmp(theirs, ours, 23), their_errors == our_errors);
}

/* FACCH: both write the same halves of bursts of other bits, and decode alike */
static void one_facch(struct tally *tally, bool half_rate)
{
	enum { BITS = 8 * 116 };
	uint8_t sent[23], theirs[128], ours[23];
	ubit_t a[BITS], b[BITS];
	sbit_t soft[BITS];
	int their_errors, our_errors, bits;
	for (int i = 0; i < 23; i++)
		sent[i] = (uint8_t)rand();
	for (int i = 0; i < BITS; i++)
		a[i] = b[i] = rand() & 1;
	if (half_rate)
		gsm0503_tch_hr_encode(a, sent, 23);
	else
		gsm0503_tch_fr_encode(a, sent, 23, 1);
	um_facch_encode(b, sent, half_rate);
	tally->coded += memcmp(a, b, BITS) != 0;
	soften(soft, a, BITS, 20 + rand() % 120);
	for (int i = 0; i < 8; i++) /* libosmocoding decodes FACCH only if the flags say so */
		soft[116 * i + 57] = soft[116 * i + 58] = -64;
	bool osmo = (half_rate ? gsm0503_tch_hr_decode(theirs, soft, 0, &their_errors, &bits)
		: gsm0503_tch_fr_decode(theirs, soft, 1, 0, &their_errors, &bits)) == 23;
	bool um = um_facch_decode_among(ours, soft, half_rate, 1, &our_errors, &bits) == 0;
	count(tally, um, osmo, !memcmp(theirs, ours, 23), their_errors == our_errors);
}

static void one_access(struct tally *tally, uint8_t ra, uint8_t bsic)
{
	ubit_t a[36], b[36];
	sbit_t soft[36];
	uint8_t theirs = 0, ours = 0;
	int their_errors, our_errors, bits;
	gsm0503_rach_encode(a, &ra, bsic);
	um_rach_encode(b, &ra, bsic);
	tally->coded += memcmp(a, b, 36) != 0;
	soften(soft, a, 36, 100);
	bool osmo = gsm0503_rach_decode_ber(&theirs, soft, bsic, &their_errors, &bits) == 0;
	bool um = um_rach_decode_ber(&ours, soft, bsic, &our_errors, &bits) == 0;
	count(tally, um, osmo, theirs == ours, their_errors == our_errors);
}

static void one_sync(struct tally *tally)
{
	uint8_t info[4] = { (uint8_t)rand(), (uint8_t)rand(), (uint8_t)rand(), (uint8_t)(rand() & 1) }, theirs[4] = { 0 }, ours[4] = { 0 };
	ubit_t a[78], b[78];
	sbit_t soft[78];
	gsm0503_sch_encode(a, info);
	um_sch_encode(b, info);
	tally->coded += memcmp(a, b, 78) != 0;
	soften(soft, a, 78, 100);
	bool osmo = gsm0503_sch_decode(theirs, soft) == 0;
	bool um = um_sch_decode(ours, soft) == 0;
	count(tally, um, osmo, !memcmp(theirs, ours, 4), true);
}

/* A synchronisation burst carries the octets of 3GPP TS 44.018, 9.1.30: here as osmo-bts fills them, and as libosmocoding codes them. */
static bool is_sync_of(const struct gsm_time *time, uint8_t bsic, const uint8_t burst[148])
{
	unsigned t3 = (unsigned)(time->t3 - 1) / 10;
	const uint8_t info[4] = {
		(uint8_t)(bsic << 2 | time->t1 >> 9), (uint8_t)(time->t1 >> 1), (uint8_t)((time->t1 & 1) << 7 | time->t2 << 2 | (int)t3 >> 1),
		(uint8_t)(t3 & 1),
	};
	ubit_t coded[78];
	return gsm0503_sch_encode(coded, info) == 0 && !memcmp(coded, burst + 3, 39) && !memcmp(coded + 39, burst + 106, 39);
}

static bool is_same_frame(uint32_t frame)
{
	struct gsm_time theirs;
	um_time ours;
	um_sch sch;
	uint32_t back;
	uint8_t info[25], burst[148], bsic = (uint8_t)(rand() & 63);
	gsm_fn2gsmtime(&theirs, frame);
	if (!um_time_of_frame(frame, &ours) || ours.t1 != theirs.t1 || ours.t2 != theirs.t2 || ours.t3 != theirs.t3)
		return false;
	if (!um_frame_of_time(&ours, &back) || back != frame || gsm_gsmtime2fn(&theirs) != frame)
		return false;
	if (!um_next_block(UM_BCCH_CCCH, UM_DOWNLINK, 0, UM_SCH, 0, frame, &back))
		return false;
	gsm_fn2gsmtime(&theirs, back);
	return theirs.t3 % 10 == 1 && um_write_sch(bsic, back, info) && um_send_sync(info, burst) && is_sync_of(&theirs, bsic, burst) &&
	       um_read_sch(info, &sch) && sch.bsic == bsic && sch.frame == back;
}

static bool are_frames_bad(int number)
{
	int other = 0;
	for (int i = 0; i < number; i++)
		other += !is_same_frame((uint32_t)(((uint64_t)rand() << 16 ^ (uint64_t)rand()) % GSM_MAX_FN));
	printf("library: %d random frame numbers compared with libosmocore, with the synchronisation burst after each: different %d\n", number,
		other);
	return other != 0;
}

static bool is_bad(const char *what, int number, const struct tally *t)
{
	printf("library: %d noisy %s compared with libosmocoding: encoded differently %d, accepted by both %d, by um only %d, "
		"by libosmocoding only %d, with different data %d, with a different count of errors %d\n",
		number, what, t->coded, t->both, t->um_alone, t->osmo_alone, t->octets, t->errors);
	return t->coded || t->octets || t->errors || t->both < number / 2 || t->um_alone + t->osmo_alone > number / 1000;
}

int main(void)
{
	struct tally blocks = { 0 }, facch_f = { 0 }, facch_h = { 0 }, access = { 0 }, sync = { 0 };
	srand(1);
	for (int i = 0; i < 20000; i++)
		one_block(&blocks);
	for (int i = 0; i < 10000; i++) {
		one_facch(&facch_f, false);
		one_facch(&facch_h, true);
	}
	for (int i = 0; i < 256 * 64; i++)
		one_access(&access, (uint8_t)i, (uint8_t)(i >> 8));
	for (int i = 0; i < 10000; i++)
		one_sync(&sync);
	bool bad = is_bad("blocks", 20000, &blocks);
	bad |= is_bad("blocks of FACCH/F", 10000, &facch_f);
	bad |= is_bad("blocks of FACCH/H", 10000, &facch_h);
	bad |= is_bad("access bursts", 256 * 64, &access);
	bad |= is_bad("synchronisation bursts", 10000, &sync);
	bad |= are_frames_bad(100000);
	return bad;
}
