/* A program that knows nothing of um: it codes 1,000 blocks by libosmocoding, flips 5 % of the bits, and decodes them. It prints how many
 * blocks the decoder accepts and rejects, and how many of the accepted ones are wrong. Run it with and without LD_PRELOAD=libum_osmo.so.
 *
 *   preload          blocks of SDCCH
 *   preload full     blocks of FACCH/F, in halves of bursts of speech
 *   preload half     blocks of FACCH/H
 *   preload amr_full, amr_half, dtx_full, dtx_half
 *                    the same by the calls for AMR, and those that also tell silence
 *   preload speech   speech of both rates, also of AMR, 2 % of its bits flipped: prints a number of all that the decoders answer and write */
#include <osmocom/coding/gsm0503_coding.h>
#include <stdbool.h>
#include <stdint.h>
#include <stdio.h>
#include <string.h>

/* A generator of our own, so that all runs decode the same bits. */
static uint32_t next_random(void)
{
	static uint32_t state = 1;
	state ^= state << 13;
	state ^= state >> 17;
	state ^= state << 5;
	return state;
}

static void flip(sbit_t *soft, const ubit_t *bits, int count, unsigned percent)
{
	for (int i = 0; i < count; i++)
		soft[i] = (bits[i] ^ (next_random() % 100 < percent)) ? -127 : 127;
}

/* The modes of AMR in a call, 4.75 and 7.4 kbit/s. */
static uint8_t modes[2] = { 0, 4 };

/* What the decoder answers: 23 if a block is accepted. */
static int sent_and_received_amr(const char *kind, const uint8_t *sent, uint8_t *got, ubit_t *bits, sbit_t *soft)
{
	bool is_full = !strcmp(kind + 4, "full"), is_amr = kind[0] == 'a';
	uint8_t ft, cmr, dtx = 0;
	int errors, total;
	if (is_full)
		gsm0503_tch_afs_encode(bits, sent, 23, 0, modes, 2, 0, 0);
	else
		gsm0503_tch_ahs_encode(bits, sent, 23, 0, modes, 2, 0, 0);
	flip(soft, bits, (is_full ? 8 : 6) * 116, 5);
	if (is_full)
		return is_amr ? gsm0503_tch_afs_decode(got, soft, 0, modes, 2, &ft, &cmr, &errors, &total)
			: gsm0503_tch_afs_decode_dtx(got, soft, 0, modes, 2, &ft, &cmr, &errors, &total, &dtx);
	return is_amr ? gsm0503_tch_ahs_decode(got, soft, 0, 0, modes, 2, &ft, &cmr, &errors, &total)
		: gsm0503_tch_ahs_decode_dtx(got, soft, 0, 0, modes, 2, &ft, &cmr, &errors, &total, &dtx);
}

static int sent_and_received(const char *kind, const uint8_t *sent, uint8_t *got)
{
	ubit_t bits[8 * 116];
	sbit_t soft[8 * 116];
	int errors, total;
	for (int i = 0; i < 8 * 116; i++)
		bits[i] = next_random() & 1;
	switch (kind[0]) {
	case 'a':
	case 'd':
		return sent_and_received_amr(kind, sent, got, bits, soft);
	case 'f':
		gsm0503_tch_fr_encode(bits, sent, 23, 1);
		flip(soft, bits, 8 * 116, 5);
		return gsm0503_tch_fr_decode(got, soft, 1, 0, &errors, &total);
	case 'h':
		gsm0503_tch_hr_encode(bits, sent, 23);
		flip(soft, bits, 6 * 116, 5);
		return gsm0503_tch_hr_decode(got, soft, 0, &errors, &total);
	}
	gsm0503_xcch_encode(bits, sent);
	flip(soft, bits, 4 * 116, 5);
	return gsm0503_xcch_decode(got, soft, &errors, &total) == 0 ? 23 : -1;
}

static uint32_t add(uint32_t sum, const void *octets, size_t count)
{
	for (size_t i = 0; i < count; i++)
		sum = (sum ^ ((const uint8_t *)octets)[i]) * 16777619;
	return sum;
}

static void speech(void)
{
	uint32_t sum = 2166136261;
	for (int frame = 0; frame < 500; frame++) {
		uint8_t full[33], half[15], got[128] = { 0 };
		ubit_t bits[8 * 116] = { 0 };
		sbit_t soft[8 * 116];
		int answer[6] = { 0 };
		for (size_t i = 0; i < sizeof full; i++)
			full[i] = (uint8_t)next_random();
		full[0] = (uint8_t)(0xd0 | (full[0] & 15));
		memcpy(half, full, sizeof half);
		half[0] = 0;
		gsm0503_tch_fr_encode(bits, full, 33, 1);
		flip(soft, bits, 8 * 116, 2);
		answer[0] = gsm0503_tch_fr_decode(got, soft, 1, 0, &answer[1], &answer[2]);
		gsm0503_tch_hr_encode(bits, half, 15);
		flip(soft, bits, 6 * 116, 2);
		answer[3] = gsm0503_tch_hr_decode(got + 64, soft, frame & 1, &answer[4], &answer[5]);
		sum = add(add(add(sum, bits, sizeof bits), got, sizeof got), answer, sizeof answer);
		uint8_t ft = (uint8_t)(frame & 1), cmr = 0;
		gsm0503_tch_afs_encode(bits, full, ft ? 19 : 12, 0, modes, 2, ft, 0);
		flip(soft, bits, 8 * 116, 2);
		answer[0] = gsm0503_tch_afs_decode(got, soft, 0, modes, 2, &ft, &cmr, &answer[1], &answer[2]);
		gsm0503_tch_ahs_encode(bits, full, ft ? 19 : 12, 0, modes, 2, ft, 0);
		flip(soft, bits, 6 * 116, 2);
		answer[3] = gsm0503_tch_ahs_decode(got + 64, soft, frame & 1, 0, modes, 2, &ft, &cmr, &answer[4], &answer[5]);
		sum = add(add(add(sum, bits, sizeof bits), got, sizeof got), answer, sizeof answer);
	}
	printf("speech %08x\n", (unsigned)sum);
}

int main(int argc, char **argv)
{
	int accepted = 0, rejected = 0, wrong = 0;
	const char *kind = argc > 1 ? argv[1] : "x";
	if (kind[0] == 's') {
		speech();
		return 0;
	}
	for (int block = 0; block < 1000; block++) {
		uint8_t sent[23], got[64];
		for (int i = 0; i < 23; i++)
			sent[i] = (uint8_t)next_random();
		if (sent_and_received(kind, sent, got) == 23) {
			accepted++;
			wrong += memcmp(sent, got, 23) != 0;
		} else {
			rejected++;
		}
	}
	printf("accepted %d rejected %d wrong %d\n", accepted, rejected, wrong);
	return 0;
}
