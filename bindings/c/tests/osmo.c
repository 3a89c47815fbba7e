/* Tests um_osmo.h (with UM_OSMO_OWN_NAMES: libum_osmo.so) on the repository's vectors, which libosmocoding made, under libosmocoding's
 * names: the encoded bits, decoding with erased bits and with -128 for a certain 1, the counts, and that a refusal writes nothing.
 *
 *   osmo CODE.IN CODE.OUT */
#include "um_osmo.h"
#include <stdio.h>
#include <stdlib.h>

#ifdef UM_OSMO_OWN_NAMES
int gsm0503_xcch_encode(ubit_t *bursts, const uint8_t *l2_data);
int gsm0503_xcch_decode(uint8_t *l2_data, const sbit_t *bursts, int *n_errors, int *n_bits_total);
int gsm0503_rach_encode(ubit_t *burst, const uint8_t *ra, uint8_t bsic);
int gsm0503_rach_decode(uint8_t *ra, const sbit_t *burst, uint8_t bsic);
int gsm0503_rach_decode_ber(uint8_t *ra, const sbit_t *burst, uint8_t bsic, int *n_errors, int *n_bits_total);
int gsm0503_sch_encode(ubit_t *burst, const uint8_t *sb_info);
int gsm0503_sch_decode(uint8_t *sb_info, const sbit_t *burst);
#endif

static int failed, counts[3];

static void check(bool holds, const char *what)
{
	if (!holds) {
		printf("library: %s\n", what);
		failed = 1;
	}
}

/* The bits at these positions of the next burst of the vectors, whose digits start at column `from` of the line. */
static void next_burst(FILE *out, size_t from, int first, int count, ubit_t *bits)
{
	char line[400];
	if (!fgets(line, sizeof line, out) || strlen(line) < from + 88)
		exit(2);
	for (int i = 0; i < count; i++)
		bits[i] = (ubit_t)(line[from + (size_t)(first + i)] - '0');
}

/* A certain 1 becomes -128, and every seventh bit is erased. Returns the number of erased bits. */
static int soften(sbit_t *soft, const ubit_t *bits, int count)
{
	int erased = 0;
	for (int i = 0; i < count; i++) {
		soft[i] = (sbit_t)(i % 7 == 0 ? 0 : bits[i] ? -128 : 127);
		erased += i % 7 == 0;
	}
	return erased;
}

static void block(const char *digits, FILE *out)
{
	uint8_t octets[23], got[23];
	ubit_t wanted[464], bits[464];
	sbit_t soft[464];
	int errors, total, erased = 0;
	for (int i = 0; i < 23; i++) {
		unsigned octet = 0;
		sscanf(digits + 2 * i, "%2x", &octet);
		octets[i] = (uint8_t)octet;
	}
	for (int b = 0; b < 4; b++) {
		ubit_t burst[148];
		next_burst(out, 2, 0, 148, burst);
		memcpy(wanted + 116 * b, burst + 3, 58);
		memcpy(wanted + 116 * b + 58, burst + 87, 58);
	}
	check(gsm0503_xcch_encode(bits, octets) == 0 && !memcmp(bits, wanted, 464), "xcch_encode");
	soften(soft, bits, 464);
	for (int i = 0; i < 464; i++)
		erased += soft[i] == 0 && i % 116 != 57 && i % 116 != 58; /* a stealing flag is not a coded bit */
	check(gsm0503_xcch_decode(got, soft, &errors, &total) == 0 && !memcmp(got, octets, 23), "xcch_decode");
	check(errors == erased && total == 456, "xcch_decode counts each erased bit");
	memset(soft, 0, 464);
	memset(got, 0xa5, 23);
	check(gsm0503_xcch_decode(got, soft, NULL, NULL) == -1 && got[0] == 0xa5 && got[22] == 0xa5, "xcch_decode refuses lost bursts");
	counts[0]++;
}

static void access(const char *info, const char *code, FILE *out)
{
	ubit_t wanted[36], bits[36];
	sbit_t soft[36];
	uint8_t ra = 0, bsic = 0, got = 0;
	int errors, total;
	for (int i = 0; i < 8; i++)
		ra = (uint8_t)(ra | (info[i] == '1') << i);
	for (int i = 0; i < 6; i++)
		bsic = (uint8_t)(bsic << 1 | (code[i] == '1'));
	next_burst(out, 9, 49, 36, wanted);
	check(gsm0503_rach_encode(bits, &ra, bsic) == 0 && !memcmp(bits, wanted, 36), "rach_encode");
	int erased = soften(soft, bits, 36);
	check(gsm0503_rach_decode_ber(&got, soft, bsic, &errors, &total) == 0 && got == ra && errors == erased && total == 36, "rach_decode_ber");
	got = (uint8_t)~ra;
	check(gsm0503_rach_decode(&got, soft, bsic) == 0 && got == ra, "rach_decode");
	check(gsm0503_rach_decode(&got, soft, bsic ^ 1) == -1 && got == ra, "rach_decode refuses another code");
	counts[1]++;
}

static void sync_burst(const char *digits, FILE *out)
{
	ubit_t burst[148], wanted[78], bits[78];
	sbit_t soft[78];
	uint8_t info[4] = { 0 }, got[4] = { 0, 0, 0, 0xfe };
	for (int i = 0; i < 25; i++)
		info[i / 8] = (uint8_t)(info[i / 8] | (digits[i] == '1') << i % 8);
	next_burst(out, 2, 0, 148, burst);
	memcpy(wanted, burst + 3, 39);
	memcpy(wanted + 39, burst + 106, 39);
	check(gsm0503_sch_encode(bits, info) == 0 && !memcmp(bits, wanted, 78), "sch_encode");
	soften(soft, bits, 78);
	check(gsm0503_sch_decode(got, soft) == 0 && !memcmp(got, info, 3) && got[3] == (0xfe | info[3]), "sch_decode writes 25 bits");
	memset(soft, 0, 78);
	got[0] = 0xa5;
	check(gsm0503_sch_decode(got, soft) == -1 && got[0] == 0xa5, "sch_decode refuses a lost burst");
	counts[2]++;
}

int main(int argc, char **argv)
{
	FILE *in = argc == 3 ? fopen(argv[1], "r") : NULL, *out = argc == 3 ? fopen(argv[2], "r") : NULL;
	char line[400], first[64], second[64];
	unsigned tsc;
	if (!in || !out)
		return 2;
	while (fgets(line, sizeof line, in)) {
		if (sscanf(line, "block %u %63s", &tsc, first) == 2)
			block(first, out);
		else if (sscanf(line, "rach %63s %63s", first, second) == 2)
			access(first, second, out);
		else if (sscanf(line, "sch %63s", first) == 1)
			sync_burst(first, out);
	}
	check(counts[0] && counts[1] && counts[2], "the vectors have each kind of burst");
	if (!failed)
		printf("library: libosmocoding's names on %d blocks, %d access and %d synchronisation bursts of the vectors\n",
			counts[0], counts[1], counts[2]);
	return failed;
}
