/* libum_osmo.so: libosmocoding's control channel calls by um, for programs already built, and FACCH of its calls on traffic channels.
 *
 *   LD_PRELOAD=libum_osmo.so UM_OSMO_AMONG=64 osmo-bts-trx ..
 *
 * UM_OSMO_AMONG, 1 to 64, is the number of words that are tried for each block; without it only the most likely one is, as in
 * libosmocoding. Any other value is reported once on standard error and counts as 1. If UM_OSMO_VERBOSE is set, a line at the start of
 * each program says that this library serves it.
 * A call on a traffic channel is um's if it sends FACCH, or if the stealing flags say FACCH and the CRC of a word holds; if not, it is
 * libosmocoding's own. All other calls remain libosmocoding's, also RACH of 11 bits, speech and packet data. `make preload` builds it; this
 * file is tested, not proved. */
#ifndef _GNU_SOURCE
#define _GNU_SOURCE /* RTLD_NEXT */
#endif
#define UM_OSMO_OWN_NAMES
#include "um_osmo.h"
#include <ctype.h>
#include <dlfcn.h>
#include <stdatomic.h>
#include <stdio.h>
#include <stdlib.h>

static void report_among(const char *text)
{
	char shown[41];
	size_t count = 0;
	while (count < sizeof shown - 1 && text[count]) {
		shown[count] = text[count];
		if (!isprint((unsigned char)shown[count]))
			shown[count] = '?';
		count++;
	}
	shown[count] = 0;
	fprintf(stderr, "libum_osmo.so: UM_OSMO_AMONG is '%s'; expected 1 to 64; 1 is used\n", shown);
}

/* The number of words to try, read from the environment once. */
static int words_to_try(void)
{
	static atomic_int known;
	int most = atomic_load(&known);
	if (most)
		return most;
	const char *text = getenv("UM_OSMO_AMONG");
	if (!text)
		most = 1;
	else if (text[0] != '0' && strlen(text) <= 2 && strspn(text, "0123456789") == strlen(text))
		most = atoi(text);
	bool valid = most >= 1 && most <= 64;
	if (!valid)
		most = 1;
	if (!atomic_exchange(&known, most) && !valid)
		report_among(text);
	return most;
}

#ifdef __GLIBC__
/* the version of every glibc, so that what is built with a new one starts with an old one, which has the call in another library */
#ifdef __x86_64__
__asm__(".symver dlsym, dlsym@GLIBC_2.2.5");
#elif defined __aarch64__
__asm__(".symver dlsym, dlsym@GLIBC_2.17");
#endif
extern __typeof__(dlsym) dlsym __attribute__((__weak__));
#endif

static void *of_libosmocoding(const char *name)
{
	void *call = dlsym ? dlsym(RTLD_NEXT, name) : NULL;
	if (!call) {
		fprintf(stderr, "libum_osmo.so: libosmocoding's %s is not to be found\n", name);
		abort();
	}
	return call;
}

#define OTHERWISE(NAME, PARAMETERS, ARGUMENTS) ((int(*) PARAMETERS)of_libosmocoding(#NAME))ARGUMENTS

__attribute__((__constructor__)) static void start(void)
{
	if (getenv("UM_OSMO_VERBOSE"))
		fprintf(stderr, "libum_osmo.so: um " UM_VERSION " serves the control channels; words tried for a block: %d\n", words_to_try());
}

int gsm0503_xcch_encode(ubit_t *bursts, const uint8_t *l2_data) { return um_xcch_encode(bursts, l2_data); }
int gsm0503_xcch_decode(uint8_t *l2_data, const sbit_t *bursts, int *n_errors, int *n_bits_total)
{
	return um_xcch_decode_among(l2_data, bursts, words_to_try(), n_errors, n_bits_total);
}
int gsm0503_rach_encode(ubit_t *burst, const uint8_t *ra, uint8_t bsic) { return um_rach_encode(burst, ra, bsic); }
int gsm0503_rach_decode(uint8_t *ra, const sbit_t *burst, uint8_t bsic) { return um_rach_decode(ra, burst, bsic); }
int gsm0503_rach_decode_ber(uint8_t *ra, const sbit_t *burst, uint8_t bsic, int *n_errors, int *n_bits_total)
{
	return um_rach_decode_ber(ra, burst, bsic, n_errors, n_bits_total);
}
int gsm0503_sch_encode(ubit_t *burst, const uint8_t *sb_info) { return um_sch_encode(burst, sb_info); }
int gsm0503_sch_decode(uint8_t *sb_info, const sbit_t *burst) { return um_sch_decode(sb_info, burst); }

/* Defines a call that sends FACCH if there are 23 octets, and else speech. */
#define SENDS(NAME, PARAMETERS, ARGUMENTS, HALF_RATE)                                                                                      \
	int NAME PARAMETERS                                                                                                                    \
	{                                                                                                                                      \
		return len == 23 ? um_facch_encode(bursts, tch_data, HALF_RATE) : OTHERWISE(NAME, PARAMETERS, ARGUMENTS);                          \
	}

/* A block of FACCH begins with these bursts, by its stealing flags and its CRC. */
static bool receives(uint8_t *tch_data, const sbit_t *bursts, bool half_rate, int *n_errors, int *n_bits_total)
{
	return um_facch_is_stolen(bursts, half_rate) &&
	       !um_facch_decode_among(tch_data, bursts, half_rate, words_to_try(), n_errors, n_bits_total);
}

/* Defines a call that receives FACCH or speech; FACCH only if BEGINS. */
#define RECEIVES(NAME, PARAMETERS, ARGUMENTS, HALF_RATE, BEGINS)                                                                           \
	int NAME PARAMETERS                                                                                                                    \
	{                                                                                                                                      \
		return BEGINS && receives(tch_data, bursts, HALF_RATE, n_errors, n_bits_total) ? 23 : OTHERWISE(NAME, PARAMETERS, ARGUMENTS);      \
	}

SENDS(gsm0503_tch_fr_encode, (ubit_t *bursts, const uint8_t *tch_data, int len, int net_order), (bursts, tch_data, len, net_order), false)
SENDS(gsm0503_tch_hr_encode, (ubit_t *bursts, const uint8_t *tch_data, int len), (bursts, tch_data, len), true)
SENDS(gsm0503_tch_afs_encode,
	(ubit_t *bursts, const uint8_t *tch_data, int len, int mode, uint8_t *codec, int codecs, uint8_t ft, uint8_t cmr),
	(bursts, tch_data, len, mode, codec, codecs, ft, cmr), false)
SENDS(gsm0503_tch_ahs_encode,
	(ubit_t *bursts, const uint8_t *tch_data, int len, int mode, uint8_t *codec, int codecs, uint8_t ft, uint8_t cmr),
	(bursts, tch_data, len, mode, codec, codecs, ft, cmr), true)
RECEIVES(gsm0503_tch_fr_decode,
	(uint8_t *tch_data, const sbit_t *bursts, int net_order, int efr, int *n_errors, int *n_bits_total),
	(tch_data, bursts, net_order, efr, n_errors, n_bits_total), false, true)
RECEIVES(gsm0503_tch_hr_decode, (uint8_t *tch_data, const sbit_t *bursts, int odd, int *n_errors, int *n_bits_total),
	(tch_data, bursts, odd, n_errors, n_bits_total), true, !odd)
RECEIVES(gsm0503_tch_afs_decode,
	(uint8_t *tch_data, const sbit_t *bursts, int mode, uint8_t *codec, int codecs, uint8_t *ft, uint8_t *cmr, int *n_errors,
		int *n_bits_total),
	(tch_data, bursts, mode, codec, codecs, ft, cmr, n_errors, n_bits_total), false, true)
RECEIVES(gsm0503_tch_afs_decode_dtx,
	(uint8_t *tch_data, const sbit_t *bursts, int mode, uint8_t *codec, int codecs, uint8_t *ft, uint8_t *cmr, int *n_errors,
		int *n_bits_total,
		uint8_t *dtx),
	(tch_data, bursts, mode, codec, codecs, ft, cmr, n_errors, n_bits_total, dtx), false, true)
RECEIVES(gsm0503_tch_ahs_decode,
	(uint8_t *tch_data, const sbit_t *bursts, int odd, int mode, uint8_t *codec, int codecs, uint8_t *ft, uint8_t *cmr, int *n_errors,
		int *n_bits_total),
	(tch_data, bursts, odd, mode, codec, codecs, ft, cmr, n_errors, n_bits_total), true, !odd)
RECEIVES(gsm0503_tch_ahs_decode_dtx,
	(uint8_t *tch_data, const sbit_t *bursts, int odd, int mode, uint8_t *codec, int codecs, uint8_t *ft, uint8_t *cmr, int *n_errors,
		int *n_bits_total, uint8_t *dtx),
	(tch_data, bursts, odd, mode, codec, codecs, ft, cmr, n_errors, n_bits_total, dtx), true, !odd)
