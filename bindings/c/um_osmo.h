/* um_osmo.h - libosmocoding's control channel calls (xCCH, RACH of 8 bits, SCH), under the same names, implemented by um. To try um in
 * a program, include this header in place of <osmocom/coding/gsm0503_coding.h> and link libum.a.
 *
 * If libosmocoding's header is installed, this one includes it, which declares its types and its other calls. Those calls remain
 * libosmocoding's: gsm0503_rach_ext_* (RACH of 11 bits), gsm0503_tch_* (traffic) and gsm0503_pdtch_* (packet data). A program that
 * uses one of them without linking -losmocoding gets a link error that names it. If that header is not installed, this one defines
 * ubit_t and sbit_t, and those calls are undeclared.
 *
 * Bits, return codes and counts follow libosmocoding. A burst of a block is 116 bits: 57 coded bits, two stealing flags, 57 coded bits.
 * An access burst is 36 coded bits and a synchronisation burst 78, without tail and training bits. A soft bit of -128 is taken as -127.
 *
 * If UM_OSMO_OWN_NAMES is defined, this header defines only um_xcch_encode and so on, and leaves gsm0503_* to libosmocoding. */
#ifndef UM_OSMO_H
#define UM_OSMO_H
#include "um.h"
#include <string.h>

#if defined __has_include
#if __has_include(<osmocom/coding/gsm0503_coding.h>)
#define UM_OSMO_HAS_HEADER
#endif
#endif
#ifdef UM_OSMO_HAS_HEADER
#ifdef __cplusplus
extern "C" {
#endif
#include <osmocom/coding/gsm0503_coding.h>
#ifdef __cplusplus
}
#endif
#else
typedef uint8_t ubit_t;
typedef int8_t sbit_t;
#endif

#if defined __cplusplus && defined __GNUC__
#pragma GCC diagnostic push
#pragma GCC diagnostic ignored "-Wold-style-cast" /* this is C */
#endif

static inline void um_osmo_soft(int8_t *to, const sbit_t *from, int count)
{
	for (int i = 0; i < count; i++)
		to[i] = from[i] == -128 ? (int8_t)-127 : from[i];
}

/* Least significant bit first, as on the air. */
static inline void um_osmo_bits(uint8_t *bits, unsigned number, int count)
{
	for (int i = 0; i < count; i++)
		bits[i] = (uint8_t)(number >> i & 1);
}

static inline unsigned um_osmo_number(const uint8_t *bits, int count)
{
	unsigned number = 0;
	for (int i = 0; i < count; i++)
		number |= (unsigned)bits[i] << i;
	return number;
}

/* A base station's identity code, most significant bit first. */
static inline void um_osmo_bsic(uint8_t bits[6], uint8_t bsic)
{
	for (int i = 0; i < 6; i++)
		bits[i] = (uint8_t)(bsic >> (5 - i) & 1);
}

/* Writes the 464 bits of a block's four bursts. */
static inline int um_xcch_encode(ubit_t *bursts, const uint8_t *l2_data)
{
	uint8_t whole[4][148];
	if (!um_send_block(l2_data, 0, whole))
		return -1;
	for (int i = 0; i < 4; i++) {
		memcpy(bursts + 116 * i, whole[i] + 3, 58);
		memcpy(bursts + 116 * i + 58, whole[i] + 87, 58);
	}
	return 0;
}

/* The 148 soft bits of a normal burst whose training bits are unknown. */
static inline void um_osmo_burst(int8_t whole[148], const sbit_t *burst)
{
	memset(whole, 0, 148);
	um_osmo_soft(whole + 3, burst, 58);
	um_osmo_soft(whole + 87, burst + 58, 58);
}

/* 0 if the CRC holds, else -1 with l2_data unchanged. n_errors counts against the accepted word, or the most likely one. A call of our
 * own: `most`, 1 to 64, is the number of words that are tried (um_receive_block_among); with another number the answer is -1. */
static inline int um_xcch_decode_among(uint8_t *l2_data, const sbit_t *bursts, int most, int *n_errors, int *n_bits_total)
{
	int8_t whole[4][148];
	um_block_report report;
	uint32_t rank;
	for (int i = 0; i < 4; i++)
		um_osmo_burst(whole[i], bursts + 116 * i);
	bool is_read = most == 1 ? um_receive_block((const int8_t (*)[148])whole, &report)
		: um_receive_block_among((const int8_t (*)[148])whole, (uint32_t)most, &report, &rank);
	if (n_errors)
		*n_errors = is_read ? (int)report.wrong_coded : 456;
	if (n_bits_total)
		*n_bits_total = 456;
	if (!is_read || !report.accepted)
		return -1;
	memcpy(l2_data, report.octets, 23);
	return 0;
}

/* Decides by the most likely word, as libosmocoding does. */
static inline int um_xcch_decode(uint8_t *l2_data, const sbit_t *bursts, int *n_errors, int *n_bits_total)
{
	return um_xcch_decode_among(l2_data, bursts, 1, n_errors, n_bits_total);
}

/* FACCH, calls of our own: `half_rate` is false for the eight bursts of FACCH/F, and true for the six of FACCH/H. Of the 116 bits of the
 * four bursts of a block those at even positions are in bursts 0 to 3, those at odd ones in 4, 5, 6, 7, or at half rate in 4, 5, 2, 3. */
static inline int um_osmo_later(int burst, bool half_rate)
{
	return half_rate && burst > 1 ? burst : burst + 4;
}

/* Writes the halves that carry a block; all other bits stay. */
static inline int um_facch_encode(ubit_t *bursts, const uint8_t *l2_data, bool half_rate)
{
	ubit_t block[464];
	if (um_xcch_encode(block, l2_data))
		return -1;
	for (int i = 0; i < 4; i++)
		for (int k = 0; k < 116; k += 2) {
			bursts[116 * i + k] = block[116 * i + k];
			bursts[116 * um_osmo_later(i, half_rate) + k + 1] = block[116 * i + k + 1];
		}
	return 0;
}

/* Whether the sum of the eight stealing flags says FACCH. */
static inline bool um_facch_is_stolen(const sbit_t *bursts, bool half_rate)
{
	int sum = 0;
	for (int i = 0; i < 4; i++)
		sum += bursts[116 * i + 58] + bursts[116 * um_osmo_later(i, half_rate) + 57];
	return sum < 0;
}

/* As um_xcch_decode_among, of the halves that carry a block. */
static inline int um_facch_decode_among(
	uint8_t *l2_data, const sbit_t *bursts, bool half_rate, int most, int *n_errors, int *n_bits_total)
{
	sbit_t block[464];
	for (int i = 0; i < 4; i++)
		for (int k = 0; k < 116; k += 2) {
			block[116 * i + k] = bursts[116 * i + k];
			block[116 * i + k + 1] = bursts[116 * um_osmo_later(i, half_rate) + k + 1];
		}
	return um_xcch_decode_among(l2_data, block, most, n_errors, n_bits_total);
}

/* Writes the 36 coded bits of an access burst of 8 bits. */
static inline int um_rach_encode(ubit_t *burst, const uint8_t *ra, uint8_t bsic)
{
	uint8_t info[8], code[6], whole[88];
	um_osmo_bits(info, *ra, 8);
	um_osmo_bsic(code, bsic);
	if (!um_send_access(info, code, whole))
		return -1;
	memcpy(burst, whole + 49, 36);
	return 0;
}

static inline int um_rach_decode_ber(uint8_t *ra, const sbit_t *burst, uint8_t bsic, int *n_errors, int *n_bits_total)
{
	int8_t whole[88] = { 0 };
	uint8_t code[6];
	um_access_report report;
	um_osmo_soft(whole + 49, burst, 36);
	um_osmo_bsic(code, bsic);
	bool is_read = um_receive_access(whole, code, &report);
	if (n_errors)
		*n_errors = is_read ? (int)report.wrong_coded : 36;
	if (n_bits_total)
		*n_bits_total = 36;
	if (!is_read || !report.accepted)
		return -1;
	*ra = (uint8_t)um_osmo_number(report.info, 8);
	return 0;
}

static inline int um_rach_decode(uint8_t *ra, const sbit_t *burst, uint8_t bsic)
{
	return um_rach_decode_ber(ra, burst, bsic, 0, 0);
}

/* Writes the 78 coded bits of a synchronisation burst of 25 bits: three octets and the lowest bit of a fourth. */
static inline int um_sch_encode(ubit_t *burst, const uint8_t *sb_info)
{
	uint8_t info[25], whole[148];
	for (int i = 0; i < 3; i++)
		um_osmo_bits(info + 8 * i, sb_info[i], 8);
	info[24] = sb_info[3] & 1;
	if (!um_send_sync(info, whole))
		return -1;
	memcpy(burst, whole + 3, 39);
	memcpy(burst + 39, whole + 106, 39);
	return 0;
}

/* 0 if the CRC holds, else -1. The other seven bits of sb_info[3] are unchanged. */
static inline int um_sch_decode(uint8_t *sb_info, const sbit_t *burst)
{
	int8_t whole[148] = { 0 };
	um_sync_report report;
	um_osmo_soft(whole + 3, burst, 39);
	um_osmo_soft(whole + 106, burst + 39, 39);
	if (!um_receive_sync(whole, &report) || !report.accepted)
		return -1;
	for (int i = 0; i < 3; i++)
		sb_info[i] = (uint8_t)um_osmo_number(report.info + 8 * i, 8);
	sb_info[3] = (uint8_t)((sb_info[3] & 0xfe) | report.info[24]);
	return 0;
}

#if defined __cplusplus && defined __GNUC__
#pragma GCC diagnostic pop
#endif

#ifndef UM_OSMO_OWN_NAMES
#define gsm0503_xcch_encode um_xcch_encode
#define gsm0503_xcch_decode um_xcch_decode
#define gsm0503_rach_encode um_rach_encode
#define gsm0503_rach_decode um_rach_decode
#define gsm0503_rach_decode_ber um_rach_decode_ber
#define gsm0503_sch_encode um_sch_encode
#define gsm0503_sch_decode um_sch_decode
#endif
#endif
