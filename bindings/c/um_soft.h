/* um_soft.h - soft bits for um.h from what receivers write. Each call converts `count` values in order; soft may be the same memory as
 * an input of octets, and must not overlap an input otherwise.
 *
 * A soft bit of um.h is from -127 (certainly 1) to 127 (certainly 0); 0 means unknown. Scale all bursts of a block by one factor, by the
 * noise and not by the strength of each burst, and rather too small than too large: docs/RECEIVING.md has what other scales cost. */
#ifndef UM_SOFT_H
#define UM_SOFT_H
#include <stdbool.h>
#include <stddef.h>
#include <stdint.h>

#define UM_LLR_SCALE 4.0f /* for natural logarithms of likelihood ratios */

#ifdef __cplusplus
#ifdef __GNUC__
#pragma GCC diagnostic push
#pragma GCC diagnostic ignored "-Wold-style-cast" /* this is C */
#endif
extern "C" {
#endif

/* From libosmocore's sbit_t, -128 to 127: -128 becomes -127. */
static inline void um_soft_from_sbits(const int8_t *sbits, int8_t *soft, size_t count)
{
	for (size_t i = 0; i < count; i++)
		soft[i] = sbits[i] < -127 ? (int8_t)-127 : sbits[i];
}

/* From octets of the TRX protocol (osmo-trx, fake_trx), 0 (certainly 0) to 254 or 255 (certainly 1), where 127 is unknown. */
static inline void um_soft_from_trx(const uint8_t *octets, int8_t *soft, size_t count)
{
	for (size_t i = 0; i < count; i++)
		soft[i] = (int8_t)(octets[i] > 254 ? -127 : 127 - octets[i]);
}

/* From hard bits, octets 0 and 1. False: an octet is neither; nothing is written. */
static inline bool um_soft_from_bits(const uint8_t *bits, int8_t *soft, size_t count)
{
	for (size_t i = 0; i < count; i++)
		if (bits[i] > 1)
			return false;
	for (size_t i = 0; i < count; i++)
		soft[i] = (int8_t)(bits[i] ? -127 : 127);
	return true;
}

/* From logarithms of likelihood ratios, ln(P(bit is 0) / P(bit is 1)), or other numbers that are positive for a 0: times scale (such as
 * UM_LLR_SCALE), rounded to the nearest (halves to even), and limited to -127 and 127. If positive numbers mean 1, pass a negative
 * scale. False: a number is not a number, or scale is 0 or not finite; nothing is written. */
static inline bool um_soft_from_llr(const float *llrs, float scale, int8_t *soft, size_t count)
{
	if (!(scale > 0 || scale < 0) || !(scale - scale >= 0)) /* infinity less itself is not a number */
		return false;
	for (size_t i = 0; i < count; i++)
		if (!(llrs[i] >= 0 || llrs[i] < 0))
			return false;
	for (size_t i = 0; i < count; i++) {
		double value = (double)llrs[i] * (double)scale; /* exact: a float would be rounded twice */
		value = value > 127 ? 127 : value < -127 ? -127 : value;
		int whole = (int)value; /* towards 0 */
		double rest = value - whole;
		whole += rest > 0.5 || (rest == 0.5 && whole % 2) ? 1 : 0;
		whole -= rest < -0.5 || (rest == -0.5 && whole % 2) ? 1 : 0;
		soft[i] = (int8_t)whole;
	}
	return true;
}

#ifdef __cplusplus
}
#ifdef __GNUC__
#pragma GCC diagnostic pop
#endif
#endif
#endif
