//! Soft bits from what receivers write. Each call converts one burst, or any other array; for a block, `bursts.map(|burst| ..)`.

use crate::Invalid;

/// The scale for natural logarithms of likelihood ratios, ln(P(bit is 0) / P(bit is 1)).
pub const LLR_SCALE: f32 = 4.0;

/// From hard bits: 127 for 0, -127 for any other octet.
#[must_use]
pub fn soft_from_bits<const N: usize>(bits: &[u8; N]) -> [i8; N] {
    bits.map(|bit| if bit == 0 { 127 } else { -127 })
}

/// From logarithms of likelihood ratios, or other numbers that are positive for a 0: times `scale` (such as [`LLR_SCALE`]), rounded to the
/// nearest integer, halves to even, and limited to -127 and 127. If positive numbers mean 1, pass a negative scale.
///
/// # Errors
///
/// [`Invalid::Ratio`] if a number is not a number, or if `scale` is 0 or not finite.
pub fn soft_from_llr<const N: usize>(ratios: &[f32; N], scale: f32) -> Result<[i8; N], Invalid> {
    // adding 1.5 * 2^52 leaves no bits after the point, and rounds as the processor does, halves to even
    const ROUNDING: f64 = 6_755_399_441_055_744.0;
    if scale == 0.0 || !scale.is_finite() || ratios.iter().any(|ratio| ratio.is_nan()) {
        return Err(Invalid::Ratio);
    }
    // the product of two floats of four octets is exact
    Ok(ratios.map(|ratio| ((f64::from(ratio) * f64::from(scale)).clamp(-127.0, 127.0) + ROUNDING - ROUNDING) as i8))
}

/// From libosmocore's `sbit_t`: -128 becomes -127.
#[must_use]
pub fn soft_from_sbits<const N: usize>(sbits: &[i8; N]) -> [i8; N] {
    sbits.map(|sbit| sbit.max(-127))
}

/// From octets of the TRX protocol (osmo-trx, fake_trx): 0, a certain 0, to 255, a certain 1; 127 is unknown.
#[must_use]
pub fn soft_from_trx<const N: usize>(octets: &[u8; N]) -> [i8; N] {
    octets.map(|octet| (127 - i16::from(octet)).max(-127) as i8)
}

/// The four bursts of a block from 592 octets of a raw recording, where each octet is a signed soft bit.
#[must_use]
pub fn bursts_from_raw(octets: &[u8; 592]) -> [[i8; 148]; 4] {
    core::array::from_fn(|burst| core::array::from_fn(|bit| octets[148 * burst + bit] as i8))
}
