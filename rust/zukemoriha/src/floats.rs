//! The functions on Rust's own numbers. They hand over the bits, and nothing is converted.

use core::mem::align_of;
use core::slice;

use crate::{binary32, binary64, Kind, Refusal, Refused, Remainder, Remquo, Scaled, Split};

/// The remainder of `x` by `y`, exact, with the low 31 bits of the quotient's magnitude.
///
/// A zero result has the sign of `x`. By an infinite `y` a finite `x` is returned as it is, with
/// quotient 0.
///
/// # Errors
///
/// The first of these that applies:
///
/// - [`Refusal::Nan`]: an operand is NaN
/// - [`Refusal::Infinite`]: `x` is infinite
/// - [`Refusal::ZeroDivisor`]: `y` is zero
///
/// # Examples
///
/// ```
/// use zukemoriha::{remainder_f32, Kind};
///
/// let from_the_nearest_turn = remainder_f32(725.5, 360.0, Kind::Nearest)?;
/// assert_eq!(from_the_nearest_turn.value, 5.5);
/// assert_eq!(from_the_nearest_turn.quotient, 2);
/// # Ok::<(), zukemoriha::Refusal>(())
/// ```
pub fn remainder_f32(x: f32, y: f32, kind: Kind) -> Result<Remainder<f32>, Refused<f32>> {
    binary32::remainder(x.to_bits(), y.to_bits(), kind)
        .map(|r| r.map(f32::from_bits))
        .map_err(|refused| refused.map(f32::from_bits))
}

/// The remainder of `x` by `y`, exact, with the low 31 bits of the quotient's magnitude.
///
/// A zero result has the sign of `x`. By an infinite `y` a finite `x` is returned as it is, with
/// quotient 0.
///
/// # Errors
///
/// The first of these that applies:
///
/// - [`Refusal::Nan`]: an operand is NaN
/// - [`Refusal::Infinite`]: `x` is infinite
/// - [`Refusal::ZeroDivisor`]: `y` is zero
///
/// # Examples
///
/// ```
/// use zukemoriha::{remainder_f64, Kind, Refusal};
///
/// let angle = remainder_f64(1e22, 360.0, Kind::Truncated)?;
/// assert_eq!((angle.value, angle.quotient), (280.0, 1_177_492_593));
///
/// let refused = remainder_f64(f64::INFINITY, 360.0, Kind::Truncated).unwrap_err();
/// assert_eq!(refused.refusal, Refusal::Infinite);
/// assert!(refused.value.is_nan() && !refused.denormal);
/// # Ok::<(), Refusal>(())
/// ```
pub fn remainder_f64(x: f64, y: f64, kind: Kind) -> Result<Remainder<f64>, Refused<f64>> {
    binary64::remainder(x.to_bits(), y.to_bits(), kind)
        .map(|r| r.map(f64::from_bits))
        .map_err(|refused| refused.map(f64::from_bits))
}

/// The remainder of `x` by `y`, exact, with the low 31 bits of the quotient's magnitude and the
/// sign of `x / y`: below zero where just one operand is negative. 0 has no sign.
///
/// With [`Kind::Nearest`] it is C's `remquof`, with 31 bits of the quotient where C asks for
/// at least three; what is a NaN there is refused. The value is that of [`remainder_f32`], and so
/// is the quotient's magnitude, which is 0 by an infinite `y`.
///
/// # Errors
///
/// Those of [`remainder_f32`].
///
/// # Examples
///
/// ```
/// use zukemoriha::{remquo_f32, Kind};
///
/// let from_the_nearest_turn = remquo_f32(-725.5, 360.0, Kind::Nearest)?;
/// assert_eq!(from_the_nearest_turn.value, -5.5);
/// assert_eq!(from_the_nearest_turn.quotient, -2);
/// # Ok::<(), zukemoriha::Refusal>(())
/// ```
pub fn remquo_f32(x: f32, y: f32, kind: Kind) -> Result<Remquo<f32>, Refused<f32>> {
    binary32::remquo(x.to_bits(), y.to_bits(), kind)
        .map(|r| r.map(f32::from_bits))
        .map_err(|refused| refused.map(f32::from_bits))
}

/// The remainder of `x` by `y`, exact, with the low 31 bits of the quotient's magnitude and the
/// sign of `x / y`: below zero where just one operand is negative. 0 has no sign.
///
/// With [`Kind::Nearest`] it is C's `remquo`, with 31 bits of the quotient where C asks for
/// at least three; what is a NaN there is refused. The value is that of [`remainder_f64`], and so
/// is the quotient's magnitude, which is 0 by an infinite `y`.
///
/// # Errors
///
/// Those of [`remainder_f64`].
///
/// # Examples
///
/// ```
/// use zukemoriha::{remquo_f64, Kind, Refusal};
///
/// // 5.5 is three times 2 less a half; 2^31 - 1 is the largest quotient.
/// let left = remquo_f64(5.5, -2.0, Kind::Nearest)?;
/// assert_eq!((left.value, left.quotient), (-0.5, -3));
/// assert_eq!(remquo_f64(2_147_483_647.0, 1.0, Kind::Nearest)?.quotient, i32::MAX);
/// assert_eq!(remquo_f64(2_147_483_648.0, 1.0, Kind::Nearest)?.quotient, 0);
///
/// let refused = remquo_f64(1.0, 0.0, Kind::Nearest).unwrap_err();
/// assert_eq!(refused.refusal, Refusal::ZeroDivisor);
/// # Ok::<(), Refusal>(())
/// ```
pub fn remquo_f64(x: f64, y: f64, kind: Kind) -> Result<Remquo<f64>, Refused<f64>> {
    binary64::remquo(x.to_bits(), y.to_bits(), kind)
        .map(|r| r.map(f64::from_bits))
        .map_err(|refused| refused.map(f64::from_bits))
}

/// `x` times two to the `power`, rounded once, ties to even: C's `ldexpf`.
///
/// An exponent above the format's largest gives infinity, and only bits below the smallest
/// denormal are rounded away. Zeros and infinities return themselves, exact.
///
/// # Errors
///
/// - [`Refusal::Nan`]: `x` is NaN
///
/// # Examples
///
/// ```
/// use zukemoriha::{scale_f32, Rounding};
///
/// let scaled = scale_f32(0.75, 4)?;
/// assert_eq!((scaled.value, scaled.rounding), (12.0, Rounding::Exact));
/// # Ok::<(), zukemoriha::Refusal>(())
/// ```
pub fn scale_f32(x: f32, power: i32) -> Result<Scaled<f32>, Refused<f32>> {
    binary32::scale(x.to_bits(), power)
        .map(|s| s.map(f32::from_bits))
        .map_err(|refused| refused.map(f32::from_bits))
}

/// `x` times two to the `power`, rounded once, ties to even: C's `ldexp`.
///
/// An exponent above the format's largest gives infinity, and only bits below the smallest
/// denormal are rounded away. Zeros and infinities return themselves, exact.
///
/// # Errors
///
/// - [`Refusal::Nan`]: `x` is NaN
///
/// # Examples
///
/// ```
/// use zukemoriha::{scale_f64, Rounding};
///
/// let scaled = scale_f64(0.75, 4)?;
/// assert_eq!((scaled.value, scaled.rounding), (12.0, Rounding::Exact));
///
/// let too_small = scale_f64(-1.0, -2000)?;
/// assert_eq!((too_small.value, too_small.rounding), (-0.0, Rounding::Down));
/// # Ok::<(), zukemoriha::Refusal>(())
/// ```
pub fn scale_f64(x: f64, power: i32) -> Result<Scaled<f64>, Refused<f64>> {
    binary64::scale(x.to_bits(), power)
        .map(|s| s.map(f64::from_bits))
        .map_err(|refused| refused.map(f64::from_bits))
}

/// Splits `x` into a significand, its magnitude from 1 to below 2 and its sign that of `x`, and
/// the exponent of its leading one.
///
/// Scaling the significand by the exponent gives `x` back, exact.
///
/// # Errors
///
/// - [`Refusal::Nan`]: `x` is NaN
/// - [`Refusal::Infinite`]: `x` is infinite
/// - [`Refusal::ZeroSplit`]: `x` is zero
///
/// # Examples
///
/// ```
/// let split = zukemoriha::split_f32(-12.0)?;
/// assert_eq!((split.significand, split.exponent), (-1.5, 3));
/// # Ok::<(), zukemoriha::Refusal>(())
/// ```
pub fn split_f32(x: f32) -> Result<Split<f32>, Refused<f32>> {
    binary32::split(x.to_bits())
        .map(|s| s.map(f32::from_bits))
        .map_err(|refused| refused.map(f32::from_bits))
}

/// Splits `x` into a significand, its magnitude from 1 to below 2 and its sign that of `x`, and
/// the exponent of its leading one.
///
/// Scaling the significand by the exponent gives `x` back, exact.
///
/// # Errors
///
/// - [`Refusal::Nan`]: `x` is NaN
/// - [`Refusal::Infinite`]: `x` is infinite
/// - [`Refusal::ZeroSplit`]: `x` is zero
///
/// # Examples
///
/// ```
/// use zukemoriha::{split_f64, Refusal};
///
/// let split = split_f64(-12.0)?;
/// assert_eq!((split.significand, split.exponent), (-1.5, 3));
///
/// assert_eq!(split_f64(0.0).unwrap_err().refusal, Refusal::ZeroSplit);
/// # Ok::<(), Refusal>(())
/// ```
pub fn split_f64(x: f64) -> Result<Split<f64>, Refused<f64>> {
    binary64::split(x.to_bits())
        .map(|s| s.map(f64::from_bits))
        .map_err(|refused| refused.map(f64::from_bits))
}

/// Folds a list: `results` and `quotients` get, place by place, the remainder of the dividend by
/// `divisor` and the quotient's magnitude modulo 8.
///
/// A place whose dividend is NaN gets that NaN, made quiet as [`nan`](binary64::nan) has it; one
/// whose dividend is infinite gets the NaN with the pattern [`HOUSE_NAN`](binary64::HOUSE_NAN).
/// Both get the byte [`MARK`](binary64::MARK). Returned is how many places are marked so. Of
/// denormal operands a list tells nothing.
///
/// # Errors
///
/// The first of these that applies, also to empty lists; nothing is written then:
///
/// - [`Refusal::BadLength`]: the three slices are not of one length
/// - [`Refusal::Nan`]: the divisor is NaN
/// - [`Refusal::ZeroDivisor`]: the divisor is zero
///
/// # Examples
///
/// ```
/// use zukemoriha::{binary64::MARK, fold_f64, Kind};
///
/// // Feed lengths in millimetres, folded onto a roller. The gauge has lost the log once.
/// let feed = [100.5, 3300.0, f64::NAN];
/// let (mut on_roller, mut turns) = ([0.0; 3], [0; 3]);
///
/// let marked = fold_f64(&feed, &mut on_roller, &mut turns, 812.5, Kind::Truncated)?;
/// assert_eq!(on_roller[..2], [100.5, 50.0]);
/// assert!(on_roller[2].is_nan());
/// assert_eq!(turns, [0, 4, MARK]);
/// assert_eq!(marked, 1);
/// # Ok::<(), zukemoriha::Refusal>(())
/// ```
pub fn fold_f64(
    dividends: &[f64],
    results: &mut [f64],
    quotients: &mut [u8],
    divisor: f64,
    kind: Kind,
) -> Result<usize, Refusal> {
    const _: () = assert!(align_of::<f64>() == align_of::<u64>());
    // SAFETY: u64 has the size and the alignment of f64, and the bits of every f64 are a u64.
    let dividends =
        unsafe { slice::from_raw_parts(dividends.as_ptr().cast::<u64>(), dividends.len()) };
    // SAFETY: as above, and every u64 that is written is the bits of an f64.
    let results =
        unsafe { slice::from_raw_parts_mut(results.as_mut_ptr().cast::<u64>(), results.len()) };
    binary64::fold(dividends, results, quotients, divisor.to_bits(), kind)
}
