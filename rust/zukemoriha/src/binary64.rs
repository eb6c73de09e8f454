//! IEEE 754 binary64 (double precision): an operand is its pattern, a `u64`.
//!
//! [`remainder_f64`](crate::remainder_f64), [`remquo_f64`](crate::remquo_f64),
//! [`scale_f64`](crate::scale_f64), [`split_f64`](crate::split_f64) and
//! [`fold_f64`](crate::fold_f64) are the same on `f64`.

use crate::numbers::finished;
use crate::{raw, Kind, Refusal};

crate::interchange::interchange_functions! {
    u64, 0x7FF8_0000_0000_0000;

    /// ```
    /// use zukemoriha::{binary64, Kind};
    ///
    /// // 5.5 by 2 leaves 1.5 with quotient 2, or -0.5 with quotient 3.
    /// let (x, y) = (0x4016_0000_0000_0000, 0x4000_0000_0000_0000);
    /// let truncated = binary64::remainder(x, y, Kind::Truncated)?;
    /// assert_eq!((truncated.value, truncated.quotient), (0x3FF8_0000_0000_0000, 2));
    /// let nearest = binary64::remainder(x, y, Kind::Nearest)?;
    /// assert_eq!((nearest.value, nearest.quotient), (0xBFE0_0000_0000_0000, 3));
    /// # Ok::<(), zukemoriha::Refusal>(())
    /// ```
    remainder: zk_rem64;

    /// ```
    /// use zukemoriha::{binary64, Kind};
    ///
    /// // -5.5 by 2 leaves -1.5 with quotient -2, or 0.5 with quotient -3.
    /// let (x, y) = (0xC016_0000_0000_0000, 0x4000_0000_0000_0000);
    /// let truncated = binary64::remquo(x, y, Kind::Truncated)?;
    /// assert_eq!((truncated.value, truncated.quotient), (0xBFF8_0000_0000_0000, -2));
    /// let nearest = binary64::remquo(x, y, Kind::Nearest)?;
    /// assert_eq!((nearest.value, nearest.quotient), (0x3FE0_0000_0000_0000, -3));
    /// # Ok::<(), zukemoriha::Refusal>(())
    /// ```
    remquo: zk_remquo64;

    /// ```
    /// use zukemoriha::{binary64, Rounding};
    ///
    /// // Three times the smallest denormal, halved: the tie goes to the even neighbour.
    /// let halved = binary64::scale(0x0000_0000_0000_0003, -1)?;
    /// assert_eq!((halved.value, halved.rounding), (0x0000_0000_0000_0002, Rounding::Up));
    /// # Ok::<(), zukemoriha::Refusal>(())
    /// ```
    scale: zk_scale64;

    /// ```
    /// use zukemoriha::binary64;
    ///
    /// // The smallest denormal is 1 times 2^-1074.
    /// let split = binary64::split(0x0000_0000_0000_0001)?;
    /// assert_eq!((split.significand, split.exponent), (0x3FF0_0000_0000_0000, -1074));
    /// # Ok::<(), zukemoriha::Refusal>(())
    /// ```
    split: zk_split64;

    /// ```
    /// use zukemoriha::binary64;
    ///
    /// // The largest denormal, the smallest normal number, and a zero.
    /// let patterns = [0x800F_FFFF_FFFF_FFFF, 0x0010_0000_0000_0000, 0x8000_0000_0000_0000];
    /// assert_eq!(patterns.map(binary64::denormal), [true, false, false]);
    /// ```
    denormal: zk_denormal64;

    /// ```
    /// use zukemoriha::binary64;
    ///
    /// // A quiet NaN has the larger significand beside any signalling one.
    /// let (quiet, signalling) = (0xFFF8_0000_0000_0001, 0x7FF7_FFFF_FFFF_FFFF);
    /// assert_eq!(binary64::nan(signalling, quiet), quiet);
    /// assert_eq!(binary64::nan(0, 0xFFF0_0000_0000_0001), quiet);
    /// assert_eq!(binary64::nan(0, 0x7FF0_0000_0000_0000), binary64::HOUSE_NAN);
    /// ```
    nan: zk_nan64;
}

/// The quotient byte of a place in a folded list that has no remainder.
pub const MARK: u8 = 255;

/// Folds a list: `results` and `quotients` get, place by place, the remainder of the dividend by
/// `divisor` and the quotient's magnitude modulo 8.
///
/// A place whose dividend is NaN gets that NaN, made quiet as [`nan`] has it, and [`MARK`]; one
/// whose dividend is infinite gets [`HOUSE_NAN`] and [`MARK`]. Returned is how many places are
/// marked so. Of denormal operands a list tells nothing.
///
/// # Errors
///
/// The first of these that applies, also to empty lists; nothing is written then:
///
/// - [`Refusal::BadLength`]: the three slices are not of one length
/// - [`Refusal::Nan`]: the divisor is NaN
/// - [`Refusal::ZeroDivisor`]: the divisor is zero
///
/// # Examples
///
/// ```
/// use zukemoriha::{binary64, Kind};
///
/// let (infinity, nan) = (f64::INFINITY.to_bits(), 0xFFF0_0000_0000_0007);
/// let angles = [725.5_f64.to_bits(), (-30.25_f64).to_bits(), infinity, nan];
/// let turn = 360.0_f64.to_bits();
/// let (mut folded, mut turns) = ([0; 4], [0; 4]);
///
/// let marked = binary64::fold(&angles, &mut folded, &mut turns, turn, Kind::Truncated)?;
/// assert_eq!(folded[..2], [5.5_f64.to_bits(), (-30.25_f64).to_bits()]);
/// assert_eq!(folded[2..], [binary64::HOUSE_NAN, 0xFFF8_0000_0000_0007]);
/// assert_eq!(turns, [2, 0, binary64::MARK, binary64::MARK]);
/// assert_eq!(marked, 2);
/// # Ok::<(), zukemoriha::Refusal>(())
/// ```
pub fn fold(
    dividends: &[u64],
    results: &mut [u64],
    quotients: &mut [u8],
    divisor: u64,
    kind: Kind,
) -> Result<usize, Refusal> {
    let mut marked = 0;
    // SAFETY: each slice is lent with its own length; its pointer is aligned and not null, also
    // where it is empty. The borrows say that the three slices and `marked` do not overlap.
    let number = unsafe {
        raw::zk_fold64(
            dividends.as_ptr(),
            dividends.len(),
            results.as_mut_ptr(),
            results.len(),
            quotients.as_mut_ptr(),
            quotients.len(),
            divisor,
            kind as u32,
            &mut marked,
        )
    };
    finished(number)?;
    Ok(marked)
}
