//! IEEE 754 binary32 (single precision): an operand is its pattern, a `u32`.
//!
//! [`remainder_f32`](crate::remainder_f32), [`remquo_f32`](crate::remquo_f32),
//! [`scale_f32`](crate::scale_f32) and [`split_f32`](crate::split_f32) are the same on `f32`.

crate::interchange::interchange_functions! {
    u32, 0x7FC0_0000;

    /// ```
    /// use zukemoriha::{binary32, Kind};
    ///
    /// // 5.5 by 2 leaves 1.5 with quotient 2, or -0.5 with quotient 3.
    /// let truncated = binary32::remainder(0x40B0_0000, 0x4000_0000, Kind::Truncated)?;
    /// assert_eq!((truncated.value, truncated.quotient), (0x3FC0_0000, 2));
    /// let nearest = binary32::remainder(0x40B0_0000, 0x4000_0000, Kind::Nearest)?;
    /// assert_eq!((nearest.value, nearest.quotient), (0xBF00_0000, 3));
    /// # Ok::<(), zukemoriha::Refusal>(())
    /// ```
    remainder: zk_rem32;

    /// ```
    /// use zukemoriha::{binary32, Kind};
    ///
    /// // -5.5 by 2 leaves -1.5 with quotient -2, or 0.5 with quotient -3.
    /// let truncated = binary32::remquo(0xC0B0_0000, 0x4000_0000, Kind::Truncated)?;
    /// assert_eq!((truncated.value, truncated.quotient), (0xBFC0_0000, -2));
    /// let nearest = binary32::remquo(0xC0B0_0000, 0x4000_0000, Kind::Nearest)?;
    /// assert_eq!((nearest.value, nearest.quotient), (0x3F00_0000, -3));
    /// # Ok::<(), zukemoriha::Refusal>(())
    /// ```
    remquo: zk_remquo32;

    /// ```
    /// use zukemoriha::{binary32, Rounding};
    ///
    /// // Three times the smallest denormal, halved: the tie goes to the even neighbour.
    /// let halved = binary32::scale(0x0000_0003, -1)?;
    /// assert_eq!((halved.value, halved.rounding), (0x0000_0002, Rounding::Up));
    /// # Ok::<(), zukemoriha::Refusal>(())
    /// ```
    scale: zk_scale32;

    /// ```
    /// use zukemoriha::binary32;
    ///
    /// // The smallest denormal is 1 times 2^-149.
    /// let split = binary32::split(0x0000_0001)?;
    /// assert_eq!((split.significand, split.exponent), (0x3F80_0000, -149));
    /// # Ok::<(), zukemoriha::Refusal>(())
    /// ```
    split: zk_split32;

    /// ```
    /// use zukemoriha::binary32;
    ///
    /// // The largest denormal, the smallest normal number, and a zero.
    /// let patterns = [0x807F_FFFF, 0x0080_0000, 0x8000_0000];
    /// assert_eq!(patterns.map(binary32::denormal), [true, false, false]);
    /// ```
    denormal: zk_denormal32;

    /// ```
    /// use zukemoriha::binary32;
    ///
    /// // A quiet NaN has the larger significand beside any signalling one.
    /// assert_eq!(binary32::nan(0x7FBF_FFFF, 0xFFC0_0001), 0xFFC0_0001);
    /// assert_eq!(binary32::nan(0x3F80_0000, 0xFF80_0001), 0xFFC0_0001);
    /// assert_eq!(binary32::nan(0x3F80_0000, 0x7F80_0000), binary32::HOUSE_NAN);
    /// ```
    nan: zk_nan32;
}
