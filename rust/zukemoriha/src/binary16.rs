//! IEEE 754 binary16 (half precision): an operand is its pattern, a `u16`.

crate::interchange::interchange_functions! {
    u16, 0x7E00;

    /// ```
    /// use zukemoriha::{binary16, Kind};
    ///
    /// // 5.5 by 2 leaves 1.5 with quotient 2, or -0.5 with quotient 3.
    /// let truncated = binary16::remainder(0x4580, 0x4000, Kind::Truncated)?;
    /// assert_eq!((truncated.value, truncated.quotient), (0x3E00, 2));
    /// let nearest = binary16::remainder(0x4580, 0x4000, Kind::Nearest)?;
    /// assert_eq!((nearest.value, nearest.quotient), (0xB800, 3));
    /// # Ok::<(), zukemoriha::Refusal>(())
    /// ```
    remainder: zk_rem16;

    /// ```
    /// use zukemoriha::{binary16, Kind};
    ///
    /// // -5.5 by 2 leaves -1.5 with quotient -2, or 0.5 with quotient -3.
    /// let truncated = binary16::remquo(0xC580, 0x4000, Kind::Truncated)?;
    /// assert_eq!((truncated.value, truncated.quotient), (0xBE00, -2));
    /// let nearest = binary16::remquo(0xC580, 0x4000, Kind::Nearest)?;
    /// assert_eq!((nearest.value, nearest.quotient), (0x3800, -3));
    /// # Ok::<(), zukemoriha::Refusal>(())
    /// ```
    remquo: zk_remquo16;

    /// ```
    /// use zukemoriha::{binary16, Rounding};
    ///
    /// // Three times the smallest denormal, halved: the tie goes to the even neighbour.
    /// let halved = binary16::scale(0x0003, -1)?;
    /// assert_eq!((halved.value, halved.rounding), (0x0002, Rounding::Up));
    /// # Ok::<(), zukemoriha::Refusal>(())
    /// ```
    scale: zk_scale16;

    /// ```
    /// use zukemoriha::binary16;
    ///
    /// // The smallest denormal is 1 times 2^-24.
    /// let split = binary16::split(0x0001)?;
    /// assert_eq!((split.significand, split.exponent), (0x3C00, -24));
    /// # Ok::<(), zukemoriha::Refusal>(())
    /// ```
    split: zk_split16;

    /// ```
    /// use zukemoriha::binary16;
    ///
    /// // The largest denormal, the smallest normal number, and a zero.
    /// assert_eq!([0x83FF, 0x0400, 0x8000].map(binary16::denormal), [true, false, false]);
    /// ```
    denormal: zk_denormal16;

    /// ```
    /// use zukemoriha::binary16;
    ///
    /// // A quiet NaN has the larger significand beside any signalling one.
    /// assert_eq!(binary16::nan(0x7DFF, 0xFE01), 0xFE01);
    /// assert_eq!(binary16::nan(0x3C00, 0xFC01), 0xFE01);
    /// assert_eq!(binary16::nan(0x3C00, 0x7C00), binary16::HOUSE_NAN);
    /// ```
    nan: zk_nan16;
}
