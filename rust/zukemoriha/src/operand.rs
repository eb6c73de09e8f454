//! The 80-bit operand of x87, which Rust has no type for.

/// The pattern of an 80-bit x87 number: a significand whose leading bit is explicit, and a word
/// of sign and exponent.
///
/// With `e` the lower 15 bits of the word and `J` the top bit of the significand, the patterns are
///
/// | `e` | `J` | |
/// |---|---|---|
/// | 0 | 0 | zeros and denormals: significand × 2^-16445 |
/// | 0 | 1 | pseudo-denormals: significand × 2^-16445, the same as with `e` = 1 |
/// | 1 to 32766 | 1 | normal numbers: significand × 2^(e - 16446) |
/// | 32767 | 1 | infinities (the other 63 bits are 0) and NaNs |
/// | 1 to 32767 | 0 | unsupported |
///
/// Functions take every pattern, and refuse the unsupported ones with
/// [`Refusal::Unsupported`](crate::Refusal::Unsupported).
///
/// Equality is that of the bits: the two zeros are different patterns.
///
/// ```
/// use zukemoriha::X87;
///
/// let three = X87 { significand: 3 << 62, word: 0x4000 };
/// assert_eq!(three.to_bytes(), [0, 0, 0, 0, 0, 0, 0, 0xC0, 0x00, 0x40]);
/// ```
///
/// # The ordinary pattern
///
/// A pseudo-denormal is a number like any other, but no result is written as one. Of the two
/// patterns results have the ordinary one, with `e` = 1, also where an operand is returned. As an
/// operand a pseudo-denormal counts as [denormal](crate#denormals-and-nans), and its ordinary
/// pattern does not:
///
/// ```
/// use zukemoriha::{x87, Kind, X87};
///
/// let pseudo_denormal = X87 { significand: 3 << 62, word: 0 };
/// let ordinary = X87 { significand: 3 << 62, word: 1 };
/// let infinity = X87 { significand: 1 << 63, word: 0x7FFF };
///
/// let left = x87::remainder(pseudo_denormal, infinity, Kind::Truncated)?;
/// assert_eq!((left.value, left.denormal), (ordinary, true));
/// assert!(!x87::denormal(left.value));
/// assert_eq!(x87::scale(pseudo_denormal, 0)?.value, ordinary);
/// # Ok::<(), zukemoriha::Refusal>(())
/// ```
#[derive(Clone, Copy, Debug, PartialEq, Eq, Hash)]
pub struct X87 {
    /// The significand, its leading bit on top.
    pub significand: u64,
    /// The sign, on top, and 15 bits of exponent.
    pub word: u16,
}

impl X87 {
    /// The operand in ten bytes of memory, as FSTP writes them and FLD reads them:
    /// little-endian, the significand first.
    ///
    /// ```
    /// use zukemoriha::X87;
    ///
    /// let one = X87::from_bytes([0, 0, 0, 0, 0, 0, 0, 0x80, 0xFF, 0x3F]);
    /// assert_eq!(one, X87 { significand: 1 << 63, word: 0x3FFF });
    /// ```
    pub const fn from_bytes(bytes: [u8; 10]) -> X87 {
        let [a, b, c, d, e, f, g, h, low, high] = bytes;
        X87 {
            significand: u64::from_le_bytes([a, b, c, d, e, f, g, h]),
            word: u16::from_le_bytes([low, high]),
        }
    }

    /// The ten bytes that [`from_bytes`](X87::from_bytes) reads.
    ///
    /// ```
    /// use zukemoriha::X87;
    ///
    /// let minus_two = X87 { significand: 1 << 63, word: 0xC000 };
    /// assert_eq!(minus_two.to_bytes(), [0, 0, 0, 0, 0, 0, 0, 0x80, 0x00, 0xC0]);
    /// ```
    pub const fn to_bytes(self) -> [u8; 10] {
        let [a, b, c, d, e, f, g, h] = self.significand.to_le_bytes();
        let [low, high] = self.word.to_le_bytes();
        [a, b, c, d, e, f, g, h, low, high]
    }
}
