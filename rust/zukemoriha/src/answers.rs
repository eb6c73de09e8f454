//! What calls return: answers, and what a refused call tells.

use core::fmt;

use crate::{Answer, Refusal, Rounding, X87};

/// Quotients are told modulo this: those of the steps of one chain are added modulo it.
///
/// ```
/// assert_eq!(zukemoriha::QUOTIENT_MODULUS, 1 << 31);
/// ```
pub const QUOTIENT_MODULUS: u32 = 0x8000_0000;

/// A remainder, and 31 bits of its quotient.
#[derive(Clone, Copy, Debug, PartialEq, Eq, Hash)]
pub struct Remainder<T> {
    /// The remainder. A zero has the sign of the dividend.
    pub value: T,
    /// The quotient's magnitude modulo 2^31, [`QUOTIENT_MODULUS`].
    pub quotient: u32,
    /// Whether an operand as given was [denormal](crate#denormals-and-nans).
    pub denormal: bool,
}

impl<T> Remainder<T> {
    pub(crate) fn map<U>(self, of_pattern: impl Fn(T) -> U) -> Remainder<U> {
        Remainder {
            value: of_pattern(self.value),
            quotient: self.quotient,
            denormal: self.denormal,
        }
    }
}

/// A remainder, and 31 bits of its quotient with a sign: what C's `remquo` gives.
#[derive(Clone, Copy, Debug, PartialEq, Eq, Hash)]
pub struct Remquo<T> {
    /// The remainder. A zero has the sign of the dividend.
    pub value: T,
    /// The quotient's magnitude modulo 2^31, below zero where just one operand is negative: from
    /// -(2^31 - 1) to 2^31 - 1. 0 has no sign.
    pub quotient: i32,
    /// Whether an operand as given was [denormal](crate#denormals-and-nans).
    pub denormal: bool,
}

impl<T> Remquo<T> {
    pub(crate) fn map<U>(self, of_pattern: impl Fn(T) -> U) -> Remquo<U> {
        Remquo {
            value: of_pattern(self.value),
            quotient: self.quotient,
            denormal: self.denormal,
        }
    }
}

/// A scaled number, and how it was rounded.
#[derive(Clone, Copy, Debug, PartialEq, Eq, Hash)]
pub struct Scaled<T> {
    /// The number times the power of two, rounded once, ties to even.
    pub value: T,
    /// What the rounding did to its magnitude.
    pub rounding: Rounding,
    /// Whether the number as given was [denormal](crate#denormals-and-nans).
    pub denormal: bool,
}

impl<T> Scaled<T> {
    pub(crate) fn map<U>(self, of_pattern: impl Fn(T) -> U) -> Scaled<U> {
        Scaled {
            value: of_pattern(self.value),
            rounding: self.rounding,
            denormal: self.denormal,
        }
    }
}

/// A nonzero finite number, taken apart. Scaling the significand by the exponent gives it back.
#[derive(Clone, Copy, Debug, PartialEq, Eq, Hash)]
pub struct Split<T> {
    /// The significand: its magnitude is from 1 to below 2, its sign the number's.
    pub significand: T,
    /// The exponent of the leading one, also for a denormal number.
    pub exponent: i32,
    /// Whether the number as given was [denormal](crate#denormals-and-nans).
    pub denormal: bool,
}

impl<T> Split<T> {
    pub(crate) fn map<U>(self, of_pattern: impl Fn(T) -> U) -> Split<U> {
        Split {
            significand: of_pattern(self.significand),
            exponent: self.exponent,
            denormal: self.denormal,
        }
    }
}

/// What a step or a run tells: its block, and beside it what the block's bytes do not tell.
#[derive(Clone, Copy, Debug, PartialEq, Eq, Hash)]
pub struct Stepped {
    /// The fields of the 20 bytes.
    pub block: Block,
    /// Whether an operand as given was [denormal](crate#denormals-and-nans). Of runs that are
    /// joined the first one's holds for all: see [`x87::run`](crate::x87::run).
    pub denormal: bool,
}

/// The fields of the 20 bytes that a step or a run writes.
///
/// | Bytes | |
/// |---|---|
/// | 0 to 7 | significand of the value, little-endian |
/// | 8 to 9 | sign-and-exponent word of the value, little-endian |
/// | 10 | the answer's number |
/// | 11 | the octant: the quotient modulo 8 |
/// | 12 to 15 | steps taken, little-endian |
/// | 16 to 19 | the quotient, little-endian |
///
/// They do not tell whether an operand was denormal: a [`Stepped`] has that beside them.
#[derive(Clone, Copy, Debug, PartialEq, Eq, Hash)]
pub struct Block {
    /// The remainder if the answer is [`Finished`](Answer::Finished), else the value reached.
    pub value: X87,
    /// What the step or the run has come to.
    pub answer: Answer,
    /// The quotient modulo 8: 0 to 7.
    pub octant: u8,
    /// Steps taken: 1 for a step.
    pub steps: u32,
    /// A step's quotient part, or a run's parts added up, modulo 2^31, [`QUOTIENT_MODULUS`].
    pub quotient: u32,
}

impl Block {
    /// How many bytes a block has.
    pub const LENGTH: usize = 20;

    /// Reads a block that [`x87::step_into`](crate::x87::step_into) or
    /// [`x87::run_into`](crate::x87::run_into) has written.
    ///
    /// `None` if byte 10 is not the number of an answer. Nothing else is checked.
    ///
    /// ```
    /// use zukemoriha::{Answer, Block, X87};
    ///
    /// let two = X87 { significand: 1 << 63, word: 0x4000 };
    /// let bytes = [0, 0, 0, 0, 0, 0, 0, 0x80, 0x00, 0x40, 7, 2, 1, 0, 0, 0, 10, 1, 0, 0];
    /// let block =
    ///     Block { value: two, answer: Answer::Spent, octant: 2, steps: 1, quotient: 266 };
    /// assert_eq!(Block::from_bytes(&bytes), Some(block));
    ///
    /// assert_eq!(Block::from_bytes(&[255; Block::LENGTH]), None);
    /// ```
    pub const fn from_bytes(bytes: &[u8; Block::LENGTH]) -> Option<Block> {
        let [a, b, c, d, e, f, g, h, low, high, number, octant, s, t, u, v, quotient @ ..] = *bytes;
        match Answer::of_number(number) {
            Some(answer) => Some(Block {
                value: X87::from_bytes([a, b, c, d, e, f, g, h, low, high]),
                answer,
                octant,
                steps: u32::from_le_bytes([s, t, u, v]),
                quotient: u32::from_le_bytes(quotient),
            }),
            None => None,
        }
    }
}

/// A refused call on numbers: why it was refused, and what it tells of its operands.
///
/// It becomes its [`Refusal`] by [`From`], and so by `?` in a function that returns one.
///
/// ```
/// use zukemoriha::{binary64, Kind, Refusal, Refused};
///
/// // A signalling NaN by the smallest denormal.
/// let refused = binary64::remainder(0xFFF0_0000_0000_0007, 1, Kind::Nearest).unwrap_err();
/// let quiet = 0xFFF8_0000_0000_0007;
/// assert_eq!(refused, Refused { refusal: Refusal::Nan, value: quiet, denormal: true });
/// assert_eq!(refused.to_string(), "an operand is NaN");
/// ```
///
/// The value of a `Refused<f64>` is a NaN, which is not equal to itself: compare its `refusal`.
#[derive(Clone, Copy, Debug, PartialEq, Eq, Hash)]
pub struct Refused<T> {
    /// Why the call was refused.
    pub refusal: Refusal,
    /// Under [`Refusal::Nan`] [the operand that is NaN](crate#denormals-and-nans), made quiet;
    /// under any other refusal the format's `HOUSE_NAN`.
    pub value: T,
    /// Whether an operand as given was [denormal](crate#denormals-and-nans). Under
    /// [`Refusal::BadSize`] it is `false`.
    pub denormal: bool,
}

impl<T> Refused<T> {
    pub(crate) fn map<U>(self, of_pattern: impl Fn(T) -> U) -> Refused<U> {
        Refused {
            refusal: self.refusal,
            value: of_pattern(self.value),
            denormal: self.denormal,
        }
    }
}

impl<T> From<Refused<T>> for Refusal {
    fn from(refused: Refused<T>) -> Refusal {
        refused.refusal
    }
}

impl<T> fmt::Display for Refused<T> {
    fn fmt(&self, f: &mut fmt::Formatter<'_>) -> fmt::Result {
        self.refusal.fmt(f)
    }
}

#[cfg(feature = "std")]
impl<T: fmt::Debug> std::error::Error for Refused<T> {}
