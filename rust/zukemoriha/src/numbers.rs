//! The numbers that cross the border to the archive, as enums: the kind of a remainder, what a
//! call ends in, and what scaling says of its rounding.

use core::fmt;

/// Which remainder: how the quotient becomes a whole number.
///
/// ```
/// use zukemoriha::{remainder_f64, Kind};
///
/// let truncated = remainder_f64(5.5, 2.0, Kind::Truncated)?;
/// assert_eq!((truncated.value, truncated.quotient), (1.5, 2));
///
/// let nearest = remainder_f64(5.5, 2.0, Kind::Nearest)?;
/// assert_eq!((nearest.value, nearest.quotient), (-0.5, 3));
/// # Ok::<(), zukemoriha::Refusal>(())
/// ```
#[derive(Clone, Copy, Debug, PartialEq, Eq, Hash)]
pub enum Kind {
    /// The quotient is cut: C's `fmod`, Rust's `%`, the processor's FPREM.
    Truncated = 0,
    /// The quotient is rounded to the nearest whole number, a half to the even one: IEEE 754's
    /// and C's `remainder`, the processor's FPREM1.
    Nearest = 1,
}

/// What a step or a run that was not refused has come to.
///
/// ```
/// assert_eq!(zukemoriha::Answer::Spent.number(), 7);
/// ```
#[derive(Clone, Copy, Debug, PartialEq, Eq, Hash)]
pub enum Answer {
    /// The value is the remainder.
    Finished = 0,
    /// Steps only: the step was partial, and another one is needed.
    Partial = 1,
    /// Runs only: the budget is spent before a step has finished. The value is the one reached,
    /// with budget 0 the dividend in its [ordinary pattern](crate::X87#the-ordinary-pattern).
    Spent = 7,
}

impl Answer {
    /// The number of this answer, as in byte 10 of a [`Block`](crate::Block).
    pub const fn number(self) -> u8 {
        self as u8
    }

    pub(crate) const fn of_number(number: u8) -> Option<Answer> {
        match number {
            0 => Some(Answer::Finished),
            1 => Some(Answer::Partial),
            7 => Some(Answer::Spent),
            _ => None,
        }
    }
}

/// Why a call was refused. A refused call has written nothing to what it was lent. On numbers it
/// tells more: see [`Refused`](crate::Refused).
///
/// Where several refusals apply, a call gives the first of 9, 6, 2, 3, 4, 5, 8 by [`number`]. Stem
/// files have orders of their own: see [`Stem::open`](crate::Stem::open) and
/// [`Stem::write`](crate::Stem::write).
///
/// ```
/// use zukemoriha::{remainder_f64, Kind, Refusal};
///
/// let refusal = remainder_f64(1.0, 0.0, Kind::Truncated).unwrap_err().refusal;
/// assert_eq!(refusal, Refusal::ZeroDivisor);
/// assert_eq!(refusal.number(), 5);
/// assert_eq!(refusal.to_string(), "the divisor is zero");
/// ```
///
/// [`number`]: Refusal::number
#[derive(Clone, Copy, Debug, PartialEq, Eq, Hash)]
#[non_exhaustive]
pub enum Refusal {
    /// An x87 operand has a nonzero exponent and no leading bit: see [`X87`](crate::X87).
    Unsupported = 2,
    /// An operand is NaN. Which one, is told by the value of a [`Refused`](crate::Refused).
    Nan = 3,
    /// The dividend is infinite, or an infinity was to be split.
    Infinite = 4,
    /// The divisor is zero.
    ZeroDivisor = 5,
    /// The size of a step or a run is not from 32 to 63.
    BadSize = 6,
    /// A zero was to be split.
    ZeroSplit = 8,
    /// Lists of unequal length, or a block that is not 20 bytes long.
    BadLength = 9,
    /// A stem file does not begin with the letters STM.
    StemMark = 10,
    /// The version of a stem file is not 1.
    StemVersion = 11,
    /// The kind of a stem file's gauge is neither 0, a turn, nor 1, a roller.
    StemKind = 12,
    /// The count of a stem file's points is above 4000.
    StemCount = 13,
    /// A stem file is shorter than its header, or its length is not what its count asks for.
    StemLength = 14,
    /// The period or the origin of a [`Gauge`](crate::Gauge) is not as it has to be.
    StemGauge = 15,
    /// The room is shorter than the stem file that is to be written to it.
    StemRoom = 16,
}

impl Refusal {
    /// The number of this refusal, as in the table of the [crate](crate#the-numbers).
    pub const fn number(self) -> u8 {
        self as u8
    }

    const fn of_number(number: u8) -> Option<Refusal> {
        match number {
            2 => Some(Refusal::Unsupported),
            3 => Some(Refusal::Nan),
            4 => Some(Refusal::Infinite),
            5 => Some(Refusal::ZeroDivisor),
            6 => Some(Refusal::BadSize),
            8 => Some(Refusal::ZeroSplit),
            9 => Some(Refusal::BadLength),
            10 => Some(Refusal::StemMark),
            11 => Some(Refusal::StemVersion),
            12 => Some(Refusal::StemKind),
            13 => Some(Refusal::StemCount),
            14 => Some(Refusal::StemLength),
            15 => Some(Refusal::StemGauge),
            16 => Some(Refusal::StemRoom),
            _ => None,
        }
    }
}

impl fmt::Display for Refusal {
    fn fmt(&self, f: &mut fmt::Formatter<'_>) -> fmt::Result {
        f.write_str(match self {
            Refusal::Unsupported => "an x87 operand is unsupported",
            Refusal::Nan => "an operand is NaN",
            Refusal::Infinite => "the dividend is infinite, or an infinity was to be split",
            Refusal::ZeroDivisor => "the divisor is zero",
            Refusal::BadSize => "the step size is not from 32 to 63",
            Refusal::ZeroSplit => "a zero was to be split",
            Refusal::BadLength => "the lists are of unequal length, or the block is not 20 bytes",
            Refusal::StemMark => "the stem file does not begin with STM",
            Refusal::StemVersion => "the version of the stem file is not 1",
            Refusal::StemKind => "the gauge is neither a turn nor a roller",
            Refusal::StemCount => "the count of the stem file's points is above 4000",
            Refusal::StemLength => {
                "the stem file has no whole header, or not the length that its count asks for"
            }
            Refusal::StemGauge => "the period or the origin is not one that a stem file may have",
            Refusal::StemRoom => "the room is shorter than the stem file",
        })
    }
}

#[cfg(feature = "std")]
impl std::error::Error for Refusal {}

/// What scaling says of its one rounding. It speaks of magnitudes.
///
/// ```
/// use zukemoriha::{scale_f64, Rounding};
///
/// assert_eq!(scale_f64(-1.0, 1024)?.rounding, Rounding::Up); // the largest exponent is 1023
/// # Ok::<(), zukemoriha::Refusal>(())
/// ```
#[derive(Clone, Copy, Debug, PartialEq, Eq, Hash)]
pub enum Rounding {
    /// Nothing was rounded away.
    Exact = 0,
    /// The magnitude was rounded up. Infinity from a finite value is up.
    Up = 1,
    /// The magnitude was rounded down.
    Down = 2,
}

impl Rounding {
    pub(crate) fn of_number(says: u8) -> Rounding {
        match says {
            0 => Rounding::Exact,
            1 => Rounding::Up,
            2 => Rounding::Down,
            _ => other_version(),
        }
    }
}

/// What a call ended in, from the number that it returned.
pub(crate) fn told(number: u8) -> Result<Answer, Refusal> {
    match (Answer::of_number(number), Refusal::of_number(number)) {
        (Some(answer), _) => Ok(answer),
        (_, Some(refusal)) => Err(refusal),
        _ => other_version(),
    }
}

/// The same for a function that has no answer but 0.
pub(crate) fn finished(number: u8) -> Result<(), Refusal> {
    match told(number)? {
        Answer::Finished => Ok(()),
        Answer::Partial | Answer::Spent => other_version(),
    }
}

/// What a function says that answers yes, 1, or no, 0.
pub(crate) fn yes(says: u8) -> bool {
    match says {
        0 => false,
        1 => true,
        _ => other_version(),
    }
}

/// For what the archive of this version is proved never to return.
#[cold]
pub(crate) fn other_version() -> ! {
    panic!(
        "libzukemoriha.a and the crate zukemoriha are of different versions: the crate is {}",
        env!("CARGO_PKG_VERSION")
    )
}

#[cfg(test)]
mod tests {
    use super::*;

    #[test]
    fn each_number_is_an_answer_or_a_refusal() {
        for number in 0..=16 {
            let told_again = match told(number) {
                Ok(answer) => answer.number(),
                Err(refusal) => refusal.number(),
            };
            assert_eq!(told_again, number);
        }
    }

    #[test]
    #[should_panic(expected = "different versions")]
    fn a_number_above_16_is_of_another_version() {
        let _ = told(17);
    }

    #[test]
    #[should_panic(expected = "different versions")]
    fn a_partial_remainder_is_of_another_version() {
        let _ = finished(1);
    }

    #[test]
    #[should_panic(expected = "different versions")]
    fn neither_yes_nor_no_is_of_another_version() {
        assert_eq!([0, 1].map(yes), [false, true]);
        yes(2);
    }

    #[test]
    #[should_panic(expected = "different versions")]
    fn a_fourth_rounding_is_of_another_version() {
        let _ = Rounding::of_number(3);
    }
}
