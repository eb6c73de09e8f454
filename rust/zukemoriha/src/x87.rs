//! The 80-bit format of x87: an operand is an [`X87`], and every result has the
//! [ordinary pattern](X87#the-ordinary-pattern) of its value. Beside the remainder in one call
//! there are the processor's steps.
//!
//! # Steps
//!
//! FPREM and FPREM1 bring a dividend down to its remainder in steps, by a size `n` that the
//! manuals leave to the processor; here it is the caller's, from 32 to 63 ([`SIZES`]).
//! `D` is the exponent of the leading one of `x` less that of `y`, and 0 for a zero `x`.
//!
//! - If `D` is below 64, the step finishes with the remainder and its quotient.
//! - Otherwise it is partial. `QQ` is the magnitude of `x / y / 2^(D - n)`, cut in both kinds.
//!   The quotient part `QQ * 2^(D - n)`, with the sign of `x / y`, times `y` is taken from `x`,
//!   and the quotient is the part's magnitude modulo 2^31. A zero partial value is still partial:
//!   the next step finishes.
//!
//! Steps of one kind and of any sizes, taken until one finishes, end in what [`remainder`] gives,
//! and their quotients add up, modulo 2^31 ([`QUOTIENT_MODULUS`](crate::QUOTIENT_MODULUS)), to its
//! quotient. There are at most `D / 32` of them, rounded down, and one if `D` is below 64.
//!
//! What a step or a run tells is a [`Stepped`]: the [`Block`] that it writes, and beside it whether
//! an operand was [denormal](crate#denormals-and-nans), for which the block has no byte.

use core::ops::RangeInclusive;

use crate::numbers::{finished, other_version, told, yes};
use crate::{
    raw, Block, Kind, Refusal, Refused, Remainder, Remquo, Rounding, Scaled, Split, Stepped, X87,
};

/// The sizes that a step or a run takes.
pub const SIZES: RangeInclusive<u32> = 32..=63;

/// The house NaN: the value of a call that is refused for any reason but a NaN operand. Its sign is
/// clear, and of its significand only the two top bits are set.
pub const HOUSE_NAN: X87 = X87 {
    significand: 0xC000_0000_0000_0000,
    word: 0x7FFF,
};

/// The remainder of `x` by `y`, exact, with the low 31 bits of the quotient's magnitude.
///
/// A zero result has the sign of `x`. By an infinite `y` a finite `x` is returned, in its
/// [ordinary pattern](X87#the-ordinary-pattern), with quotient 0.
///
/// # Errors
///
/// The first of these that applies:
///
/// - [`Refusal::Unsupported`]: an operand is unsupported
/// - [`Refusal::Nan`]: an operand is NaN
/// - [`Refusal::Infinite`]: `x` is infinite
/// - [`Refusal::ZeroDivisor`]: `y` is zero
///
/// # Examples
///
/// ```
/// use zukemoriha::{x87, Kind, X87};
///
/// let two_to_65 = X87 { significand: 1 << 63, word: 0x3FFF + 65 };
/// let three = X87 { significand: 3 << 62, word: 0x4000 };
///
/// let left = x87::remainder(two_to_65, three, Kind::Truncated)?;
/// assert_eq!(left.value, X87 { significand: 1 << 63, word: 0x4000 }); // 2
/// assert_eq!(left.quotient, 0x2AAA_AAAA); // of 0xAAAA_AAAA_AAAA_AAAA
/// # Ok::<(), zukemoriha::Refusal>(())
/// ```
pub fn remainder(x: X87, y: X87, kind: Kind) -> Result<Remainder<X87>, Refused<X87>> {
    let (mut significand, mut word, mut quotient) = (0, 0, 0);
    // SAFETY: the three pointers are to places of their own, of the types that are written.
    let number = unsafe {
        raw::zk_rem80(
            x.significand,
            x.word,
            y.significand,
            y.word,
            kind as u32,
            &mut significand,
            &mut word,
            &mut quotient,
        )
    };
    let ((), denormal) = judged(finished(number), x, y)?;
    let value = X87 { significand, word };
    Ok(Remainder {
        value,
        quotient,
        denormal,
    })
}

/// The remainder of `x` by `y`, exact, with the low 31 bits of the quotient's magnitude and the
/// sign of `x / y`: below zero where just one operand is negative. 0 has no sign.
///
/// With [`Kind::Nearest`] it is C's `remquol`, with 31 bits of the quotient where C asks for
/// at least three; what is a NaN there is refused. The value is that of [`remainder`], and so is
/// the quotient's magnitude, which is 0 by an infinite `y`.
///
/// # Errors
///
/// Those of [`remainder`].
///
/// # Examples
///
/// ```
/// use zukemoriha::{x87, Kind, X87};
///
/// let two_to_65 = X87 { significand: 1 << 63, word: 0x3FFF + 65 };
/// let minus_three = X87 { significand: 3 << 62, word: 0xC000 };
///
/// let left = x87::remquo(two_to_65, minus_three, Kind::Nearest)?;
/// assert_eq!(left.value, X87 { significand: 1 << 63, word: 0xBFFF }); // -1
/// assert_eq!(left.quotient, -0x2AAA_AAAB); // of -0xAAAA_AAAA_AAAA_AAAB
/// # Ok::<(), zukemoriha::Refusal>(())
/// ```
pub fn remquo(x: X87, y: X87, kind: Kind) -> Result<Remquo<X87>, Refused<X87>> {
    let (mut significand, mut word, mut quotient) = (0, 0, 0);
    // SAFETY: the three pointers are to places of their own, of the types that are written.
    let number = unsafe {
        raw::zk_remquo80(
            x.significand,
            x.word,
            y.significand,
            y.word,
            kind as u32,
            &mut significand,
            &mut word,
            &mut quotient,
        )
    };
    let ((), denormal) = judged(finished(number), x, y)?;
    let value = X87 { significand, word };
    Ok(Remquo {
        value,
        quotient,
        denormal,
    })
}

/// `x` times two to the `power`, rounded once, ties to even.
///
/// An exponent above the format's largest gives infinity, and only bits below the smallest
/// denormal are rounded away. Zeros and infinities return themselves, exact.
///
/// # Errors
///
/// - [`Refusal::Unsupported`]: `x` is unsupported
/// - [`Refusal::Nan`]: `x` is NaN
///
/// # Examples
///
/// ```
/// use zukemoriha::{x87, Rounding, X87};
///
/// let three = X87 { significand: 3 << 62, word: 0x4000 };
/// let twelve = x87::scale(three, 2)?;
/// assert_eq!(twelve.value, X87 { significand: 3 << 62, word: 0x4002 });
/// assert_eq!(twelve.rounding, Rounding::Exact);
/// # Ok::<(), zukemoriha::Refusal>(())
/// ```
pub fn scale(x: X87, power: i32) -> Result<Scaled<X87>, Refused<X87>> {
    let (mut significand, mut word, mut says) = (0, 0, 0);
    // SAFETY: the three pointers are to places of their own, of the types that are written.
    let number = unsafe {
        raw::zk_scale80(
            x.significand,
            x.word,
            power,
            &mut significand,
            &mut word,
            &mut says,
        )
    };
    let ((), denormal) = judged(finished(number), x, x)?;
    let value = X87 { significand, word };
    let rounding = Rounding::of_number(says);
    Ok(Scaled {
        value,
        rounding,
        denormal,
    })
}

/// Splits `x` into a significand, its magnitude from 1 to below 2 and its sign that of `x`, and
/// the exponent of its leading one.
///
/// Scaling the significand by the exponent gives `x` back, exact, in its
/// [ordinary pattern](X87#the-ordinary-pattern).
///
/// # Errors
///
/// - [`Refusal::Unsupported`]: `x` is unsupported
/// - [`Refusal::Nan`]: `x` is NaN
/// - [`Refusal::Infinite`]: `x` is infinite
/// - [`Refusal::ZeroSplit`]: `x` is zero
///
/// # Examples
///
/// ```
/// use zukemoriha::{x87, X87};
///
/// // The smallest denormal is 1 times 2^-16445.
/// let split = x87::split(X87 { significand: 1, word: 0 })?;
/// assert_eq!(split.significand, X87 { significand: 1 << 63, word: 0x3FFF });
/// assert_eq!(split.exponent, -16445);
/// # Ok::<(), zukemoriha::Refusal>(())
/// ```
pub fn split(x: X87) -> Result<Split<X87>, Refused<X87>> {
    let (mut significand, mut word, mut exponent) = (0, 0, 0);
    // SAFETY: the three pointers are to places of their own, of the types that are written.
    let number = unsafe {
        raw::zk_split80(
            x.significand,
            x.word,
            &mut significand,
            &mut word,
            &mut exponent,
        )
    };
    let ((), denormal) = judged(finished(number), x, x)?;
    let significand = X87 { significand, word };
    Ok(Split {
        significand,
        exponent,
        denormal,
    })
}

/// One [step](self#steps), as FPREM or FPREM1 makes it.
///
/// The answer is [`Finished`](crate::Answer::Finished) or [`Partial`](crate::Answer::Partial).
///
/// # Errors
///
/// The first of these that applies:
///
/// - [`Refusal::BadSize`]: `size` is not one of [`SIZES`]
/// - [`Refusal::Unsupported`]: an operand is unsupported
/// - [`Refusal::Nan`]: an operand is NaN
/// - [`Refusal::Infinite`]: `x` is infinite
/// - [`Refusal::ZeroDivisor`]: `y` is zero
///
/// # Examples
///
/// A loop of steps. The quotient, and with it the octant, is in the sum of the steps' quotients,
/// not in the last one's alone.
///
/// ```
/// use zukemoriha::{x87, Answer, Kind, QUOTIENT_MODULUS, X87};
///
/// let mut x = X87 { significand: 1 << 63, word: 0x3FFF + 65 }; // 2^65
/// let three = X87 { significand: 3 << 62, word: 0x4000 };
///
/// let (mut quotient, mut steps) = (0, 0);
/// loop {
///     let step = x87::step(x, three, 63, Kind::Truncated)?.block;
///     x = step.value;
///     quotient = (quotient + step.quotient) % QUOTIENT_MODULUS;
///     steps += step.steps;
///     if step.answer == Answer::Finished {
///         assert_eq!(step.quotient, 0);
///         break;
///     }
/// }
/// assert_eq!(x, X87 { significand: 1 << 63, word: 0x4000 }); // 2
/// assert_eq!((quotient, quotient % 8, steps), (0x2AAA_AAAA, 2, 2));
/// # Ok::<(), zukemoriha::Refusal>(())
/// ```
pub fn step(x: X87, y: X87, size: u32, kind: Kind) -> Result<Stepped, Refused<X87>> {
    step_into(x, y, size, kind, &mut [0; Block::LENGTH])
}

/// [Steps](self#steps) of one size, until one finishes or the budget is spent.
///
/// The answer is [`Finished`](crate::Answer::Finished) or [`Spent`](crate::Answer::Spent). A run
/// that has spent its budget may be continued from its value: steps and quotients are then to be
/// added, the quotients modulo 2^31, [`QUOTIENT_MODULUS`](crate::QUOTIENT_MODULUS). Whether an
/// operand was denormal is what the first run tells: the next one is not given the dividend as it
/// was, but a value in its [ordinary pattern](X87#the-ordinary-pattern), and that may be denormal
/// where no operand was.
///
/// # Errors
///
/// Those of [`step`].
///
/// # Examples
///
/// ```
/// use zukemoriha::{x87, Answer, Kind, X87};
///
/// let two_to_65 = X87 { significand: 1 << 63, word: 0x3FFF + 65 };
/// let three = X87 { significand: 3 << 62, word: 0x4000 };
///
/// let run = x87::run(two_to_65, three, 63, Kind::Truncated, 1)?.block;
/// assert_eq!((run.answer, run.steps), (Answer::Spent, 1));
/// assert_eq!((run.quotient, run.octant), (0x2AAA_AAAA, 2));
///
/// let rest = x87::run(run.value, three, 63, Kind::Truncated, u32::MAX)?.block;
/// assert_eq!((rest.answer, rest.steps, rest.quotient), (Answer::Finished, 1, 0));
/// assert_eq!(rest.value, X87 { significand: 1 << 63, word: 0x4000 }); // 2
///
/// // A pseudo-denormal: the value that is handed on is not denormal.
/// let pseudo_denormal = X87 { significand: 1 << 63, word: 0 };
/// let run = x87::run(pseudo_denormal, three, 63, Kind::Truncated, 0)?;
/// let rest = x87::run(run.block.value, three, 63, Kind::Truncated, 1)?;
/// assert_eq!((run.denormal, rest.denormal), (true, false)); // together: true
/// # Ok::<(), zukemoriha::Refusal>(())
/// ```
pub fn run(x: X87, y: X87, size: u32, kind: Kind, budget: u32) -> Result<Stepped, Refused<X87>> {
    run_into(x, y, size, kind, budget, &mut [0; Block::LENGTH])
}

/// [`step`] into a lent block, as a host in C has it: the [20 bytes](Block) are written as they
/// are, and what [`step`] returns is returned too.
///
/// # Errors
///
/// [`Refusal::BadLength`] if the slice is not [`Block::LENGTH`] bytes long, then those of
/// [`step`]. A refusal leaves the slice as it was.
///
/// # Examples
///
/// ```
/// use zukemoriha::{x87, Answer, Block, Kind, Refusal, X87};
///
/// let two_to_65 = X87 { significand: 1 << 63, word: 0x3FFF + 65 };
/// let three = X87 { significand: 3 << 62, word: 0x4000 };
/// let mut block = [0; Block::LENGTH];
///
/// let step = x87::step_into(two_to_65, three, 63, Kind::Truncated, &mut block)?;
/// assert_eq!(step.block.answer, Answer::Partial);
/// assert_eq!(block[..10], [0, 0, 0, 0, 0, 0, 0, 0x80, 0x00, 0x40]); // 2
/// assert_eq!(block[10..], [1, 2, 1, 0, 0, 0, 0xAA, 0xAA, 0xAA, 0x2A]);
///
/// let refused = x87::step_into(two_to_65, three, 63, Kind::Truncated, &mut block[1..]);
/// assert_eq!(refused.unwrap_err().refusal, Refusal::BadLength);
/// # Ok::<(), zukemoriha::Refusal>(())
/// ```
pub fn step_into(
    x: X87,
    y: X87,
    size: u32,
    kind: Kind,
    block: &mut [u8],
) -> Result<Stepped, Refused<X87>> {
    // SAFETY: the slice is lent with its own length; its pointer is not null, also where it is
    // empty.
    let number = unsafe {
        raw::zk_step80(
            x.significand,
            x.word,
            y.significand,
            y.word,
            size,
            kind as u32,
            block.as_mut_ptr(),
            block.len(),
        )
    };
    stepped(number, x, y, block)
}

/// [`run`] into a lent block, as [`step_into`] is for [`step`].
///
/// # Errors
///
/// [`Refusal::BadLength`] if the slice is not [`Block::LENGTH`] bytes long, then those of
/// [`step`]. A refusal leaves the slice as it was.
///
/// # Examples
///
/// ```
/// use zukemoriha::{x87, Answer, Block, Kind, X87};
///
/// let two_to_65 = X87 { significand: 1 << 63, word: 0x3FFF + 65 };
/// let three = X87 { significand: 3 << 62, word: 0x4000 };
/// let mut block = [0; Block::LENGTH];
///
/// let run = x87::run_into(two_to_65, three, 63, Kind::Truncated, 10, &mut block)?;
/// assert_eq!(run.block.answer, Answer::Finished);
/// assert_eq!(block[..10], [0, 0, 0, 0, 0, 0, 0, 0x80, 0x00, 0x40]); // 2
/// assert_eq!(block[10..], [0, 2, 2, 0, 0, 0, 0xAA, 0xAA, 0xAA, 0x2A]);
/// # Ok::<(), zukemoriha::Refusal>(())
/// ```
pub fn run_into(
    x: X87,
    y: X87,
    size: u32,
    kind: Kind,
    budget: u32,
    block: &mut [u8],
) -> Result<Stepped, Refused<X87>> {
    // SAFETY: the slice is lent with its own length; its pointer is not null, also where it is
    // empty.
    let number = unsafe {
        raw::zk_run80(
            x.significand,
            x.word,
            y.significand,
            y.word,
            size,
            kind as u32,
            budget,
            block.as_mut_ptr(),
            block.len(),
        )
    };
    stepped(number, x, y, block)
}

/// Whether `x` is denormal: its exponent field is 0, and it is not a zero. A
/// [pseudo-denormal](X87#the-ordinary-pattern) is one, and its ordinary pattern is not.
///
/// Answers and refusals tell it of their operands; this asks of any pattern.
///
/// # Examples
///
/// ```
/// use zukemoriha::{x87, X87};
///
/// assert!(x87::denormal(X87 { significand: 1, word: 0 }));
/// assert!(x87::denormal(X87 { significand: 3 << 62, word: 0x8000 }));
/// assert!(!x87::denormal(X87 { significand: 3 << 62, word: 0x8001 }));
/// assert!(!x87::denormal(X87 { significand: 0, word: 0x8000 }));
/// ```
pub fn denormal(x: X87) -> bool {
    // SAFETY: no pointer is handed over.
    yes(unsafe { raw::zk_denormal80(x.significand, x.word) })
}

/// The NaN that [`Refusal::Nan`] speaks of where `x` and `y` are the operands. It is made quiet:
/// bit 62 of its significand is set, and its sign and all other bits are kept.
///
/// If one operand is NaN it is that one; of two, the one whose significand is larger as given, and
/// `x` where they are equal. Where neither is NaN it is [`HOUSE_NAN`]. A NaN is returned also
/// beside an unsupported operand, where a call is refused with [`Refusal::Unsupported`].
///
/// # Examples
///
/// ```
/// use zukemoriha::{x87, X87};
///
/// // A quiet NaN has the larger significand beside any signalling one.
/// let quiet = X87 { significand: 3 << 62 | 1, word: 0xFFFF };
/// let signalling = X87 { significand: 5 << 61, word: 0x7FFF };
/// assert_eq!(x87::nan(signalling, quiet), quiet);
///
/// let one = X87 { significand: 1 << 63, word: 0x3FFF };
/// assert_eq!(x87::nan(one, signalling), X87 { significand: 7 << 61, word: 0x7FFF });
/// assert_eq!(x87::nan(one, one), x87::HOUSE_NAN);
/// ```
pub fn nan(x: X87, y: X87) -> X87 {
    let (mut significand, mut word) = (0, 0);
    // SAFETY: both pointers are to places of their own, of the types that are written.
    unsafe {
        raw::zk_nan80(
            x.significand,
            x.word,
            y.significand,
            y.word,
            &mut significand,
            &mut word,
        );
    }
    X87 { significand, word }
}

/// What was told, with whether an operand is denormal; or all that a refused call tells.
fn judged<T>(told: Result<T, Refusal>, x: X87, y: X87) -> Result<(T, bool), Refused<X87>> {
    let denormal = denormal(x) || denormal(y);
    match told {
        Ok(told) => Ok((told, denormal)),
        Err(refusal) => Err(Refused {
            refusal,
            value: match refusal {
                Refusal::Nan => nan(x, y),
                _ => HOUSE_NAN,
            },
            // a bad size is told of no operand
            denormal: denormal && refusal != Refusal::BadSize,
        }),
    }
}

/// What a step or a run tells that was lent the block.
fn stepped(number: u8, x: X87, y: X87, block: &[u8]) -> Result<Stepped, Refused<X87>> {
    let (answer, denormal) = judged(told(number), x, y)?;
    let bytes = block.try_into().ok();
    let written = bytes.and_then(Block::from_bytes);
    match written {
        Some(block) if block.answer == answer => Ok(Stepped { block, denormal }),
        _ => other_version(),
    }
}
