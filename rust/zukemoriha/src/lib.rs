//! Exact floating-point remainders, computed on bit patterns in whole numbers, and proved.
//!
//! The truncated remainder (C's `fmod`) and the nearest one (IEEE 754's `remainder`), with the
//! low 31 bits of the quotient, its magnitude or with its sign (C's `remquo`); the processor's
//! partial step (FPREM, FPREM1) and runs of it; scaling by a power of two; splitting into
//! significand and exponent; folding of lists; stem files of a log scanner, read and written, and
//! the folding of their points.
//!
//! ```
//! use zukemoriha::{remainder_f64, Kind};
//!
//! // An angle in degrees, folded onto one turn.
//! let angle = remainder_f64(1e22, 360.0, Kind::Truncated)?;
//! assert_eq!(angle.value, 280.0);
//! assert_eq!(angle.quotient, 1_177_492_593); // the whole turns, modulo 2^31
//! # Ok::<(), zukemoriha::Refusal>(())
//! ```
//!
//! - **Every bit pattern is taken.** Nothing has to be looked at before a call: bad input is
//!   refused by a [`Refusal`], and a refused call writes nothing. Calls on numbers return it in a
//!   [`Refused`], which also holds the NaN that they were refused for and whether an operand was
//!   denormal; `?` turns one into the other.
//! - **Exact.** A remainder is right to the last bit and the sign of zero, however far apart the
//!   operands are. Only scaling and a roller's subtraction round: once, ties to even.
//! - **Proved.** The archive that does the work is written in Rattle, a systems language like
//!   Rust in which a function is compiled only once it is proved to meet its contract. Each
//!   function is proved, for every bit pattern, to give what its definition says. This
//!   crate is a thin layer over the archive and is not proved: it hands over operands, and turns
//!   numbers into enums.
//! - **No state.** No floating-point arithmetic, rounding mode or heap: calls from many threads do
//!   not meet. A denormal in a stem file's gauge or reading sets the processor's flag for it.
//!
//! # Where to look
//!
//! | Operands | Functions |
//! |---|---|
//! | `f32` | [`remainder_f32`], [`remquo_f32`], [`scale_f32`], [`split_f32`] |
//! | `f64` | [`remainder_f64`], [`remquo_f64`], [`scale_f64`], [`split_f64`], [`fold_f64`] |
//! | patterns of IEEE 754's interchange formats | [`binary16`], [`binary32`], [`binary64`] |
//! | patterns of the 80-bit x87 format | [`x87`], on operands of type [`X87`] |
//! | bytes of a stem file | [`Stem::open`], [`Gauge::fold`], [`Stem::write`], in [`stem`] |
//!
//! # The remainder
//!
//! The remainder of `x` by `y` is `x - Q * y`, where the magnitude of `Q` is that of `x / y`, cut
//! or rounded to a whole number as the [`Kind`] says, and its sign is that of `x / y`. A zero
//! result has the sign of `x`. By an infinite `y` a finite `x` is returned, an [`X87`] in its
//! [ordinary pattern](X87#the-ordinary-pattern), with quotient 0.
//!
//! The quotient that is told is the magnitude of `Q` modulo 2^31 ([`QUOTIENT_MODULUS`]), its low
//! 31 bits, and in the functions named `remquo` it has the sign of `Q`. Where one byte shows it, in
//! a folded list and as the octant of a [`Block`], it is the magnitude modulo 8.
//!
//! # The numbers
//!
//! Every call ends in one of seventeen numbers. 0, 1 and 7 are answers, the rest refusals:
//!
//! | Number | Here | Given when |
//! |---|---|---|
//! | 0 | [`Answer::Finished`] | the result is there |
//! | 1 | [`Answer::Partial`] | a step was partial |
//! | 2 | [`Refusal::Unsupported`] | an x87 operand is unsupported |
//! | 3 | [`Refusal::Nan`] | an operand is NaN: the value is that NaN, quiet |
//! | 4 | [`Refusal::Infinite`] | the dividend is infinite, or an infinity is split |
//! | 5 | [`Refusal::ZeroDivisor`] | the divisor is zero |
//! | 6 | [`Refusal::BadSize`] | a step size outside 32 to 63 |
//! | 7 | [`Answer::Spent`] | a run's budget is spent |
//! | 8 | [`Refusal::ZeroSplit`] | a zero is split |
//! | 9 | [`Refusal::BadLength`] | lists of unequal length, or a block that is not 20 bytes |
//! | 10 | [`Refusal::StemMark`] | a stem file does not begin with STM |
//! | 11 | [`Refusal::StemVersion`] | the version is not 1 |
//! | 12 | [`Refusal::StemKind`] | the kind is neither 0 nor 1 |
//! | 13 | [`Refusal::StemCount`] | the count is above 4000 |
//! | 14 | [`Refusal::StemLength`] | the length is below a header's, or not what the count asks for |
//! | 15 | [`Refusal::StemGauge`] | the period or the origin is not as it has to be |
//! | 16 | [`Refusal::StemRoom`] | the room is shorter than the stem file |
//!
//! Where several refusals apply, the first of 9, 6, 2, 3, 4, 5, 8 is given; stem files have orders
//! of their own, for [reading](Stem::open) and for [writing](Stem::write).
//!
//! # Denormals and NaNs
//!
//! A remainder, a step, a run, a scaling and a splitting tell two facts of their operands as they
//! were given:
//!
//! - **Whether one was denormal**, `denormal` in every answer and in a [`Refused`]: its exponent
//!   field is 0, and it is not a zero. A [pseudo-denormal](X87#the-ordinary-pattern) is one. It is
//!   told with every number but 6, [`Refusal::BadSize`], where it is `false`. Runs that are joined
//!   take [what the first one tells](x87::run).
//! - **Which one was the NaN**, the value of a [`Refused`] by [`Refusal::Nan`]. If one operand is
//!   NaN it is that one; of two, the one whose significand is larger as given, and the dividend
//!   where they are equal. It is made quiet: the top bit of its fraction is set, and its sign and
//!   all other bits are kept. The value under any other refusal is the format's house NaN, for
//!   example [`binary64::HOUSE_NAN`].
//!
//! In a folded list the place of a NaN dividend has that NaN, quiet, and an infinite dividend's the
//! house NaN; a NaN divisor refuses the whole list. Points of stem files have the house NaN for
//! both. Neither lists nor stem files nor the bytes of a [`Block`] tell of denormals. Of any
//! pattern [`binary64::denormal`] and [`binary64::nan`] tell both, and so in each format's module.
//!
//! ```
//! use zukemoriha::{binary32, Kind, Refusal};
//!
//! // 1 by the smallest denormal, and a signalling NaN by 1.
//! assert!(binary32::remainder(0x3F80_0000, 0x0000_0001, Kind::Truncated)?.denormal);
//!
//! let refused = binary32::remainder(0xFF80_00AB, 0x3F80_0000, Kind::Truncated).unwrap_err();
//! assert_eq!((refused.refusal, refused.value), (Refusal::Nan, 0xFFC0_00AB));
//! # Ok::<(), Refusal>(())
//! ```
//!
//! No operand makes a function panic. One thing does: an archive of another version than this
//! crate, if it returns a number that this version never returns.
//!
//! # The archive
//!
//! The archive is for x86-64 Linux and needs no other library, not even C's. The build script
//! looks for `libzukemoriha.a`
//!
//! 1. in the folder that the environment variable `ZUKEMORIHA_LIB_DIR` names, a full path; if it
//!    is set, there alone;
//! 2. in `target` of the repository that this crate lies in, where `make archive` puts it;
//! 3. in the folder that `pkg-config --variable=libdir zukemoriha` prints, after `make install`.
//!
//! # Without the standard library
//!
//! The crate is `no_std`, has no dependency and allocates nothing. The feature `std`, off by
//! default, implements `std::error::Error` for [`Refusal`] and [`Refused`].

#![no_std]
#![deny(missing_docs)]
#![warn(clippy::undocumented_unsafe_blocks)]

#[cfg(feature = "std")]
extern crate std;

mod answers;
mod floats;
mod interchange;
mod numbers;
mod operand;
mod raw;

pub mod binary16;
pub mod binary32;
pub mod binary64;
pub mod stem;
pub mod x87;

pub use answers::{Block, Refused, Remainder, Remquo, Scaled, Split, Stepped, QUOTIENT_MODULUS};
pub use floats::{
    fold_f64, remainder_f32, remainder_f64, remquo_f32, remquo_f64, scale_f32, scale_f64,
    split_f32, split_f64,
};
pub use numbers::{Answer, Kind, Refusal, Rounding};
pub use operand::X87;
pub use stem::{Gauge, Point, Stem};

// The program of the README is compiled and run with the other examples.
#[cfg(doctest)]
#[doc = include_str!("../README.md")]
struct Readme;
