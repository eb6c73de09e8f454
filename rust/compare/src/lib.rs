//! Zukemoriha and an independent second implementation, side by side.
//!
//! A comparison takes the two as a [`Pair`], asks both the same, and holds their answers to each
//! other and to what a file expects. The tests run every comparison on [`PAIR`], and then on a
//! library that is wrong in one answer, to see that it is noticed.
#![forbid(unsafe_code)]

mod call;
mod comparison;
mod fields;
pub mod folds;
mod formats;
pub mod half;
pub mod halves;
mod library;
pub mod lines;
pub mod lists;
mod operands;
pub mod published;
pub mod sequence;
pub mod stems;
pub mod vectors;
pub mod writes;

pub use call::{
    is_denormal, refused, remained, signed, Call, Implementation, Pair, Second, Shown, LENGTH,
    MISWROTE,
};
pub use comparison::Comparison;
pub use fields::{read, read_bytes};
pub use library::{lent, lent_length, lent_lists, lent_places, lent_room, Library};
pub use second::stem::{Gauge, Point, Stem};
pub use second::{Answer, Folded, Format, Kind, QUOTIENT_MODULUS, SHOWN_MODULUS};

/// What is compared.
pub const PAIR: Pair<'static> = [&Library, &Second];
