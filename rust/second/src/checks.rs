//! The numbers that an answer carries, and the one sequence in which refusals are looked for.
//! Number 9, for lengths that do not fit, has no place here: these calls are lent nothing.

use crate::format::{Class, Operand};
use std::ops::RangeInclusive;

pub(crate) const FINISHED: u8 = 0;
pub(crate) const PARTIAL: u8 = 1;
const UNSUPPORTED: u8 = 2;
pub(crate) const NAN: u8 = 3;
const INFINITE: u8 = 4;
const ZERO_DIVISOR: u8 = 5;
pub(crate) const BAD_SIZE: u8 = 6;
pub(crate) const SPENT: u8 = 7;
const ZERO_SPLIT: u8 = 8;

/// The step sizes that the manual pages of FPREM and FPREM1 allow.
const SIZES: RangeInclusive<u32> = 32..=63;

/// What is asked of the operands, as far as a refusal depends on it.
#[derive(PartialEq, Eq)]
pub(crate) enum Task {
    Divide,
    Scale,
    Split,
}

/// The first refusal that applies, in the fixed order. A spent budget, which is no refusal, comes
/// after all of these and shows only when the steps are taken.
pub(crate) fn first_refusal(
    task: Task,
    size: Option<u32>,
    x: Operand,
    y: Option<Operand>,
) -> Option<u8> {
    let (x, y) = (x.class, y.map(|y| y.class));
    let either_is = |class| x == class || y == Some(class);
    let checks = [
        (size.map_or(false, |n| !SIZES.contains(&n)), BAD_SIZE),
        (either_is(Class::Unsupported), UNSUPPORTED),
        (either_is(Class::Nan), NAN),
        (x == Class::Infinite && task != Task::Scale, INFINITE),
        (y == Some(Class::Zero), ZERO_DIVISOR),
        (x == Class::Zero && task == Task::Split, ZERO_SPLIT),
    ];
    let first = checks.iter().find(|(applies, _)| *applies);
    first.map(|(_, number)| *number)
}
