//! Scaling by a power of two, and splitting into significand and exponent.

use crate::format::{Format, Operand};

/// What scaling says of the magnitude.
pub(crate) const EXACT: u8 = 0;
const UP: u8 = 1;
const DOWN: u8 = 2;

/// After this many places a 64-bit significand and the half below it are gone: one that falls
/// further is rounded the same way.
const ALL_GONE: i64 = 66;

/// A nonzero finite `x` times two to the `power`, rounded once, and what that did.
pub(crate) fn scale(format: Format, x: Operand, power: i32) -> (u128, u8) {
    let smallest_place = i64::from(format.layout().smallest_place);
    let scaled_place = i64::from(x.magnitude.place) + i64::from(power);
    let mut place = scaled_place.max(smallest_place - ALL_GONE);
    let mut kept = x.magnitude.significand;
    // Of what falls off below the smallest place, two bits count: the last, which is worth a half,
    // and whether there was any before it.
    let (mut half, mut below_half) = (0, 0);
    while place < smallest_place {
        below_half |= half;
        half = kept & 1;
        kept >>= 1;
        place += 1;
    }
    let up = half & (below_half | kept & 1);
    let value = format.write(x.negative, kept + up, place);
    let says = if up == 1 || value == format.infinity(x.negative) {
        UP
    } else if half | below_half == 1 {
        DOWN
    } else {
        EXACT
    };
    (value, says)
}

/// A nonzero finite `x` as the pattern of a magnitude from 1 to below 2, and its exponent.
pub(crate) fn split(format: Format, x: Operand) -> (u128, i32) {
    let exponent = x.magnitude.exponent();
    let place = i64::from(x.magnitude.place - exponent);
    let value = format.write(x.negative, x.magnitude.significand, place);
    (value, exponent)
}
