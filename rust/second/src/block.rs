//! The bytes that a step or a run writes for a host: numbers in a row, little-endian.

use crate::division::SHOWN_MODULUS;
use crate::stem::digits;
use crate::Answer;

/// How many bytes that is.
pub const BLOCK_LENGTH: usize = 20;

/// The block of an answer that is no refusal: significand, sign and exponent word, number, octant,
/// steps, quotient.
pub fn block(answer: &Answer) -> Vec<u8> {
    let row = [
        (answer.value as u64, 8),
        ((answer.value >> 64) as u64, 2),
        (answer.number.into(), 1),
        ((answer.quotient % SHOWN_MODULUS).into(), 1),
        (answer.steps.into(), 4),
        (answer.quotient.into(), 4),
    ];
    row.into_iter()
        .flat_map(|(number, bytes)| digits(number, bytes))
        .collect()
}
