//! What is told of the operands as they were given, whatever the answer: whether one of them was
//! denormal, and which NaN it was.

use crate::format::{Class, Format, Operand};

/// Whether an operand is denormal (IEEE 754: subnormal). The field 0 counts in the place of field
/// 1, with a leading digit, as in a pseudo-denormal of x87, or without; only zero is not one.
pub(crate) fn any_denormal(operands: &[Operand]) -> bool {
    operands
        .iter()
        .any(|x| x.field == 0 && x.class != Class::Zero)
}

/// The NaN among the operands, which stand in their order: a later one counts only if its
/// significand is larger, both as they stand in the pattern. It is returned quiet: the digit below
/// the leading one is set. Without one it is the house NaN.
pub(crate) fn nan(format: Format, operands: &[Operand]) -> u128 {
    let mut chosen: Option<&Operand> = None;
    for x in operands.iter().filter(|x| x.class == Class::Nan) {
        let significand = x.magnitude.significand;
        if chosen.map_or(true, |first| significand > first.magnitude.significand) {
            chosen = Some(x);
        }
    }
    match chosen {
        Some(x) => {
            let quiet = x.magnitude.significand | format.layout().leading() >> 1;
            format.pattern(x.negative, x.field, quiet)
        }
        None => format.layout().house_nan,
    }
}
