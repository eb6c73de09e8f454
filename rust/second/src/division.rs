//! Long division one bit at a time, and what is made of it: the remainder that finishes, and the
//! partial step.

use crate::format::{Class, Format, Magnitude, Operand};
use crate::Kind;

/// Quotients are told modulo this: 31 bits. The double of what is below it, and one more, is still a
/// `u32`, and so is the sum of two.
pub const QUOTIENT_MODULUS: u32 = 1 << 31;

/// One byte of a folded list or of a block shows a quotient modulo this, and so does a line of the
/// line program: three bits, an octant.
pub const SHOWN_MODULUS: u32 = 8;

/// A step finishes where the exponents of its operands differ by less than this.
const FINISHING_GAP: i32 = 64;

/// A divisor from here on is more than twice any significand: making it larger changes nothing,
/// since the quotient is 0 by then, and rounds to 0.
const BEYOND_TWICE_A_SIGNIFICAND: u128 = 1 << 66;

/// A division of whole numbers, both counted in units of `2^place`.
struct Division {
    divisor: u128,
    remainder: u128,
    /// Modulo `QUOTIENT_MODULUS`.
    quotient: u32,
    place: i32,
}

impl Division {
    /// Divides `x` by a nonzero `y` in the lower of their two places.
    fn of(x: Magnitude, y: Magnitude) -> Division {
        let mut divisor = y.significand;
        let mut divisor_place = y.place;
        while divisor_place > x.place && divisor < BEYOND_TWICE_A_SIGNIFICAND {
            divisor <<= 1;
            divisor_place -= 1;
        }
        let place = x.place.min(y.place);
        let mut division = Division {
            divisor,
            remainder: 0,
            quotient: 0,
            place,
        };
        for digit in (0..x.digits()).rev() {
            division.bring_down(x.significand >> digit & 1);
        }
        for _ in place..x.place {
            division.bring_down(0);
        }
        division
    }

    /// Appends one binary digit to the dividend.
    fn bring_down(&mut self, digit: u128) {
        self.remainder = 2 * self.remainder + digit;
        self.quotient = 2 * self.quotient % QUOTIENT_MODULUS;
        if self.remainder >= self.divisor {
            self.remainder -= self.divisor;
            self.quotient += 1;
        }
    }

    /// Whether the nearest quotient is the next one up; a half goes to the even one.
    fn rounds_up(&self) -> bool {
        let doubled = 2 * self.remainder;
        doubled > self.divisor || (doubled == self.divisor && self.quotient % 2 == 1)
    }

    /// Takes the next quotient up. The remainder is then below zero; its magnitude is kept.
    fn round_up(&mut self) {
        self.remainder = self.divisor - self.remainder;
        self.quotient = (self.quotient + 1) % QUOTIENT_MODULUS;
    }

    fn remainder_pattern(&self, format: Format, negative: bool) -> u128 {
        format.write(negative, self.remainder, self.place.into())
    }
}

/// What a step gives: a pattern, and its part of the quotient modulo `QUOTIENT_MODULUS`.
pub(crate) struct Step {
    pub(crate) finished: bool,
    pub(crate) value: u128,
    pub(crate) quotient: u32,
}

/// One step of `size` on operands that no check has refused.
pub(crate) fn step(format: Format, kind: Kind, size: u32, x: Operand, y: Operand) -> Step {
    let gap = gap(x, y);
    let finished = gap < FINISHING_GAP;
    let (value, quotient) = if finished {
        whole_remainder(format, kind, x, y)
    } else {
        partial_remainder(format, gap - size as i32, x, y)
    };
    Step {
        finished,
        value,
        quotient,
    }
}

/// The dividend's exponent less the divisor's. A zero dividend has no exponent and an infinite
/// divisor none either; both finish at once, as a gap of 0 does.
fn gap(x: Operand, y: Operand) -> i32 {
    if x.class == Class::Finite && y.class == Class::Finite {
        x.magnitude.exponent() - y.magnitude.exponent()
    } else {
        0
    }
}

/// `x - Q * y` and `Q`, cut or rounded. Only a nonzero remainder changes sides, so that a zero has
/// the sign of `x`.
pub(crate) fn whole_remainder(format: Format, kind: Kind, x: Operand, y: Operand) -> (u128, u32) {
    if y.class == Class::Infinite {
        return (format.ordinary(x), 0);
    }
    let mut division = Division::of(x.magnitude, y.magnitude);
    let up = kind == Kind::Nearest && division.rounds_up();
    if up {
        division.round_up();
    }
    let value = division.remainder_pattern(format, x.negative != up);
    (value, division.quotient)
}

/// `x - QQ * 2^shift * y` and `QQ * 2^shift`, with `QQ` the quotient of `x` by `2^shift * y`, cut
/// in both kinds. A zero keeps the sign of `x`.
fn partial_remainder(format: Format, shift: i32, x: Operand, y: Operand) -> (u128, u32) {
    let raised = Magnitude {
        place: y.magnitude.place + shift,
        ..y.magnitude
    };
    let division = Division::of(x.magnitude, raised);
    let mut quotient = division.quotient;
    let mut doublings = shift;
    while doublings > 0 && quotient != 0 {
        quotient = 2 * quotient % QUOTIENT_MODULUS;
        doublings -= 1;
    }
    (division.remainder_pattern(format, x.negative), quotient)
}
