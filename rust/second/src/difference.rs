//! The difference of two binary64 values: both as whole numbers of the smallest place, in as many
//! digits as the largest value has, subtracted digit by digit and rounded once.

use crate::format::{Format, Operand};

/// The largest value has 2098 digits, a difference one more, and the sign is a digit too.
const LIMBS: usize = 33;
const LIMB_DIGITS: usize = 64;

/// A whole number in two's complement, its lowest limb first.
struct Whole([u64; LIMBS]);

impl Whole {
    /// A finite value, in units of the smallest place.
    fn of(x: Operand) -> Whole {
        let zeros = (x.magnitude.place - Format::Binary64.layout().smallest_place) as usize;
        let (limb, shift) = (zeros / LIMB_DIGITS, zeros % LIMB_DIGITS);
        let shifted = x.magnitude.significand << shift;
        let mut limbs = [0; LIMBS];
        limbs[limb] = shifted as u64;
        limbs[limb + 1] = (shifted >> LIMB_DIGITS) as u64;
        let magnitude = Whole(limbs);
        if x.negative {
            magnitude.negated()
        } else {
            magnitude
        }
    }

    fn less(&self, other: &Whole) -> Whole {
        let mut limbs = [0; LIMBS];
        let mut borrowed = false;
        for (limb, (a, b)) in limbs.iter_mut().zip(self.0.iter().zip(&other.0)) {
            let (without, first) = a.overflowing_sub(*b);
            let (left, second) = without.overflowing_sub(borrowed.into());
            *limb = left;
            borrowed = first || second;
        }
        Whole(limbs)
    }

    fn negated(&self) -> Whole {
        Whole([0; LIMBS]).less(self)
    }

    fn is_negative(&self) -> bool {
        self.digit(LIMBS * LIMB_DIGITS - 1) == 1
    }

    fn digit(&self, at: usize) -> u128 {
        u128::from(self.0[at / LIMB_DIGITS] >> (at % LIMB_DIGITS) & 1)
    }

    /// Where the lowest one stands, and how many digits there are up to the highest; `None` for
    /// zero. Not for a negative number.
    fn ends(&self) -> Option<(usize, usize)> {
        let lowest = self.0.iter().position(|&limb| limb != 0)?;
        let highest = self.0.iter().rposition(|&limb| limb != 0)?;
        Some((
            lowest * LIMB_DIGITS + self.0[lowest].trailing_zeros() as usize,
            (highest + 1) * LIMB_DIGITS - self.0[highest].leading_zeros() as usize,
        ))
    }
}

/// The pattern of `x - y`, rounded once, ties to even. Both are finite.
pub(crate) fn difference(x: Operand, y: Operand) -> u128 {
    let format = Format::Binary64;
    let left = Whole::of(x).less(&Whole::of(y));
    let negative = left.is_negative();
    let magnitude = if negative { left.negated() } else { left };
    match magnitude.ends() {
        // Equal values leave +0. Those of different signs are zeros, and -0 less +0 is -0.
        None => format.write(x.negative && !y.negative, 0, 0),
        Some(ends) => {
            let (significand, place) = rounded(&magnitude, ends);
            format.write(negative, significand, place)
        }
    }
}

/// A nonzero magnitude with as many leading digits as a significand has, and their place.
fn rounded(magnitude: &Whole, (lowest, digits): (usize, usize)) -> (u128, i64) {
    let layout = Format::Binary64.layout();
    let precision = layout.precision as usize;
    let dropped = digits.saturating_sub(precision);
    let kept = (dropped..digits)
        .rev()
        .fold(0, |kept, at| 2 * kept + magnitude.digit(at));
    let half = dropped > 0 && magnitude.digit(dropped - 1) == 1;
    let below_half = lowest + 1 < dropped;
    let up = half && (below_half || kept % 2 == 1);
    let significand = kept + u128::from(up);
    let place = i64::from(layout.smallest_place) + dropped as i64;
    // One digit more than there is room for is a power of two.
    if significand >> precision == 1 {
        (significand / 2, place + 1)
    } else {
        (significand, place)
    }
}
