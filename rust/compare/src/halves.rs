//! Scalings that cut off every number of places, with left-overs around a half of what is cut.
//!
//! A significand has its leading one at bit 63, and places are counted from its bit 0: a format of
//! `p` digits has nothing there in the first `64 - p` of them. With fewer than 24 places a value of
//! binary16 is beyond the range.

use crate::call::{Call, Pair};
use crate::formats::{Layout, FORMATS};
use crate::operands::Draw;
use crate::sequence::Covered;
use crate::Comparison;
use std::collections::BTreeSet;

const SEED: u64 = 3;
const LEADING: u64 = 1 << 63;
/// From so many places on there are 32 quotients, or fewer.
const FEW: u64 = 58;
const DRAWN: u128 = 8;

/// A value, the power that cuts places off, and whether they hold a half.
struct Case {
    x: u128,
    power: i32,
    is_half: bool,
}

/// Every number of places up to `most`, in each format. From 64 on nothing is kept, and from 65 on
/// nothing goes up. Returns also how often a format had a half, and said what.
pub fn compare(pair: Pair, most: u64) -> (Comparison, Covered) {
    let mut comparison = Comparison::new(pair);
    let mut covered = Covered::new();
    let mut draw = Draw(SEED);
    for format in FORMATS {
        let mut note = |seen: &str| *covered.entry(format!("{format:?} {seen}")).or_insert(0) += 1;
        for case in cases(&Layout::of(format), most, &mut draw) {
            let told = comparison.call(&Call::Scale(format, case.x, case.power), None);
            note(&format!("says {}", told.says));
            if case.is_half {
                note("at a half");
            }
        }
    }
    (comparison, covered)
}

fn cases(layout: &Layout, most: u64, draw: &mut Draw) -> Vec<Case> {
    let mut cases = Vec::new();
    for places in 0..=most {
        for significand in significands(layout, places, draw) {
            cases.extend(scalings(layout, significand, places));
        }
    }
    cases
}

/// One significand, with its leading one at the lowest place that has room for all digits, where
/// that is not higher at the largest denormal's, at that of the smallest normal number, of 1 and of
/// the largest number, and in x87 as a pseudo-denormal, with both signs.
fn scalings(layout: &Layout, significand: u64, places: u64) -> Vec<Case> {
    let lowest = 63 - u64::from(significand.trailing_zeros());
    let normal = layout.precision - 1;
    let one = layout.top() - layout.ones() / 2;
    let from = BTreeSet::from([lowest, lowest.max(normal - 1), normal, one, layout.top()]);
    let is_half = places <= 64 && (u128::from(significand) << (64 - places)) as u64 == LEADING;
    let scaled = |(place, x): (u64, u128)| Case {
        x,
        power: 63 - place as i32 - places as i32,
        is_half,
    };
    let placed = |place| [0, 1].map(|sign| (place, layout.placed(sign, place, significand)));
    let pseudo = [0, 1].map(|sign| layout.pseudo_denormal(sign, significand));
    let pseudo = pseudo.into_iter().flatten().map(|x| (normal, x));
    let patterns = from.into_iter().flat_map(placed).chain(pseudo);
    patterns.map(scaled).collect()
}

/// Quotients with left-overs. Where nothing can be left over, or nothing can go up: the first digit,
/// with the last, all, all but the last, and drawn ones.
fn significands(layout: &Layout, places: u64, draw: &mut Draw) -> BTreeSet<u64> {
    let last = 1 << (64 - layout.precision);
    if places > 64 || places <= 64 - layout.precision {
        let (all, drawn) = (u64::MAX - (last - 1), draw.bits());
        let [some, others] = [drawn, !drawn].map(|digits| LEADING | digits & all);
        return BTreeSet::from([LEADING, LEADING | last, all, all - last, some, others]);
    }
    let wholes = quotients(places, draw).into_iter().flat_map(|quotient| {
        let left_overs = left_overs(places, last.into(), draw).into_iter();
        left_overs.map(move |left| (quotient << places | left) as u64)
    });
    // the leading one of quotient 0 is left over
    wholes.filter(|&digits| digits >= LEADING).collect()
}

/// All where they are few, else both ends of their range, and drawn ones, even and odd by turns.
fn quotients(places: u64, draw: &mut Draw) -> Vec<u128> {
    let [least, most] = [LEADING, u64::MAX].map(|end| u128::from(end) >> places);
    if places >= FEW {
        return (least..=most).collect();
    }
    let drawn = (0..DRAWN).map(|i| least | u128::from(draw.bits()) & (most - 1) | (i % 2));
    let ends = [least, least + 1, most - 1, most];
    ends.into_iter().chain(drawn).collect()
}

/// Nothing, the least, some and just below a half; a half, just above it, some more and the most.
fn left_overs(places: u64, last: u128, draw: &mut Draw) -> Vec<u128> {
    let half = 1 << (places - 1);
    let some = u128::from(draw.bits()) & (half - last);
    let below = [0, last, some, half - last];
    [below, below.map(|left| half | left)].concat()
}
