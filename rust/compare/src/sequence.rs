//! A generated sequence of operand pairs, each through every operation that its format has, and
//! what it covers.

use crate::call::{signed, Call, Pair, LENGTH};
use crate::formats::{Layout, FORMATS};
use crate::operands::{Draw, BANDS};
use crate::Comparison;
use second::{Answer, Format, Kind};
use std::cmp::Ordering;
use std::collections::BTreeMap;

const SEED: u64 = 1;
/// Pseudo-denormals are drawn by themselves: the pairs of the other formats do not depend on them.
const PSEUDO_SEED: u64 = 2;
/// And so are NaNs.
const NAN_SEED: u64 = 4;

/// How often a thing was seen, by a name that begins with the format.
pub type Covered = BTreeMap<String, u64>;

/// So many pairs, the formats by turns.
pub fn compare(pair: Pair, pairs: usize) -> (Comparison, Covered) {
    let mut comparison = Comparison::new(pair);
    let mut covered = Covered::new();
    let (mut draw, mut pseudo_draw, mut nan_draw) = (Draw(SEED), Draw(PSEUDO_SEED), Draw(NAN_SEED));
    for format in FORMATS.into_iter().cycle().take(pairs) {
        let layout = Layout::of(format);
        let mut note =
            |seen: String| *covered.entry(format!("{format:?} {seen}")).or_insert(0) += 1;
        let drawn = pseudo_draw.with_pseudo_denormals(&layout, draw.pair(&layout));
        let (x, y) = nan_draw.with_nans(&layout, drawn);
        let ((x_class, x_place), (y_class, y_place)) = (layout.sorted(x), layout.sorted(y));
        note(format!("{x_class} by {y_class}"));
        if [x_class, y_class]
            .iter()
            .all(|class| class.ends_with("normal"))
        {
            note(format!("gap {}", band(layout.top(), x_place, y_place)));
        }
        if let Some(nans) = nans(&layout, x, y) {
            note(nans);
        }
        let signs_differ = layout.is_negative(x) != layout.is_negative(y);
        let mut expected = None;
        for call in calls(format, &mut draw, x, y) {
            let told = comparison.call(&call, expected.take().as_ref());
            note(format!("number {}", told.number));
            if matches!(call, Call::Remainder(..)) {
                expected = Some(with_sign(&told, signs_differ));
            }
            if matches!(call, Call::Remquo(..)) && told.number == 0 {
                note(quotient_band(told.signed, signs_differ));
            }
            if matches!(call, Call::Scale(..)) && told.number == 0 {
                note(format!("scaling says {}", told.says));
            }
            if let ("pseudo-denormal", Some(how)) = (x_class, returned(&call, told.number)) {
                note(format!("pseudo-denormal {how}"));
            }
            if let Some(denormals) = denormals(&layout, &call, &told) {
                note(denormals);
            }
        }
    }
    (comparison, covered)
}

/// What the NaNs of a pair are, and of two how they differ: which one has more digits below the one
/// that makes it quiet. None where there is no NaN.
fn nans(layout: &Layout, x: u128, y: u128) -> Option<String> {
    let [(x_class, _), (y_class, _)] = [x, y].map(|x| layout.sorted(x));
    let [(x_quiet, x_rest), (y_quiet, y_rest)] = [x, y].map(|x| layout.payload(x));
    let [x_named, y_named] = [x_quiet, y_quiet].map(|is_quiet| match is_quiet {
        true => "quiet NaN",
        false => "signalling NaN",
    });
    let beside = |class| match class {
        "unsupported" => ", beside an unsupported one",
        _ => "",
    };
    match (x_class, y_class) {
        ("NaN", "NaN") => {
            let digits = match x_rest.cmp(&y_rest) {
                Ordering::Less => "fewer",
                Ordering::Equal => "the same",
                Ordering::Greater => "more",
            };
            let signs = match layout.is_negative(x) == layout.is_negative(y) {
                true => "one sign",
                false => "two signs",
            };
            Some(format!("{x_named} by {y_named}, {digits} digits, {signs}"))
        }
        ("NaN", other) => Some(format!("{x_named} for dividend{}", beside(other))),
        (other, "NaN") => Some(format!("{y_named} for divisor{}", beside(other))),
        _ => None,
    }
}

/// What a call with a denormal operand tells of it, with its number; and what is told of a pattern
/// from around the ends of the denormals. None for any other call.
fn denormals(layout: &Layout, call: &Call, told: &Answer) -> Option<String> {
    let yes = if told.denormal { "yes" } else { "no" };
    let (operation, x, y) = match *call {
        Call::Remainder(_, _, x, y) => ("remainder", x, y),
        Call::Remquo(_, _, x, y) => ("remquo", x, y),
        Call::Step(_, _, x, y, _) => ("step", x, y),
        Call::Run(_, _, _, x, y, _) => ("run", x, y),
        Call::Scale(_, x, _) => ("scaling", x, x),
        Call::Split(_, x) => ("splitting", x, x),
        Call::Denormal(_, x) => {
            let pattern = layout.near_denormals(x)?;
            return Some(format!("denormal {yes}, {pattern}"));
        }
        Call::Nan(..) => return None,
    };
    let is_one = |x| layout.sorted(x).0.ends_with("denormal");
    let told = || format!("denormal {yes}, {operation} with number {}", told.number);
    (is_one(x) || is_one(y)).then(told)
}

/// How an accepted call comes to return its dividend, whatever else it is given.
fn returned(call: &Call, number: u8) -> Option<&'static str> {
    match (call, number) {
        (Call::Scale(_, _, 0), 0) => Some("scaled by 0"),
        (Call::Run(_, _, 0, ..), 7) => Some("run, budget 0"),
        _ => None,
    }
}

/// What remquo has to answer, by what the remainder just before it was answered.
fn with_sign(remainder: &Answer, signs_differ: bool) -> Answer {
    let sign = if signs_differ { -1 } else { 1 };
    let quotient = (remainder.quotient as i32).wrapping_mul(sign);
    Answer {
        denormal: remainder.denormal,
        ..signed(remainder.value, remainder.number, quotient)
    }
}

fn quotient_band(quotient: i32, signs_differ: bool) -> String {
    let sign = if signs_differ { "minus" } else { "plus" };
    let least = match quotient.unsigned_abs() {
        0 => return format!("quotient {sign} 0"),
        1..=7 => "1",
        8..=0x3FFF_FFFF => "8",
        _ => "2^30",
    };
    format!("quotient {sign}, from {least}")
}

fn band(top: u64, x: u64, y: u64) -> String {
    match x.checked_sub(y) {
        None => "negative".into(),
        Some(gap) if gap == top => "largest".into(),
        Some(gap) => {
            let least = BANDS.iter().rfind(|&&least| least <= gap).unwrap_or(&0);
            format!("from {least}")
        }
    }
}

/// A scaling and a splitting; of both kinds a remainder and then remquo; in x87 also a step and a run
/// of both kinds; whether either is denormal, and which NaN there is.
fn calls(format: Format, draw: &mut Draw, x: u128, y: u128) -> Vec<Call> {
    let power = power(draw, &Layout::of(format), x);
    let mut calls = vec![Call::Scale(format, x, power), Call::Split(format, x)];
    let (size, budget, length) = (size(draw), budget(draw), length(draw));
    for kind in [Kind::Truncated, Kind::Nearest] {
        calls.push(Call::Remainder(format, kind, x, y));
        calls.push(Call::Remquo(format, kind, x, y));
        if format == Format::X87 {
            calls.push(Call::Step(kind, size, x, y, length));
            calls.push(Call::Run(kind, size, budget, x, y, length));
        }
    }
    calls.extend([x, y].map(|x| Call::Denormal(format, x)));
    calls.push(Call::Nan(format, x, y));
    calls
}

/// Any power, the ends of them, a small one, one that takes x to the largest place, and most often
/// one that takes it to the smallest, where it is rounded.
fn power(draw: &mut Draw, layout: &Layout, x: u128) -> i32 {
    let (_, place) = layout.sorted(x);
    match draw.below(8) {
        0 => i32::MIN,
        1 => i32::MAX,
        2 => draw.bits() as i32,
        3 => draw.below(140) as i32 - 70,
        4 => (layout.top() + draw.below(4)) as i32 - place as i32,
        _ => draw.below(72) as i32 - 6 - place as i32,
    }
}

/// Sizes from 31 to 64, more often the largest, and now and then any.
fn size(draw: &mut Draw) -> u32 {
    match draw.below(16) {
        0 => draw.bits() as u32,
        1..=4 => draw.below(3) as u32 + 61,
        _ => draw.below(34) as u32 + 31,
    }
}

fn budget(draw: &mut Draw) -> u32 {
    match draw.below(8) {
        0..=2 => draw.below(4) as u32,
        3 => draw.below(40) as u32,
        4 => draw.below(1100) as u32,
        5 => draw.bits() as u32,
        _ => u32::MAX,
    }
}

/// Now and then a wrong one: one has no place for the quotient, and one the right last byte.
fn length(draw: &mut Draw) -> usize {
    match draw.below(64) {
        0 => [0, 16, LENGTH - 1, LENGTH + 1, LENGTH + 256][draw.below(5) as usize],
        _ => LENGTH,
    }
}
