//! Cases that other projects print in their test suites: op format x y expected q where.
//!
//! op is T for a truncated remainder, N for a nearest one, Q for one with its quotient (remquo), S
//! for a scaling by the power y, F for a splitting into the significand `expected` and exponent q.

use crate::call::{refused, Call, Pair};
use crate::fields::{format_named, number, pattern, Fields};
use crate::formats::Layout;
use crate::Comparison;
use second::{Answer, Format, Kind};

const NAN: u8 = 3;

/// A file, and how many of its lines stand among the bad ones. Those are wrong where they were
/// published, a zero with the wrong sign; by IEEE 754 it has the dividend's, and must be so here.
pub fn compare<'a>(pair: Pair<'a>, text: &str, bad: &str) -> (Comparison<'a>, u64) {
    let mut comparison = Comparison::new(pair);
    let mut met = 0;
    for line in text.lines().filter(|line| !line.starts_with('#')) {
        let mut f = Fields(line.split_whitespace());
        let (op, format) = (f.word(), format_named(f.word()));
        let (x, call) = call(op, format, f.word(), f.word());
        let answers = comparison.ask(|who| who.answer(&call));
        let mut expected = printed(op, format, f.word(), f.word(), answers[0]);
        // a reason may stand behind a bad line
        if bad.lines().any(|bad| bad.starts_with(line)) {
            let minus_zero = Layout::of(format).packed(1, 0, 0);
            expected.value ^= minus_zero;
            assert_eq!(expected.value, x & minus_zero, "not bad: {line}");
            met += 1;
        }
        comparison.hold(&line, &answers, Some(&expected));
        comparison.lines += 1;
    }
    (comparison, met)
}

fn call(op: &str, format: Format, x: &str, y: &str) -> (u128, Call) {
    let x = pattern(format, x);
    let call = match op {
        "T" => Call::Remainder(format, Kind::Truncated, x, pattern(format, y)),
        "N" => Call::Remainder(format, Kind::Nearest, x, pattern(format, y)),
        "Q" => Call::Remquo(format, Kind::Nearest, x, pattern(format, y)),
        "S" => Call::Scale(format, x, number(y)),
        "F" => Call::Split(format, x),
        _ => panic!("no operation: {op}"),
    };
    (x, call)
}

/// What a line prints; what it leaves out is ours. Any refusal is right where it prints a NaN. The
/// quotient has a sign and 31 bits, and all of them are compared: with remquo's, and without the
/// sign with that of a remainder.
fn printed(op: &str, format: Format, expected: &str, q: &str, ours: Answer) -> Answer {
    match (expected, ours.number) {
        ("nan", 0) => return refused(Layout::of(format).house_nan(), NAN, ours.denormal),
        ("nan", _) => return ours,
        _ => {}
    }
    let mut printed = ours;
    printed.number = 0;
    printed.value = pattern(format, expected);
    match (op, q) {
        (_, "-") | ("S", _) => {}
        ("F", q) => printed.exponent = number(q),
        ("Q", q) => printed.signed = number(q),
        (_, q) => printed.quotient = number::<i32>(q).unsigned_abs(),
    }
    printed
}
