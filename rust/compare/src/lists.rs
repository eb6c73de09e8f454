//! Lists of x87 steps and runs, each from the value that the last accepted call gave: x y kind
//! calls, then last value, last number, steps, quotient, finished.
//!
//! Commas part the calls: s33 is a step of size 33, r63:5 a run of size 63 with budget 5. A b
//! behind a call is a block of the wrong length. A - stands for no call, and for no number.

use crate::call::{divided, remained, Call, Implementation, Pair, Shown, LENGTH};
use crate::fields::{number, Fields};
use crate::Comparison;
use second::{Answer, Format, Kind};
use zukemoriha::QUOTIENT_MODULUS;

/// The number of a list none of whose calls was accepted.
const NONE: u8 = u8::MAX;

/// A file that shows quotients modulo `modulus`, and how many of its lists finish: those come to the
/// remainder of one call, and tell of denormals what it tells.
pub fn compare<'a>(pair: Pair<'a>, modulus: u32, text: &str) -> (Comparison<'a>, u64) {
    let shown = Shown {
        modulus,
        denormal: false,
    };
    let mut comparison = Comparison::new(pair);
    let mut finished = 0;
    for line in text.lines() {
        let mut f = Fields(line.split_whitespace());
        let (x, y, kind) = (f.pattern(Format::X87), f.pattern(Format::X87), f.kind());
        let calls: Vec<&str> = f.word().split(',').filter(|&word| word != "-").collect();
        let expected = ending(&mut f);
        assert!(f.is_empty(), "too long: {line}");

        let [ours, theirs] = comparison.ask(|who| follow(who, &calls, kind, x, y));
        let expected = shown.completed(expected, &ours.1);
        comparison.hold(&line, &[&ours.0, &theirs.0], None);
        comparison.hold(&line, &[ours.1, theirs.1], Some(&expected));
        if expected.number == 0 {
            let last = Answer {
                denormal: expected.denormal,
                ..remained(expected.value, 0, expected.quotient)
            };
            comparison.call(&Call::Remainder(Format::X87, kind, x, y), Some(&last));
            finished += 1;
        }
        comparison.lines += 1;
    }
    (comparison, finished)
}

/// The answers to the calls of a list, and what they come to: the last accepted value and number,
/// the steps added up, and the quotients modulo 2^31; of denormals what the first accepted call
/// tells. A list ends at its first 0, and says 1 then. Without an accepted call the value is the
/// dividend as given.
fn follow(
    who: &dyn Implementation,
    calls: &[&str],
    kind: Kind,
    x: u128,
    y: u128,
) -> (Vec<Answer>, Answer) {
    let mut sum = divided(x, NONE, 0, 0);
    let mut answers = Vec::new();
    for word in calls {
        let told = who.answer(&call(word, kind, sum.value, y));
        answers.push(told);
        if matches!(told.number, 0 | 1 | 7) {
            let told_part = told.quotient % QUOTIENT_MODULUS;
            let quotient = (sum.quotient + told_part) % QUOTIENT_MODULUS;
            let steps = sum.steps.wrapping_add(told.steps);
            let first = if sum.number == NONE { &told } else { &sum };
            sum = Answer {
                denormal: first.denormal,
                ..divided(told.value, told.number, quotient, steps)
            };
        }
        if told.number == 0 {
            sum.says = 1;
            break;
        }
    }
    (answers, sum)
}

fn call(word: &str, kind: Kind, x: u128, y: u128) -> Call {
    let sizes = word.trim_end_matches('b');
    let length = LENGTH + word.len() - sizes.len();
    match (sizes.strip_prefix('s'), sizes.strip_prefix('r')) {
        (Some(size), _) => Call::Step(kind, number(size), x, y, length),
        (_, Some(run)) => {
            let (size, budget) = run.split_once(':').expect("a budget");
            Call::Run(kind, number(size), number(budget), x, y, length)
        }
        _ => panic!("no call: {word}"),
    }
}

fn ending(f: &mut Fields) -> Answer {
    let (value, word, steps) = (f.pattern(Format::X87), f.word(), f.number());
    let number = if word == "-" { NONE } else { number(word) };
    let mut ending = divided(value, number, f.number(), steps);
    ending.says = f.number();
    ending
}
