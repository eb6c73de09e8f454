//! Exact remainders, partial steps, scaling and splitting on bit patterns, and stem files, by the
//! plainest method there is: the raw fields of a pattern, and long division one bit at a time. It
//! exists to be compared with, so it is meant to be obvious rather than quick.
#![forbid(unsafe_code)]
#![warn(missing_docs)]

mod block;
mod checks;
mod difference;
mod division;
mod facts;
mod format;
mod scaling;
pub mod stem;

use checks::{first_refusal, Task, BAD_SIZE, FINISHED, NAN, PARTIAL, SPENT};
use format::{Class, Operand};

pub use block::{block, BLOCK_LENGTH};
pub use division::{QUOTIENT_MODULUS, SHOWN_MODULUS};
pub use format::Format;

/// The quotient byte of a place in a list whose dividend is a NaN or infinite.
const MARK: u8 = 255;

/// The two remainders. Both are `x - Q * y`; they differ in how `Q` is made whole.
#[derive(Clone, Copy, Debug, PartialEq, Eq)]
pub enum Kind {
    /// The quotient is cut: C's `fmod`, and FPREM.
    Truncated,
    /// The quotient is rounded to nearest, a half to even: IEEE 754's remainder, and FPREM1.
    Nearest,
}

/// What a call tells. What an operation does not tell is 0. Under a refusal the value is a NaN,
/// quotients, steps and exponent are 0, and scaling says exact.
#[derive(Clone, Copy, Debug, PartialEq, Eq)]
pub struct Answer {
    /// 0 finished, 1 partial, 7 budget spent; any other number is a refusal.
    pub number: u8,
    /// The pattern of the result: the ordinary one, where x87 has two for a value. Under number 3
    /// it is that of the NaN operand, quiet, and under any other refusal the house NaN.
    pub value: u128,
    /// The quotient's magnitude modulo 2^31, or the part of it that was taken.
    pub quotient: u32,
    /// The same with the quotient's sign (remquo).
    pub signed: i32,
    /// How many steps were taken (step and run).
    pub steps: u32,
    /// What scaling did to the magnitude: 0 exact, 1 rounded up, 2 rounded down.
    pub says: u8,
    /// The place of the leading one (splitting).
    pub exponent: i32,
    /// Whether an operand as given was denormal: every operation tells it, but under number 6.
    pub denormal: bool,
}

impl Answer {
    fn new(number: u8, value: u128) -> Answer {
        Answer {
            number,
            value,
            quotient: 0,
            signed: 0,
            steps: 0,
            says: scaling::EXACT,
            exponent: 0,
            denormal: false,
        }
    }

    fn refused(format: Format, number: u8, operands: &[Operand]) -> Answer {
        let value = match number {
            NAN => facts::nan(format, operands),
            _ => format.layout().house_nan,
        };
        Answer::new(number, value).on(operands)
    }

    /// The same, with what it tells of the operands.
    fn on(self, operands: &[Operand]) -> Answer {
        let denormal = self.number != BAD_SIZE && facts::any_denormal(operands);
        Answer { denormal, ..self }
    }
}

/// Whether a pattern is that of a denormal, the pseudo-denormals of x87 among them.
pub fn denormal(format: Format, x: u128) -> bool {
    facts::any_denormal(&[format.read(x)])
}

/// The NaN that number 3 speaks of where `x` and `y` are the operands, quiet; the house NaN where
/// neither is a NaN. It does not matter here whether the other one is unsupported.
pub fn nan(format: Format, x: u128, y: u128) -> u128 {
    facts::nan(format, &[format.read(x), format.read(y)])
}

/// The whole remainder of `x` by `y` in one call: number, value and quotient.
pub fn remainder(format: Format, kind: Kind, x: u128, y: u128) -> Answer {
    let (x, y) = (format.read(x), format.read(y));
    if let Some(number) = first_refusal(Task::Divide, None, x, Some(y)) {
        return Answer::refused(format, number, &[x, y]);
    }
    let (value, quotient) = division::whole_remainder(format, kind, x, y);
    Answer {
        quotient,
        ..Answer::new(FINISHED, value).on(&[x, y])
    }
}

/// The same remainder: number, value and signed quotient, which is below zero where one operand is
/// and the other is not.
pub fn remquo(format: Format, kind: Kind, x: u128, y: u128) -> Answer {
    let unsigned = remainder(format, kind, x, y);
    let magnitude = unsigned.quotient as i32;
    let signed = if format.read(x).negative == format.read(y).negative {
        magnitude
    } else {
        -magnitude
    };
    Answer {
        signed,
        quotient: 0,
        ..unsigned
    }
}

/// One step of `size` on x87 patterns, as FPREM and FPREM1 take it: a run with a budget of one,
/// but for the number of a step that does not finish.
pub fn step(kind: Kind, size: u32, x: u128, y: u128) -> Answer {
    let mut answer = run(kind, size, 1, x, y);
    if answer.number == SPENT {
        answer.number = PARTIAL;
    }
    answer
}

/// Steps of one `size` on x87 patterns, up to the first that finishes or until `budget` is spent.
pub fn run(kind: Kind, size: u32, budget: u32, x: u128, y: u128) -> Answer {
    let format = Format::X87;
    let (x, y) = (format.read(x), format.read(y));
    if let Some(number) = first_refusal(Task::Divide, Some(size), x, Some(y)) {
        return Answer::refused(format, number, &[x, y]);
    }
    let mut answer = Answer::new(SPENT, format.ordinary(x)).on(&[x, y]);
    while answer.number == SPENT && answer.steps < budget {
        let step = division::step(format, kind, size, format.read(answer.value), y);
        answer.value = step.value;
        answer.quotient = (answer.quotient + step.quotient) % QUOTIENT_MODULUS;
        answer.steps += 1;
        if step.finished {
            answer.number = FINISHED;
        }
    }
    answer
}

/// `x` times two to the `power`, rounded once, ties to even: number, value and what it says.
pub fn scale(format: Format, x: u128, power: i32) -> Answer {
    let operand = format.read(x);
    if let Some(number) = first_refusal(Task::Scale, None, operand, None) {
        return Answer::refused(format, number, &[operand]);
    }
    if operand.class != Class::Finite {
        return Answer::new(FINISHED, x);
    }
    let (value, says) = scaling::scale(format, operand, power);
    Answer {
        says,
        ..Answer::new(FINISHED, value).on(&[operand])
    }
}

/// `x` as a significand of magnitude from 1 to below 2 (the value) and an exponent.
pub fn split(format: Format, x: u128) -> Answer {
    let x = format.read(x);
    if let Some(number) = first_refusal(Task::Split, None, x, None) {
        return Answer::refused(format, number, &[x]);
    }
    let (value, exponent) = scaling::split(format, x);
    Answer {
        exponent,
        ..Answer::new(FINISHED, value).on(&[x])
    }
}

/// A list of remainders: a result and a quotient byte a place, and how many places are marked.
#[derive(Clone, Debug, PartialEq, Eq)]
pub struct Folded {
    /// The remainders. In their place a NaN dividend stands itself, quiet, and the house NaN for an
    /// infinite one.
    pub results: Vec<u64>,
    /// The quotients modulo 8; 255 where the dividend is a NaN or infinite.
    pub quotients: Vec<u8>,
    /// How many places hold a NaN or infinite dividend.
    pub marked: usize,
}

/// The remainders of binary64 `dividends` by one `divisor`.
///
/// # Errors
/// The number that refuses the whole list: 3 for a NaN divisor, 5 for a zero one.
pub fn fold(kind: Kind, dividends: &[u64], divisor: u64) -> Result<Folded, u8> {
    let by_divisor = |x: u64| remainder(Format::Binary64, kind, x.into(), divisor.into());
    // Zero is a good dividend, so whatever refuses zero by the divisor is the divisor's fault.
    let number = by_divisor(0).number;
    if number != FINISHED {
        return Err(number);
    }
    let answers: Vec<Answer> = dividends.iter().map(|&x| by_divisor(x)).collect();
    let byte = |answer: &Answer| match answer.number {
        FINISHED => (answer.quotient % SHOWN_MODULUS) as u8,
        _ => MARK,
    };
    let is_marked = |answer: &&Answer| answer.number != FINISHED;
    Ok(Folded {
        results: answers.iter().map(|answer| answer.value as u64).collect(),
        quotients: answers.iter().map(byte).collect(),
        marked: answers.iter().filter(is_marked).count(),
    })
}
