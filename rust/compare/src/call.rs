//! A call and its answer, in one form for the library, the second implementation and a file.

use crate::formats::Layout;
use crate::Library;
use second::stem::{self, Gauge, Point, Stem};
use second::{Answer, Folded, Format, Kind, BLOCK_LENGTH, QUOTIENT_MODULUS, SHOWN_MODULUS};

/// A call of one operation, with its operands in this order. A step or a run is lent a block of
/// `length` bytes.
#[derive(Clone, Copy, Debug)]
pub enum Call {
    /// format, kind, dividend, divisor
    Remainder(Format, Kind, u128, u128),
    /// format, kind, dividend, divisor
    Remquo(Format, Kind, u128, u128),
    /// kind, size, dividend, divisor, length
    Step(Kind, u32, u128, u128, usize),
    /// kind, size, budget, dividend, divisor, length
    Run(Kind, u32, u32, u128, u128, usize),
    /// format, value, power
    Scale(Format, u128, i32),
    /// format, value
    Split(Format, u128),
    /// format, value; told is whether it is denormal
    Denormal(Format, u128),
    /// format, dividend, divisor; told is the NaN among them
    Nan(Format, u128, u128),
}

/// Whoever can be asked. What is not written otherwise is the library's.
pub trait Implementation: Sync {
    fn name(&self) -> &'static str;
    fn answer(&self, call: &Call) -> Answer {
        Library.answer(call)
    }
    /// # Errors
    /// The number that refuses the list.
    fn fold(&self, kind: Kind, dividends: &[u64], divisor: u64) -> Result<Folded, u8> {
        Library.fold(kind, dividends, divisor)
    }
    /// # Errors
    /// The number that refuses the stem file.
    fn open(&self, file: &[u8]) -> Result<Stem, u8> {
        Library.open(file)
    }
    /// # Errors
    /// The number that refuses the gauge.
    fn fold_point(&self, gauge: Gauge, point: Point) -> Result<Point, u8> {
        Library.fold_point(gauge, point)
    }
    /// The stem file that is written to the front of a room of so many bytes.
    ///
    /// # Errors
    /// The number that refuses it.
    fn write(
        &self,
        gauge: Gauge,
        readings: &[u64],
        radii: &[u64],
        room: usize,
    ) -> Result<Vec<u8>, u8> {
        Library.write(gauge, readings, radii, room)
    }
}

/// The two that are compared, the library first.
pub type Pair<'a> = [&'a dyn Implementation; 2];

/// The length that a block must have.
pub const LENGTH: usize = BLOCK_LENGTH;

/// No number of an implementation: a call wrote where it may not, its block says another number
/// than it returned or has other bytes than its fields, or it has written more than there is room
/// for.
pub const MISWROTE: u8 = 254;

const BAD_LENGTH: u8 = 9;

/// The answer of a step or a run. Here and below the fields are in the order in which files have
/// them, and no operand is denormal.
pub fn divided(value: u128, number: u8, quotient: u32, steps: u32) -> Answer {
    Answer {
        number,
        value,
        quotient,
        signed: 0,
        steps,
        says: 0,
        exponent: 0,
        denormal: false,
    }
}

/// The answer of a remainder in one call.
pub fn remained(value: u128, number: u8, quotient: u32) -> Answer {
    divided(value, number, quotient, 0)
}

/// The answer of a remainder with a signed quotient.
pub fn signed(value: u128, number: u8, signed: i32) -> Answer {
    let answer = divided(value, number, 0, 0);
    Answer { signed, ..answer }
}

/// What a file shows of its answers.
#[derive(Clone, Copy, Debug)]
pub struct Shown {
    /// Quotients are shown modulo this.
    pub modulus: u32,
    /// Whether a last field tells of denormal operands.
    pub denormal: bool,
}

impl Shown {
    pub const ALL: Shown = Shown {
        modulus: QUOTIENT_MODULUS,
        denormal: true,
    };

    pub const PLAIN: Shown = Shown {
        modulus: QUOTIENT_MODULUS,
        denormal: false,
    };

    pub const OCTANTS: Shown = Shown {
        modulus: SHOWN_MODULUS,
        denormal: false,
    };

    /// What the file of a path shows.
    pub fn by(path: &str) -> Shown {
        if path.contains("octants/") {
            Shown::OCTANTS
        } else if path.contains("plain/") || path.contains("remquo-") {
            Shown::PLAIN
        } else {
            Shown::ALL
        }
    }

    /// An answer that is expected. What is not shown of it is ours.
    pub fn completed(self, expected: Answer, ours: &Answer) -> Answer {
        let rest = ours.quotient % QUOTIENT_MODULUS / self.modulus * self.modulus;
        let denormal = if self.denormal { &expected } else { ours }.denormal;
        Answer {
            quotient: expected.quotient + rest,
            denormal,
            ..expected
        }
    }
}

pub fn scaled(value: u128, number: u8, says: u8) -> Answer {
    let answer = divided(value, number, 0, 0);
    Answer { says, ..answer }
}

pub fn split(value: u128, number: u8, exponent: i32) -> Answer {
    let answer = divided(value, number, 0, 0);
    Answer { exponent, ..answer }
}

pub fn refused(value: u128, number: u8, denormal: bool) -> Answer {
    let answer = divided(value, number, 0, 0);
    Answer { denormal, ..answer }
}

/// What is told of a pattern by itself.
pub fn is_denormal(denormal: bool) -> Answer {
    refused(0, 0, denormal)
}

/// The second implementation. It has no blocks: a wrong length is refused here.
pub struct Second;

impl Implementation for Second {
    fn name(&self) -> &'static str {
        "second"
    }

    fn answer(&self, call: &Call) -> Answer {
        match *call {
            Call::Step(.., x, y, length) | Call::Run(.., x, y, length) if length != LENGTH => {
                let denormal = [x, y].map(|x| second::denormal(Format::X87, x));
                let house_nan = Layout::of(Format::X87).house_nan();
                refused(house_nan, BAD_LENGTH, denormal.contains(&true))
            }
            Call::Remainder(format, kind, x, y) => second::remainder(format, kind, x, y),
            Call::Remquo(format, kind, x, y) => second::remquo(format, kind, x, y),
            Call::Step(kind, size, x, y, _) => second::step(kind, size, x, y),
            Call::Run(kind, size, budget, x, y, _) => second::run(kind, size, budget, x, y),
            Call::Scale(format, x, power) => second::scale(format, x, power),
            Call::Split(format, x) => second::split(format, x),
            Call::Denormal(format, x) => is_denormal(second::denormal(format, x)),
            Call::Nan(format, x, y) => remained(second::nan(format, x, y), 0, 0),
        }
    }

    fn fold(&self, kind: Kind, dividends: &[u64], divisor: u64) -> Result<Folded, u8> {
        second::fold(kind, dividends, divisor)
    }

    fn open(&self, file: &[u8]) -> Result<Stem, u8> {
        stem::open(file)
    }

    fn fold_point(&self, gauge: Gauge, point: Point) -> Result<Point, u8> {
        stem::fold(gauge, point)
    }

    fn write(
        &self,
        gauge: Gauge,
        readings: &[u64],
        radii: &[u64],
        room: usize,
    ) -> Result<Vec<u8>, u8> {
        stem::write(gauge, readings, radii, room)
    }
}
