//! The library's answers. What it is lent lies among filled bytes, so that a call that writes more
//! than it may, or anything with a refusal, is seen.

use crate::call::{
    divided, is_denormal, refused, remained, scaled, signed, split, Call, Implementation, MISWROTE,
};
use second::stem::{Gauge, Point, Stem, ROLLER, TURN};
use second::{Answer, Folded, Format, Kind, SHOWN_MODULUS};
use std::ops::Range;
use zukemoriha::{binary16, binary32, binary64, x87, Block, Refusal};
use zukemoriha::{Refused, Remainder, Remquo, Scaled, Split, Stepped, X87};

const FILLED: u8 = 0xA5;
/// Filled bytes on either side of a block or a room.
const SIDE: usize = 16;
/// What stands where a length goes, and beside it.
const FILLED_LENGTH: usize = usize::from_ne_bytes([FILLED; 8]);
/// What stands where a value or a quotient goes, and beside it.
const FILLED_PLACE: u64 = u64::from_ne_bytes([FILLED; 8]);

/// Calls a function of the format's own module, on operands of its own type, and puts what it
/// returns into a form for all formats.
macro_rules! in_format {
    ($format:ident, $function:ident($($x:ident),*; $($other:expr),*).$form:ident()) => {
        match $format {
            Format::Binary16 => binary16::$function($($x as u16,)* $($other),*).$form(),
            Format::Binary32 => binary32::$function($($x as u32,)* $($other),*).$form(),
            Format::Binary64 => binary64::$function($($x as u64,)* $($other),*).$form(),
            Format::X87 => x87::$function($(operand($x),)* $($other),*).$form(),
        }
    };
}

/// A pattern.
trait Bits {
    fn bits(self) -> u128;
}

macro_rules! integer_bits {
    ($($pattern:ty),*) => {
        $(impl Bits for $pattern {
            fn bits(self) -> u128 {
                self.into()
            }
        })*
    };
}

integer_bits!(u16, u32, u64);

impl Bits for X87 {
    fn bits(self) -> u128 {
        u128::from(self.word) << 64 | u128::from(self.significand)
    }
}

/// What a call returns.
trait Told {
    fn answer(self) -> Answer;
}

impl<T: Told, U: Told> Told for Result<T, U> {
    fn answer(self) -> Answer {
        self.map_or_else(Told::answer, Told::answer)
    }
}

impl<T: Bits> Told for Remainder<T> {
    fn answer(self) -> Answer {
        let answer = remained(self.value.bits(), 0, self.quotient);
        on(answer, self.denormal)
    }
}

impl<T: Bits> Told for Remquo<T> {
    fn answer(self) -> Answer {
        let answer = signed(self.value.bits(), 0, self.quotient);
        on(answer, self.denormal)
    }
}

impl<T: Bits> Told for Scaled<T> {
    fn answer(self) -> Answer {
        let answer = scaled(self.value.bits(), 0, self.rounding as u8);
        on(answer, self.denormal)
    }
}

impl<T: Bits> Told for Split<T> {
    fn answer(self) -> Answer {
        let answer = split(self.significand.bits(), 0, self.exponent);
        on(answer, self.denormal)
    }
}

impl Told for Stepped {
    fn answer(self) -> Answer {
        let Stepped { block, denormal } = self;
        let (value, number) = (block.value.bits(), block.answer.number());
        on(
            divided(value, number, block.quotient, block.steps),
            denormal,
        )
    }
}

impl<T: Bits> Told for Refused<T> {
    fn answer(self) -> Answer {
        refused(self.value.bits(), self.refusal.number(), self.denormal)
    }
}

impl Told for bool {
    fn answer(self) -> Answer {
        is_denormal(self)
    }
}

fn on(answer: Answer, denormal: bool) -> Answer {
    Answer { denormal, ..answer }
}

pub struct Library;

impl Implementation for Library {
    fn name(&self) -> &'static str {
        "library"
    }

    fn answer(&self, call: &Call) -> Answer {
        match *call {
            Call::Remainder(format, kind, x, y) => {
                in_format!(format, remainder(x, y; kind_of(kind)).answer())
            }
            Call::Remquo(format, kind, x, y) => {
                in_format!(format, remquo(x, y; kind_of(kind)).answer())
            }
            Call::Step(kind, size, x, y, length) => lent(length, |room, block| {
                let (x, y) = (operand(x), operand(y));
                x87::step_into(x, y, size, kind_of(kind), &mut room[block])
            }),
            Call::Run(kind, size, budget, x, y, length) => lent(length, |room, block| {
                let (x, y) = (operand(x), operand(y));
                x87::run_into(x, y, size, kind_of(kind), budget, &mut room[block])
            }),
            Call::Scale(format, x, power) => in_format!(format, scale(x; power).answer()),
            Call::Split(format, x) => in_format!(format, split(x;).answer()),
            Call::Denormal(format, x) => in_format!(format, denormal(x;).answer()),
            Call::Nan(format, x, y) => remained(in_format!(format, nan(x, y;).bits()), 0, 0),
        }
    }

    fn fold(&self, kind: Kind, dividends: &[u64], divisor: u64) -> Result<Folded, u8> {
        let n = dividends.len();
        lent_lists(n, |results, quotients| {
            let (results, quotients) = (&mut results[..n], &mut quotients[..n]);
            binary64::fold(dividends, results, quotients, divisor, kind_of(kind))
        })
    }

    fn open(&self, file: &[u8]) -> Result<Stem, u8> {
        let stem = zukemoriha::Stem::open(file).map_err(Refusal::number)?;
        let (kind, period, origin) = match stem.gauge() {
            zukemoriha::Gauge::Turn { period } => (TURN, period, 0),
            zukemoriha::Gauge::Roller { period, origin } => (ROLLER, period, origin),
        };
        let gauge = Gauge {
            kind,
            period,
            origin,
        };
        let points = stem.points().map(point_of).collect();
        Ok(Stem { gauge, points })
    }

    fn fold_point(&self, gauge: Gauge, point: Point) -> Result<Point, u8> {
        let Point { reading, radius } = point;
        let folded = safe(gauge).fold(zukemoriha::Point { reading, radius });
        folded.map(point_of).map_err(Refusal::number)
    }

    fn write(
        &self,
        gauge: Gauge,
        readings: &[u64],
        radii: &[u64],
        room: usize,
    ) -> Result<Vec<u8>, u8> {
        lent_room(room, |bytes, room| {
            let room = &mut bytes[room];
            let written = zukemoriha::Stem::write(safe(gauge), readings, radii, room);
            written.map_err(Refusal::number)
        })
    }
}

fn safe(gauge: Gauge) -> zukemoriha::Gauge {
    let (period, origin) = (gauge.period, gauge.origin);
    match (gauge.kind, origin) {
        (TURN, 0) => zukemoriha::Gauge::Turn { period },
        (ROLLER, _) => zukemoriha::Gauge::Roller { period, origin },
        _ => panic!("not a gauge of the safe functions: {gauge:X?}"),
    }
}

fn point_of(point: zukemoriha::Point) -> Point {
    let zukemoriha::Point { reading, radius } = point;
    Point { reading, radius }
}

/// What a call that is lent a block tells. It gets the whole room, and where the block lies in it.
pub fn lent<F>(length: usize, call: F) -> Answer
where
    F: FnOnce(&mut [u8], Range<usize>) -> Result<Stepped, Refused<X87>>,
{
    let mut room = vec![FILLED; SIDE + length + SIDE];
    let place = SIDE..SIDE + length;
    let told = call(&mut room, place.clone());
    let written = room[place.clone()].to_vec();
    if told.is_ok() {
        room[place].fill(FILLED);
    }
    let kept = room.iter().all(|&byte| byte == FILLED);
    let is_right = told.map_or(true, |told| is_laid_out(&told, &written));
    match kept && is_right {
        true => told.answer(),
        false => refused(0, MISWROTE, false),
    }
}

/// Whether a block's bytes have its fields, laid out as the second implementation does it.
fn is_laid_out(told: &Stepped, bytes: &[u8]) -> bool {
    let block = told.block;
    let read = bytes.try_into().ok().and_then(Block::from_bytes);
    read == Some(block)
        && u32::from(block.octant) == block.quotient % SHOWN_MODULUS
        && second::block(&told.answer()) == bytes
}

/// What a fold that is lent lists of `n` places tells. It gets them with one place more.
///
/// # Errors
/// The number that refuses the list.
pub fn lent_lists<F>(n: usize, fold: F) -> Result<Folded, u8>
where
    F: FnOnce(&mut [u64], &mut [u8]) -> Result<usize, Refusal>,
{
    let (mut results, mut quotients) = (vec![FILLED_PLACE; n + 1], vec![FILLED; n + 1]);
    let told = fold(&mut results, &mut quotients);
    let written = if told.is_ok() { n } else { 0 };
    let kept = results.drain(written..).all(|place| place == FILLED_PLACE)
        && quotients.drain(written..).all(|byte| byte == FILLED);
    match told {
        _ if !kept => Err(MISWROTE),
        Err(why) => Err(why.number()),
        Ok(marked) => Ok(Folded {
            results,
            quotients,
            marked,
        }),
    }
}

/// The value and the 32 bits of a quotient that a call writes which returns a number. It gets seven
/// places of eight bytes: the value goes to the second, the word of x87 to the fourth, and the
/// quotient to the sixth.
///
/// # Errors
/// The number that the call returns.
pub fn lent_places<F>(format: Format, call: F) -> Result<(u128, u32), u8>
where
    F: FnOnce(&mut [u64; 7]) -> u8,
{
    let mut places = [FILLED_PLACE; 7];
    let number = call(&mut places);
    let (value, word) = match format {
        Format::Binary16 => (2, 0),
        Format::Binary32 => (4, 0),
        Format::Binary64 => (8, 0),
        Format::X87 => (8, 2),
    };
    let is_filled = |(place, bytes): (&u64, usize)| {
        let behind = &place.to_le_bytes()[bytes..];
        behind.iter().all(|&byte| byte == FILLED)
    };
    let bytes = match number {
        0 => [0, value, 0, word, 0, 4, 0],
        _ => [0; 7],
    };
    let kept = places.iter().zip(bytes).all(is_filled);
    let written = |at: usize| u128::from(places[at]) & ((1 << (8 * bytes[at])) - 1);
    match number {
        _ if !kept => Err(MISWROTE),
        0 => Ok((written(3) << 64 | written(1), written(5) as u32)),
        _ => Err(number),
    }
}

/// What a call that is lent a room writes to its front. It gets the room among other bytes, and where
/// it lies in them. All are filled, each otherwise than its neighbour, so that moved ones are seen.
///
/// # Errors
/// The number that the call tells.
pub fn lent_room<F>(length: usize, write: F) -> Result<Vec<u8>, u8>
where
    F: FnOnce(&mut [u8], Range<usize>) -> Result<usize, u8>,
{
    let filled: Vec<u8> = (0..SIDE + length + SIDE)
        .map(|at| FILLED ^ at as u8)
        .collect();
    let mut bytes = filled.clone();
    let written = write(&mut bytes, SIDE..SIDE + length);
    let front = *written.as_ref().unwrap_or(&0);
    if front > length {
        return Err(MISWROTE);
    }
    let file = SIDE..SIDE + front;
    let kept =
        bytes[..file.start] == filled[..file.start] && bytes[file.end..] == filled[file.end..];
    match written {
        _ if !kept => Err(MISWROTE),
        Err(number) => Err(number),
        Ok(_) => Ok(bytes[file].to_vec()),
    }
}

/// The length that a call writes which returns a number. It gets the place for it between two others.
///
/// # Errors
/// The number that the call returns.
pub fn lent_length<F>(call: F) -> Result<usize, u8>
where
    F: FnOnce(&mut [usize; 3]) -> u8,
{
    let mut places = [FILLED_LENGTH; 3];
    match (call(&mut places), places) {
        (0, [FILLED_LENGTH, length, FILLED_LENGTH]) => Ok(length),
        (number, [FILLED_LENGTH, FILLED_LENGTH, FILLED_LENGTH]) => Err(number),
        _ => Err(MISWROTE),
    }
}

fn kind_of(kind: Kind) -> zukemoriha::Kind {
    match kind {
        Kind::Truncated => zukemoriha::Kind::Truncated,
        Kind::Nearest => zukemoriha::Kind::Nearest,
    }
}

fn operand(x: u128) -> X87 {
    X87 {
        significand: x as u64,
        word: (x >> 64) as u16,
    }
}
