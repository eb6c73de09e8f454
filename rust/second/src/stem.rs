//! Stem files, read and written, and the folding of their points.
//!
//! A file is read and written as a row of numbers, little-endian: mark, version, kind, count,
//! period, origin, and two for each point.

use crate::checks::FINISHED;
use crate::difference::difference;
use crate::format::{Class, Format, Operand};
use crate::Kind;

const HEADER: u64 = 26;
const POINT: u64 = 16;
const MOST_POINTS: u64 = 4000;
/// The letters S, T and M as one number.
const STM: u64 = 0x4D_5453;

const LISTS: u8 = 9;
const MARK: u8 = 10;
const VERSION: u8 = 11;
const KIND: u8 = 12;
const COUNT: u8 = 13;
const LENGTH: u8 = 14;
const GAUGE: u8 = 15;
const ROOM: u8 = 16;

/// The kind of a gauge that turns.
pub const TURN: u32 = 0;
/// The kind of a gauge that rolls, and has an origin.
pub const ROLLER: u32 = 1;

/// A gauge, as a file has it: any three numbers.
#[derive(Clone, Copy, Debug, PartialEq, Eq)]
pub struct Gauge {
    /// [`TURN`] or [`ROLLER`].
    pub kind: u32,
    /// A binary64 pattern: what readings are folded by.
    pub period: u64,
    /// A binary64 pattern: what is subtracted from them first, if it is a roller.
    pub origin: u64,
}

/// A point: two binary64 patterns.
#[derive(Clone, Copy, Debug, PartialEq, Eq)]
pub struct Point {
    /// What is folded.
    pub reading: u64,
    /// What is kept.
    pub radius: u64,
}

/// What an accepted file holds.
#[derive(Clone, Debug, PartialEq, Eq)]
pub struct Stem {
    /// The gauge that its points are folded by.
    pub gauge: Gauge,
    /// Its points, not folded.
    pub points: Vec<Point>,
}

/// Judges a whole file.
///
/// # Errors
/// The number of the first row that applies: 14, 10, 11, 12, 13, 14 once more, 15.
pub fn open(file: &[u8]) -> Result<Stem, u8> {
    let length = file.len() as u64;
    let count = number(file, 6, 4);
    let gauge = Gauge {
        kind: number(file, 5, 1) as u32,
        period: number(file, 10, 8),
        origin: number(file, 18, 8),
    };
    first(&[
        (length < HEADER, LENGTH),
        (number(file, 0, 3) != STM, MARK),
        (number(file, 3, 2) != 1, VERSION),
        (gauge.kind > ROLLER, KIND),
        (count > MOST_POINTS, COUNT),
        (length != HEADER + POINT * count, LENGTH),
        (!gauge.is_good(), GAUGE),
    ])?;
    let point = |i| {
        let at = (HEADER + POINT * i) as usize;
        Point {
            reading: number(file, at, 8),
            radius: number(file, at + 8, 8),
        }
    };
    let points = (0..count).map(point).collect();
    Ok(Stem { gauge, points })
}

/// Folds one point.
///
/// # Errors
/// The number of the first that applies: 12 for the kind, 15 for a gauge that no file gives.
pub fn fold(gauge: Gauge, point: Point) -> Result<Point, u8> {
    first(&[(gauge.kind > ROLLER, KIND), (!gauge.is_good(), GAUGE)])?;
    let reading = read(point.reading);
    let dividend = if gauge.kind == ROLLER && is_finite(reading) {
        difference(reading, read(gauge.origin))
    } else {
        point.reading.into()
    };
    let format = Format::Binary64;
    // The period is good, so only a dividend that is not finite is refused.
    let left = crate::remainder(format, Kind::Truncated, dividend, gauge.period.into());
    let folded = match left.number {
        FINISHED => left.value,
        _ => format.layout().house_nan,
    };
    Ok(Point {
        reading: folded as u64,
        ..point
    })
}

/// The file that is written to the front of a room of so many bytes.
///
/// # Errors
/// The number of the first row that applies: 9, 12, 13, 15, 16.
pub fn write(gauge: Gauge, readings: &[u64], radii: &[u64], room: usize) -> Result<Vec<u8>, u8> {
    let count = readings.len() as u64;
    first(&[
        (readings.len() != radii.len(), LISTS),
        (gauge.kind > ROLLER, KIND),
        (count > MOST_POINTS, COUNT),
        (!gauge.is_good(), GAUGE),
        ((room as u64) < HEADER + POINT * count, ROOM),
    ])?;
    let header = [
        (STM, 3),
        (1, 2),
        (gauge.kind.into(), 1),
        (count, 4),
        (gauge.period, 8),
        (gauge.origin, 8),
    ];
    let points = readings.iter().zip(radii);
    let points = points.flat_map(|(&reading, &radius)| [(reading, 8), (radius, 8)]);
    let row = header.into_iter().chain(points);
    Ok(row
        .flat_map(|(number, bytes)| digits(number, bytes))
        .collect())
}

impl Gauge {
    fn is_good(&self) -> bool {
        let period = read(self.period);
        let origin_fits = match self.kind {
            TURN => self.origin == 0,
            _ => is_finite(read(self.origin)),
        };
        period.class == Class::Finite && !period.negative && origin_fits
    }
}

/// The number of the first row that applies.
fn first(rows: &[(bool, u8)]) -> Result<(), u8> {
    match rows.iter().find(|(applies, _)| *applies) {
        Some((_, number)) => Err(*number),
        None => Ok(()),
    }
}

/// A number of so many bytes. Bytes that a short file does not have count as 0.
fn number(file: &[u8], at: usize, bytes: usize) -> u64 {
    let bytes = file.iter().skip(at).take(bytes).enumerate();
    bytes.map(|(i, &byte)| u64::from(byte) << (8 * i)).sum()
}

/// So many bytes of a number, the lowest first.
pub(crate) fn digits(number: u64, bytes: u32) -> impl Iterator<Item = u8> {
    (0..bytes).map(move |i| (number >> (8 * i) & 0xFF) as u8)
}

fn read(pattern: u64) -> Operand {
    Format::Binary64.read(pattern.into())
}

fn is_finite(x: Operand) -> bool {
    matches!(x.class, Class::Zero | Class::Finite)
}
