//! Stem files: what a log scanner has read along a stem, and the gauge that it read with.
//!
//! A file is a header of 26 bytes and 16 bytes a point, all numbers little-endian:
//!
//! | Bytes | |
//! |---|---|
//! | 0 to 2 | the letters S, T, M |
//! | 3 to 4 | version, 1 |
//! | 5 | kind of the gauge: 0 a turn, 1 a roller |
//! | 6 to 9 | count of points, at most 4000 |
//! | 10 to 17 | period, binary64: finite and above zero |
//! | 18 to 25 | origin, binary64: finite for a roller, all zero bytes for a turn |
//! | from 26 | the points, 16 bytes each: reading, then radius, binary64 |
//!
//! [`Stem::open`] judges a whole file before anything is made of it, and borrows the part that
//! holds the points. [`Gauge::fold`] folds a point onto one turn or one roller. [`Stem::write`]
//! writes a whole file to a room that it is lent. Nothing is allocated, and what is opened is not
//! copied, whatever count a file claims to have.
//!
//! ```
//! use zukemoriha::Stem;
//!
//! let file = [
//!     &b"STM"[..],
//!     &1_u16.to_le_bytes(),      // version
//!     &[1],                      // a roller,
//!     &2_u32.to_le_bytes(),      // two points,
//!     &812.5_f64.to_le_bytes(),  // its period
//!     &100.5_f64.to_le_bytes(),  // and its origin
//!     &3400.0_f64.to_le_bytes(), // a reading and a radius
//!     &155.25_f64.to_le_bytes(),
//!     &50.5_f64.to_le_bytes(), // and another two
//!     &156.0_f64.to_le_bytes(),
//! ]
//! .concat();
//!
//! let stem = Stem::open(&file)?;
//! let mut folded = Vec::with_capacity(stem.points().len());
//! for point in stem.points() {
//!     let point = stem.gauge().fold(point)?;
//!     folded.push((f64::from_bits(point.reading), f64::from_bits(point.radius)));
//! }
//! assert_eq!(folded, [(49.5, 155.25), (-50.0, 156.0)]);
//! # Ok::<(), zukemoriha::Refusal>(())
//! ```

use core::iter::FusedIterator;
use core::slice::ChunksExact;

use crate::numbers::{finished, other_version};
use crate::{raw, Refusal};

/// What readings are folded onto. Period and origin are binary64 patterns.
///
/// Every pattern can stand here; [`fold`](Gauge::fold) and [`Stem::write`] refuse those that no
/// file gives.
#[derive(Clone, Copy, Debug, PartialEq, Eq, Hash)]
pub enum Gauge {
    /// One turn of the scanner: readings are angles.
    Turn {
        /// The whole turn: finite and above zero.
        period: u64,
    },
    /// One turn of a feed roller: readings are lengths.
    Roller {
        /// The roller's circumference: finite and above zero.
        period: u64,
        /// Where the stem begins, subtracted from each reading: finite.
        origin: u64,
    },
}

impl Gauge {
    /// Folds a point: its reading becomes the truncated remainder by the period, and its radius is
    /// kept, bit for bit.
    ///
    /// From the reading of a [`Roller`](Gauge::Roller) the origin is subtracted first, rounded
    /// once, ties to even. A reading that is NaN or infinite, or is infinite after that
    /// subtraction, becomes [`HOUSE_NAN`](crate::binary64::HOUSE_NAN). A zero remainder has the
    /// sign of what was divided.
    ///
    /// # Errors
    ///
    /// - [`Refusal::StemGauge`]: the period is not finite and above zero, or the origin is not
    ///   finite
    ///
    /// # Examples
    ///
    /// ```
    /// use zukemoriha::{binary64::HOUSE_NAN, Gauge, Point, Refusal};
    ///
    /// let turn = Gauge::Turn { period: 360.0_f64.to_bits() };
    /// let radius = 155.25_f64.to_bits();
    ///
    /// let point = turn.fold(Point { reading: 1e22_f64.to_bits(), radius })?;
    /// assert_eq!(point, Point { reading: 280.0_f64.to_bits(), radius });
    ///
    /// let lost = turn.fold(Point { reading: f64::INFINITY.to_bits(), radius })?;
    /// assert_eq!(lost, Point { reading: HOUSE_NAN, radius });
    ///
    /// let none = Gauge::Turn { period: 0.0_f64.to_bits() };
    /// assert_eq!(none.fold(point), Err(Refusal::StemGauge));
    /// # Ok::<(), Refusal>(())
    /// ```
    pub fn fold(&self, point: Point) -> Result<Point, Refusal> {
        let (kind, period, origin) = self.fields();
        let mut reading = point.reading;
        // SAFETY: the pointer is to a place of the type that is written.
        let number = unsafe { raw::zk_stem_fold(kind, period, origin, &mut reading) };
        finished(number)?;
        Ok(Point { reading, ..point })
    }

    /// Kind, period and origin, as the archive takes them.
    const fn fields(self) -> (u32, u64, u64) {
        match self {
            Gauge::Turn { period } => (0, period, 0),
            Gauge::Roller { period, origin } => (1, period, origin),
        }
    }

    fn of_fields(kind: u32, period: u64, origin: u64) -> Gauge {
        match kind {
            0 => Gauge::Turn { period },
            1 => Gauge::Roller { period, origin },
            _ => other_version(),
        }
    }
}

/// One point of a stem: two binary64 patterns, each of which may be any.
#[derive(Clone, Copy, Debug, PartialEq, Eq, Hash)]
pub struct Point {
    /// Where along the gauge: what is folded.
    pub reading: u64,
    /// How far from the stem's axis.
    pub radius: u64,
}

impl Point {
    /// How many bytes a point has in a file.
    pub const LENGTH: usize = 16;

    /// The point in 16 bytes of a file.
    ///
    /// ```
    /// use zukemoriha::Point;
    ///
    /// let bytes = [0, 0, 0, 0, 0, 0, 0xF0, 0x3F, 1, 0, 0, 0, 0, 0, 0xF8, 0x7F];
    /// let point = Point::from_bytes(&bytes);
    /// assert_eq!(point.reading, 1.0_f64.to_bits());
    /// assert_eq!(point.radius, 0x7FF8_0000_0000_0001); // a NaN with a digit of its own
    /// ```
    pub const fn from_bytes(bytes: &[u8; Point::LENGTH]) -> Point {
        let [a, b, c, d, e, f, g, h, radius @ ..] = *bytes;
        Point {
            reading: u64::from_le_bytes([a, b, c, d, e, f, g, h]),
            radius: u64::from_le_bytes(radius),
        }
    }

    /// The 16 bytes that [`from_bytes`](Point::from_bytes) reads.
    ///
    /// ```
    /// use zukemoriha::Point;
    ///
    /// let point = Point { reading: 1.0_f64.to_bits(), radius: 0x7FF8_0000_0000_0001 };
    /// let bytes = [0, 0, 0, 0, 0, 0, 0xF0, 0x3F, 1, 0, 0, 0, 0, 0, 0xF8, 0x7F];
    /// assert_eq!(point.to_bytes(), bytes);
    /// ```
    pub const fn to_bytes(self) -> [u8; Point::LENGTH] {
        let [a, b, c, d, e, f, g, h] = self.reading.to_le_bytes();
        let [i, j, k, l, m, n, o, p] = self.radius.to_le_bytes();
        [a, b, c, d, e, f, g, h, i, j, k, l, m, n, o, p]
    }
}

/// A stem file that has been accepted: its gauge, and the part of the borrowed file that holds its
/// points.
#[derive(Clone, Copy, Debug, PartialEq, Eq, Hash)]
pub struct Stem<'a> {
    gauge: Gauge,
    points: &'a [u8],
}

impl<'a> Stem<'a> {
    /// How many bytes stand before the points.
    pub const HEADER_LENGTH: usize = 26;

    /// The most points that a file may have.
    pub const MOST_POINTS: usize = 4000;

    /// Judges a whole file.
    ///
    /// The count is compared, with the limit and with the length, and used for nothing else.
    ///
    /// # Errors
    ///
    /// The first of these that applies:
    ///
    /// - [`Refusal::StemLength`]: the file is shorter than [`HEADER_LENGTH`](Stem::HEADER_LENGTH)
    /// - [`Refusal::StemMark`]: it does not begin with STM
    /// - [`Refusal::StemVersion`]: the version is not 1
    /// - [`Refusal::StemKind`]: the kind is neither 0 nor 1
    /// - [`Refusal::StemCount`]: the count is above [`MOST_POINTS`](Stem::MOST_POINTS)
    /// - [`Refusal::StemLength`]: the length is not that of a header and so many points
    /// - [`Refusal::StemGauge`]: the period is not finite and above zero, or the origin is not
    ///   finite, or not all zero bytes in a turn
    ///
    /// # Examples
    ///
    /// ```
    /// use zukemoriha::{Gauge, Refusal, Stem};
    ///
    /// // A turn of 360 degrees, without a point.
    /// let mut file = *b"STM\x01\0\0\0\0\0\0\0\0\0\0\0\x80\x76\x40\0\0\0\0\0\0\0\0";
    /// let stem = Stem::open(&file)?;
    /// assert_eq!(stem.gauge(), Gauge::Turn { period: 360.0_f64.to_bits() });
    /// assert_eq!(stem.points().len(), 0);
    ///
    /// // A count that nothing follows.
    /// file[6..10].fill(0xFF);
    /// assert_eq!(Stem::open(&file), Err(Refusal::StemCount));
    /// # Ok::<(), Refusal>(())
    /// ```
    pub fn open(file: &'a [u8]) -> Result<Stem<'a>, Refusal> {
        let (mut kind, mut period, mut origin) = (0, 0, 0);
        let (mut start, mut count) = (0, 0);
        // SAFETY: the slice is lent with its own length, and is only read; its pointer is not null,
        // also where it is empty. The five others are to places of their own, of the types that are
        // written.
        let number = unsafe {
            raw::zk_stem_open(
                file.as_ptr(),
                file.len(),
                &mut kind,
                &mut period,
                &mut origin,
                &mut start,
                &mut count,
            )
        };
        finished(number)?;
        let is_whole = |points: &&[u8]| count.checked_mul(Point::LENGTH) == Some(points.len());
        match file.get(start..).filter(is_whole) {
            Some(points) => Ok(Stem {
                gauge: Gauge::of_fields(kind, period, origin),
                points,
            }),
            None => other_version(),
        }
    }

    /// Writes a whole file to the front of the room: the gauge, and a point for each reading, with
    /// the radius at the same place of the other list.
    ///
    /// Readings and radii may be any patterns, and every bit of them is written, a NaN's too. The
    /// room may be longer than the file: what lies behind it stays as it was. Returned is how many
    /// bytes the file has.
    ///
    /// [`open`](Stem::open) takes the file, with the same gauge and the same points. A file that it
    /// takes, written again with the gauge and the points that it has, is the same file.
    ///
    /// # Errors
    ///
    /// The first of these that applies; nothing is written then:
    ///
    /// - [`Refusal::BadLength`]: the two lists are not of one length
    /// - [`Refusal::StemCount`]: they have more than [`MOST_POINTS`](Stem::MOST_POINTS) places
    /// - [`Refusal::StemGauge`]: the period is not finite and above zero, or the origin is not
    ///   finite
    /// - [`Refusal::StemRoom`]: the room is shorter than [`length_of`](Stem::length_of) says
    ///
    /// # Examples
    ///
    /// ```
    /// use zukemoriha::{Gauge, Refusal, Stem};
    ///
    /// let gauge = Gauge::Turn { period: 360.0_f64.to_bits() };
    /// let readings = [725.5_f64.to_bits(), 0x7FF0_0000_0000_BEEF]; // a NaN that says something
    /// let radii = [155.25_f64.to_bits(), 156.0_f64.to_bits()];
    ///
    /// let mut room = [0; 100];
    /// let length = Stem::write(gauge, &readings, &radii, &mut room)?;
    /// assert_eq!(length, 58);
    ///
    /// let stem = Stem::open(&room[..length])?;
    /// assert_eq!(stem.gauge(), gauge);
    /// assert!(stem.points().map(|point| point.reading).eq(readings));
    /// assert!(stem.points().map(|point| point.radius).eq(radii));
    ///
    /// // A byte too short.
    /// let refused = Stem::write(gauge, &readings, &radii, &mut room[..length - 1]);
    /// assert_eq!(refused, Err(Refusal::StemRoom));
    /// # Ok::<(), Refusal>(())
    /// ```
    pub fn write(
        gauge: Gauge,
        readings: &[u64],
        radii: &[u64],
        room: &mut [u8],
    ) -> Result<usize, Refusal> {
        let (kind, period, origin) = gauge.fields();
        let mut written = 0;
        // SAFETY: each slice is lent with its own length; its pointer is aligned and not null, also
        // where it is empty. The borrows say that the room and `written` overlap nothing. The two
        // lists may be one: they are only read.
        let number = unsafe {
            raw::zk_stem_write(
                kind,
                period,
                origin,
                readings.as_ptr(),
                readings.len(),
                radii.as_ptr(),
                radii.len(),
                room.as_mut_ptr(),
                room.len(),
                &mut written,
            )
        };
        finished(number)?;
        Ok(written)
    }

    /// How many bytes a file of so many points has: the room that [`write`](Stem::write) asks for.
    /// `None` above [`MOST_POINTS`](Stem::MOST_POINTS), as there is no such file.
    ///
    /// ```
    /// use zukemoriha::Stem;
    ///
    /// assert_eq!(Stem::length_of(2), Some(58));
    /// assert_eq!(Stem::length_of(4000), Some(64_026));
    /// assert_eq!(Stem::length_of(4001), None);
    /// ```
    pub const fn length_of(points: usize) -> Option<usize> {
        if points <= Stem::MOST_POINTS {
            Some(Stem::HEADER_LENGTH + points * Point::LENGTH)
        } else {
            None
        }
    }

    /// The gauge that the points were read with.
    pub const fn gauge(&self) -> Gauge {
        self.gauge
    }

    /// The points, as they stand in the file.
    pub fn points(&self) -> Points<'a> {
        Points(self.points.chunks_exact(Point::LENGTH))
    }
}

/// The points of a [`Stem`], read from the borrowed file one by one.
#[derive(Clone, Debug)]
pub struct Points<'a>(ChunksExact<'a, u8>);

/// A chunk is as long as a point.
fn read(chunk: &[u8]) -> Point {
    Point::from_bytes(chunk.try_into().expect("16 bytes"))
}

impl Iterator for Points<'_> {
    type Item = Point;

    fn next(&mut self) -> Option<Point> {
        self.0.next().map(read)
    }

    fn size_hint(&self) -> (usize, Option<usize>) {
        self.0.size_hint()
    }

    fn nth(&mut self, n: usize) -> Option<Point> {
        self.0.nth(n).map(read)
    }
}

impl DoubleEndedIterator for Points<'_> {
    fn next_back(&mut self) -> Option<Point> {
        self.0.next_back().map(read)
    }
}

impl ExactSizeIterator for Points<'_> {}

impl FusedIterator for Points<'_> {}

#[cfg(test)]
mod tests {
    use super::*;

    #[test]
    #[should_panic(expected = "different versions")]
    fn a_third_kind_is_of_another_version() {
        let _ = Gauge::of_fields(2, 0, 0);
    }
}
