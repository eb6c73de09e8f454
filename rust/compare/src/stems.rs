//! Stem files, good ones and wrong ones, and the folds of drawn points.

use crate::call::Pair;
use crate::formats::Layout;
use crate::operands::Draw;
use crate::sequence::Covered;
use crate::Comparison;
use second::stem::{Gauge, Point, ROLLER, TURN};
use second::Format;

/// Bytes before the points.
pub(crate) const HEADER: usize = 26;
/// The most points of a file.
pub(crate) const MOST: u32 = 4000;
/// Bytes of a file that are written out where it is different.
pub(crate) const SHOWN: usize = 64;

/// Every value of every byte of a header, lengths around the right one, every set of faults, as many
/// points as may be, and so many drawn files.
pub(crate) fn cases(drawn: u64) -> Vec<Vec<u8>> {
    let mut draw = Draw(drawn);
    let drawn: Vec<_> = (0..drawn).map(|_| drawn_file(&mut draw)).collect();
    [bytes(), lengths(), faults(), counts(), drawn].concat()
}

/// All of these files, so many of them drawn. Returns also how often each number was told.
pub fn files(pair: Pair, drawn: u64) -> (Comparison, Covered) {
    let mut comparison = Comparison::new(pair);
    let mut covered = Covered::new();
    for file in cases(drawn) {
        let answers = comparison.ask(|who| who.open(&file));
        let shown = &file[..file.len().min(SHOWN)];
        comparison.hold(&(file.len(), shown), &answers, None);
        let number = answers[0].as_ref().err().unwrap_or(&0);
        *covered.entry(format!("number {number}")).or_insert(0) += 1;
    }
    (comparison, covered)
}

/// The folds of so many drawn points. Returns also how often a class or a number was told, and what
/// the subtraction had to do.
pub fn folds(pair: Pair, points: u64) -> (Comparison, Covered) {
    let layout = Layout::of(Format::Binary64);
    let mut comparison = Comparison::new(pair);
    let mut covered = Covered::new();
    let mut draw = Draw(points);
    for _ in 0..points {
        let (reading, origin) = draw.shifted(&layout);
        let period = draw.period(&layout, reading) as u64;
        let gauge = gauge(draw.below(4) > 0, period, origin as u64);
        let point = Point {
            reading: reading as u64,
            radius: draw.bits(),
        };
        let answers = comparison.ask(|who| who.fold_point(gauge, point));
        comparison.hold(&(gauge, point), &answers, None);
        let mut note = |seen: String| *covered.entry(seen).or_insert(0) += 1;
        match answers[0] {
            Err(number) => note(format!("number {number}")),
            Ok(folded) => {
                let sign = folded.reading >> 63;
                let (class, _) = layout.sorted(folded.reading.into());
                note(format!("{class} of sign {sign}"));
                let [x, origin] = [point.reading, gauge.origin].map(f64::from_bits);
                if gauge.kind == ROLLER && x.is_finite() {
                    note(format!("difference {}", Difference::of(x, origin).name()));
                }
            }
        }
    }
    (comparison, covered)
}

/// A subtraction by the processor, and what it has rounded away, which is a number of the format too
/// as long as nothing is beyond the range.
pub struct Difference {
    pub left: f64,
    pub lost: f64,
}

impl Difference {
    pub fn of(x: f64, origin: f64) -> Difference {
        let left = x - origin;
        let taken = left - x;
        let lost = (x - (left - taken)) - (origin + taken);
        Difference { left, lost }
    }

    /// The number as far from the exact difference on its other side, if that is a tie.
    pub fn other(&self) -> Option<f64> {
        let Difference { left, lost } = *self;
        let other = left + 2.0 * lost;
        let is_next = left.to_bits().abs_diff(other.to_bits()) == 1;
        Some(other).filter(|_| is_next && other - left == 2.0 * lost)
    }

    fn name(&self) -> &'static str {
        if self.left.is_infinite() {
            "beyond the range"
        } else if self.lost == 0.0 {
            "exact"
        } else if self.other().is_some() {
            "a tie"
        } else {
            "rounded"
        }
    }
}

/// A gauge that the safe functions have, too.
pub(crate) fn gauge(rolls: bool, period: u64, origin: u64) -> Gauge {
    let (kind, origin) = if rolls { (ROLLER, origin) } else { (TURN, 0) };
    Gauge {
        kind,
        period,
        origin,
    }
}

/// A good file of each kind, with so many points that count up.
fn good(count: u32) -> [Vec<u8>; 2] {
    [false, true].map(|rolls| {
        let (period, origin) = (812.5_f64.to_bits(), 100.5_f64.to_bits());
        let numbers = (0..2 * u64::from(count)).map(|i| i + 1);
        file(gauge(rolls, period, origin), count, numbers)
    })
}

fn file(gauge: Gauge, count: u32, numbers: impl Iterator<Item = u64>) -> Vec<u8> {
    let mut file = b"STM\x01\x00".to_vec();
    file.push(gauge.kind as u8);
    file.extend(count.to_le_bytes());
    for number in [gauge.period, gauge.origin].into_iter().chain(numbers) {
        file.extend(number.to_le_bytes());
    }
    file
}

/// Every byte of the headers of two good files, with every value.
fn bytes() -> Vec<Vec<u8>> {
    let places = (0..HEADER).flat_map(|at| (0..=u8::MAX).map(move |byte| (at, byte)));
    places
        .flat_map(|(at, byte)| {
            good(2).map(|mut file| {
                file[at] = byte;
                file
            })
        })
        .collect()
}

/// Counts up to 4, with every length from none to more than there should be.
fn lengths() -> Vec<Vec<u8>> {
    let cases = (0..5).flat_map(|count| (0..HEADER + 100).map(move |length| (count, length)));
    cases
        .flat_map(|(count, length)| {
            good(count).map(|mut file| {
                file.resize(length, 0);
                file
            })
        })
        .collect()
}

/// Every set of these, so that of any two the one that comes first is seen.
const FAULTS: [fn(&mut Vec<u8>); 9] = [
    |file| file[1] = b't',
    |file| file[4] = 1,
    |file| file[5] = 2,
    |file| file[6..10].copy_from_slice(&(MOST + 1).to_le_bytes()),
    |file| file[6] ^= 1,
    |file| file[17] |= 0x80,
    |file| file[24..26].copy_from_slice(&[0xF0, 0x7F]),
    |file| file.push(0),
    |file| file.truncate(HEADER - 1),
];

fn faults() -> Vec<Vec<u8>> {
    (0..1 << FAULTS.len())
        .flat_map(|set: u32| {
            good(1).map(|mut file| {
                for (i, fault) in FAULTS.iter().enumerate() {
                    if set >> i & 1 == 1 {
                        fault(&mut file);
                    }
                }
                file
            })
        })
        .collect()
}

/// As many points as may be, one less and one more; and counts whose bytes of points, counted in 32
/// bits, are none.
fn counts() -> Vec<Vec<u8>> {
    let whole = [MOST - 1, MOST, MOST + 1].into_iter().flat_map(good);
    let claimed = [1 << 28, 1 << 31, u32::MAX].into_iter().flat_map(|count| {
        good(0).map(|mut file| {
            file[6..10].copy_from_slice(&u32::to_le_bytes(count));
            file
        })
    });
    whole.chain(claimed).collect()
}

/// One in eight is of any bytes, with the mark and the version more often than not; the others are
/// good, but for up to three changes.
fn drawn_file(draw: &mut Draw) -> Vec<u8> {
    let layout = Layout::of(Format::Binary64);
    if draw.below(8) == 0 {
        let length = draw.below(120);
        let any: Vec<u8> = (0..length).map(|_| draw.bits() as u8).collect();
        let begun = b"STM\x01\x00"[..draw.below(6) as usize].to_vec();
        return [begun, any].concat();
    }
    let most = if draw.below(64) == 0 { 500 } else { 8 };
    let count = draw.below(most) as u32;
    let (reading, origin) = draw.shifted(&layout);
    let period = draw.period(&layout, reading) as u64;
    let gauge = gauge(draw.below(2) == 0, period, origin as u64);
    let numbers: Vec<u64> = (0..2 * count).map(|_| draw.any(&layout) as u64).collect();
    let mut file = file(gauge, count, numbers.into_iter());
    for _ in 0..draw.below(4) {
        change(draw, &mut file);
    }
    file
}

fn change(draw: &mut Draw, file: &mut Vec<u8>) {
    let any_byte = draw.bits() as u8;
    match draw.below(5) {
        0 => {
            if let Some(byte) = file.get_mut(draw.below(HEADER as u64) as usize) {
                *byte ^= 1 << (any_byte % 8);
            }
        }
        1 => {
            if let Some(byte) = file.get_mut(draw.below(2 * HEADER as u64) as usize) {
                *byte = any_byte;
            }
        }
        2 => file.truncate(draw.below(file.len() as u64 + 1) as usize),
        3 => file.extend(vec![any_byte; draw.below(33) as usize]),
        _ => {
            let at = if any_byte < 128 { 10 } else { 18 };
            if let Some(field) = file.get_mut(at..at + 8) {
                let any = draw.any(&Layout::of(Format::Binary64)) as u64;
                field.copy_from_slice(&any.to_le_bytes());
            }
        }
    }
}
