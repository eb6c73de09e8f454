//! Stem files that are written, what is read of them again, and opened files that are written again.

use crate::call::Pair;
use crate::formats::Layout;
use crate::operands::Draw;
use crate::sequence::Covered;
use crate::stems::{self, gauge, HEADER, MOST, SHOWN};
use crate::Comparison;
use second::stem::{Gauge, Point, Stem, ROLLER, TURN};
use second::Format;
use std::collections::BTreeMap;
use std::fmt::{self, Display, Formatter};

const SEED: u64 = 4;
/// Bytes of a point.
const POINT: usize = 16;
const INFINITY: u64 = 0x7FF << 52;
const QUIET: u64 = 1 << 51;
/// The number of a gauge that is refused.
const GAUGE: u8 = 15;

/// Which gauges are handed over.
#[derive(Clone, Copy, Debug, PartialEq, Eq)]
pub enum Gauges {
    /// Those that the safe functions have.
    Safe,
    /// Any three numbers.
    Any,
}

impl Gauges {
    /// The gauge, or one beside it that there is.
    fn fitted(self, any: Gauge) -> Gauge {
        match self {
            Gauges::Safe => gauge(any.kind % 2 == ROLLER, any.period, any.origin),
            Gauges::Any => any,
        }
    }
}

/// What is handed over to be written, and how long the room is.
struct Case {
    gauge: Gauge,
    readings: Vec<u64>,
    radii: Vec<u64>,
    room: usize,
}

/// Every value of every byte of a gauge, rooms around the right one, every set of faults, lists of
/// unequal length, as many points as may be, and so many drawn cases. What is written is opened
/// again: it has to be what was handed over. Returns also how often each number was told, and by
/// what; for files, what they have.
pub fn compare(pair: Pair, gauges: Gauges, drawn: u64) -> (Comparison, Covered) {
    let mut comparison = Comparison::new(pair);
    let mut cells = BTreeMap::new();
    let mut draw = Draw(SEED);
    let drawn = (0..drawn).map(|_| drawn_case(&mut draw)).collect();
    let cases = [bytes(), rooms(), faults(), lengths(), counts(), drawn];
    for mut case in cases.into_iter().flatten() {
        case.gauge = gauges.fitted(case.gauge);
        let answers =
            comparison.ask(|who| who.write(case.gauge, &case.readings, &case.radii, case.room));
        comparison.hold(&case.shown(), &answers, None);
        if let Ok(file) = &answers[0] {
            let opened = comparison.ask(|who| who.open(file));
            comparison.hold(&case.shown(), &opened, Some(&Ok(case.stem())));
        }
        let number = *answers[0].as_ref().err().unwrap_or(&0);
        case.note(number, |cell| *cells.entry(cell).or_insert(0) += 1);
    }
    let named = |(cell, count)| (format!("{gauges:?} {cell}"), count);
    (comparison, cells.into_iter().map(named).collect())
}

/// The files that are opened, so many of them drawn: written again they are as they were.
pub fn again(pair: Pair, drawn: u64) -> Comparison {
    let mut comparison = Comparison::new(pair);
    let is_good = |file: &Vec<u8>| second::stem::open(file).is_ok();
    for file in stems::cases(drawn).into_iter().filter(is_good) {
        let answers = comparison.ask(|who| {
            let Stem { gauge, points } = who.open(&file)?;
            let readings: Vec<u64> = points.iter().map(|point| point.reading).collect();
            let radii: Vec<u64> = points.iter().map(|point| point.radius).collect();
            who.write(gauge, &readings, &radii, file.len())
        });
        let shown = (file.len(), file[..file.len().min(SHOWN)].to_vec());
        comparison.hold(&shown, &answers, Some(&Ok(file)));
    }
    comparison
}

impl Case {
    /// The room that its points need.
    fn fitting(gauge: Gauge, readings: Vec<u64>, radii: Vec<u64>) -> Case {
        let room = HEADER + POINT * readings.len();
        Case {
            gauge,
            readings,
            radii,
            room,
        }
    }

    /// What of it is written out where an answer is different.
    fn shown(&self) -> (Gauge, usize, usize, usize) {
        let (readings, radii) = (self.readings.len(), self.radii.len());
        (self.gauge, readings, radii, self.room)
    }

    fn stem(&self) -> Stem {
        let both = self.readings.iter().zip(&self.radii);
        let point = |(&reading, &radius)| Point { reading, radius };
        Stem {
            gauge: self.gauge,
            points: both.map(point).collect(),
        }
    }

    /// The number, and what a gauge is refused for; of a file whether it has no point or the most,
    /// whether there was room left, and the classes of all its numbers.
    fn note(&self, number: u8, mut note: impl FnMut(Cell)) {
        let Gauge {
            kind,
            period,
            origin,
        } = self.gauge;
        let [has, has_bad] = match kind {
            TURN => ["turn's origin", "turn's bad origin"],
            _ => ["roller's origin", "roller's bad origin"],
        };
        note(Cell::Number(number));
        match number {
            0 => {
                let count = self.readings.len();
                if count == 0 || count == MOST as usize {
                    note(Cell::Points(count));
                }
                note(Cell::IsLeft(self.room > HEADER + POINT * count));
                note(Cell::of("period", period));
                note(Cell::of(has, origin));
                let readings = self.readings.iter().map(|&x| Cell::of("reading", x));
                let radii = self.radii.iter().map(|&x| Cell::of("radius", x));
                readings.chain(radii).for_each(note);
            }
            GAUGE if (1..INFINITY).contains(&period) => note(Cell::of(has_bad, origin)),
            GAUGE => note(Cell::of("bad period", period)),
            _ => (),
        }
    }
}

/// A thing that is counted.
#[derive(PartialEq, Eq, PartialOrd, Ord)]
enum Cell {
    Number(u8),
    Points(usize),
    /// Whether a part of the room is left.
    IsLeft(bool),
    /// What has a pattern, the pattern's class, and its sign.
    Class(&'static str, &'static str, u64),
}

impl Cell {
    fn of(what: &'static str, pattern: u64) -> Cell {
        let class = match Layout::of(Format::Binary64).sorted(pattern.into()).0 {
            "NaN" if pattern & QUIET == 0 => "signalling NaN",
            "NaN" => "quiet NaN",
            class => class,
        };
        Cell::Class(what, class, pattern >> 63)
    }
}

impl Display for Cell {
    fn fmt(&self, f: &mut Formatter) -> fmt::Result {
        match self {
            Cell::Number(number) => write!(f, "number {number}"),
            Cell::Points(count) => write!(f, "points {count}"),
            Cell::IsLeft(true) => write!(f, "room longer"),
            Cell::IsLeft(false) => write!(f, "room fits"),
            Cell::Class(what, class, sign) => write!(f, "{what} {class} of sign {sign}"),
        }
    }
}

/// A good case of each kind, with so many readings and radii that count up.
fn good(readings: usize, radii: usize) -> [Case; 2] {
    [false, true].map(|rolls| {
        let gauge = gauge(rolls, 812.5_f64.to_bits(), 100.5_f64.to_bits());
        let list = |n: usize, of_place: fn(u64) -> u64| (1..=n as u64).map(of_place).collect();
        Case::fitting(gauge, list(readings, |i| i), list(radii, |i| !i))
    })
}

/// Every byte of a kind, a period and an origin, with every value.
fn bytes() -> Vec<Case> {
    let places = (0..20).flat_map(|at| (0..=u8::MAX).map(move |byte| (at, byte)));
    places
        .flat_map(|(at, byte)| {
            good(2, 2).map(|mut case| {
                let Gauge {
                    kind,
                    period,
                    origin,
                } = case.gauge;
                let mut fields = [period, origin, kind.into()];
                let shift = 8 * (at % 8);
                fields[at / 8] &= !(0xFF << shift);
                fields[at / 8] |= u64::from(byte) << shift;
                case.gauge = Gauge {
                    kind: fields[2] as u32,
                    period: fields[0],
                    origin: fields[1],
                };
                case
            })
        })
        .collect()
}

/// Up to 4 points, with every room from none to more than there has to be, and with some that are
/// too short in their lowest bytes.
fn rooms() -> Vec<Case> {
    let rooms = || (0..HEADER + 100).chain([256, 65_536]);
    let cases = (0..5).flat_map(|count| rooms().map(move |room| (count, room)));
    cases
        .flat_map(|(count, room)| good(count, count).map(|case| Case { room, ..case }))
        .collect()
}

/// Every set of these, so that of any two the one that comes first is seen.
const FAULTS: [fn(&mut Case); 6] = [
    |case| {
        let many = vec![0; MOST as usize + 1];
        *case = Case::fitting(case.gauge, many.clone(), many);
    },
    |case| case.radii.push(0),
    |case| case.gauge.kind += 2,
    |case| case.gauge.period |= 1 << 63,
    |case| case.gauge.origin |= INFINITY,
    |case| case.room -= 1,
];

fn faults() -> Vec<Case> {
    (0..1 << FAULTS.len())
        .flat_map(|set: u32| {
            good(1, 1).map(|mut case| {
                for (i, fault) in FAULTS.iter().enumerate() {
                    if set >> i & 1 == 1 {
                        fault(&mut case);
                    }
                }
                case
            })
        })
        .collect()
}

/// Readings and radii that are not as many, in rooms for either as far as a file may have them: all
/// up to 7, around the most, and lengths that are equal in some of their bits.
fn lengths() -> Vec<Case> {
    let most = MOST as usize;
    let near = (0..8).flat_map(|n| (0..8).map(move |m| (n, m)));
    let around = (most - 1..most + 2).flat_map(|n| (most - 1..most + 2).map(move |m| (n, m)));
    let far = [256, 4096, 65_536, 65_792].into_iter();
    let far = far.flat_map(|more| (0..3).flat_map(move |n| [(n, n + more), (n + more, n)]));
    let unequal = near.chain(around).chain(far).filter(|(n, m)| n != m);
    unequal
        .flat_map(|(n, m)| {
            let room = HEADER + POINT * n.max(m).min(most + 1);
            good(n, m).map(|case| Case { room, ..case })
        })
        .collect()
}

/// As many points as may be, one less and one more, in rooms that fit, are a byte too short, and are
/// longer; and so many points that 16 bits do not count them.
fn counts() -> Vec<Case> {
    let most = MOST as usize;
    let around = [most - 1, most, most + 1].into_iter().flat_map(|count| {
        let fits = HEADER + POINT * count;
        [fits - 1, fits, fits + 100].map(|room| (count, room))
    });
    let far = [65_536, 65_537].map(|count| (count, HEADER + POINT * count));
    around
        .chain(far)
        .flat_map(|(count, room)| good(count, count).map(|case| Case { room, ..case }))
        .collect()
}

/// One in 16 has another kind, lists of unequal length, or any pattern for its period; one turn in
/// four has an origin, and one room in four is too short.
fn drawn_case(draw: &mut Draw) -> Case {
    let layout = Layout::of(Format::Binary64);
    let count = match draw.below(256) {
        0 => u64::from(MOST) - 1 + draw.below(3),
        1..=3 => draw.below(500),
        _ => draw.below(8),
    };
    let others = match draw.below(16) {
        0 => draw.below(2 * count + 2),
        _ => count,
    };
    let (reading, origin) = draw.shifted(&layout);
    let period = draw.period(&layout, reading) as u64;
    let kind = match draw.below(16) {
        0 => [2, 256, 1 << 16, 1 << 31, u32::MAX, draw.bits() as u32][draw.below(6) as usize],
        n => n as u32 % 2,
    };
    let has_none = kind == TURN && draw.below(4) > 0;
    let gauge = Gauge {
        kind,
        period,
        origin: if has_none { 0 } else { origin as u64 },
    };
    let mut list = |n| (0..n).map(|_| draw.any(&layout) as u64).collect();
    let (readings, radii) = (list(count), list(others));
    let mut case = Case::fitting(gauge, readings, radii);
    case.room = match draw.below(8) {
        0 => draw.below(case.room as u64) as usize,
        1 => case.room - 1,
        2..=4 => case.room,
        _ => case.room + draw.below(100) as usize,
    };
    case
}
