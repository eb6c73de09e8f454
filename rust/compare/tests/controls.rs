//! What the comparisons are worth: each of them, on a library that is wrong in one answer, and on a
//! file that is wrong in one field, has to notice it. The differences that this prints are wanted.

mod altered;
mod archive;

use altered::{altered_text, shortened, Altered, Answerer, Answering, Change, CHANGES, OPERATIONS};
use archive::Archive;
use compare::stems::Difference;
use compare::writes::Gauges;
use compare::*;
use zukemoriha::binary64::HOUSE_NAN;
use zukemoriha::Answer::{Finished, Partial};
use zukemoriha::Refusal::{BadSize, ZeroDivisor};
use zukemoriha::{x87, Block, Refused, Stepped, X87};

/// The library, with a stem file that is mended before it is judged, and a roller's readings from
/// which the origin is taken in another way.
struct Otherwise {
    mend: Change<Vec<u8>>,
    subtract: Subtraction,
}

type Subtraction = fn(f64, f64) -> f64;

impl Implementation for Otherwise {
    fn name(&self) -> &'static str {
        "otherwise"
    }

    fn open(&self, file: &[u8]) -> Result<Stem, u8> {
        let mut file = file.to_vec();
        if file.len() >= 26 {
            (self.mend)(&mut file);
        }
        Library.open(&file)
    }

    fn fold_point(&self, gauge: Gauge, point: Point) -> Result<Point, u8> {
        let mut folded = Library.fold_point(gauge, point)?;
        let numbers = [point.reading, gauge.origin, gauge.period];
        let [reading, origin, period] = numbers.map(f64::from_bits);
        if gauge.kind == 1 && reading.is_finite() {
            let left = (self.subtract)(reading, origin);
            folded.reading = match left.is_finite() {
                true => (left % period).to_bits(),
                false => HOUSE_NAN,
            };
        }
        Ok(folded)
    }
}

/// The archive, with a writer of stem files that takes some gauges for a good one, mends what it is
/// handed, tells another number of it, or writes other bytes.
struct Writing {
    takes: Taker,
    mend: Change<Handed>,
    /// From what was handed and the archive's number, 0 for a file.
    tell: Teller,
    change: Change<Vec<u8>>,
}

type Taker = fn(&Gauge) -> bool;
type Teller = fn(&Handed, u8) -> u8;

/// As the archive does it.
const WRITING: Writing = Writing {
    takes: |_| false,
    mend: |_| (),
    tell: |_, number| number,
    change: |_| (),
};

/// What is handed over to be written, and how long the room is.
#[derive(Clone)]
struct Handed {
    gauge: Gauge,
    readings: Vec<u64>,
    radii: Vec<u64>,
    room: usize,
}

impl Handed {
    /// How long its file is.
    fn length(&self) -> usize {
        26 + 16 * self.readings.len()
    }

    /// By how many places the one list is longer.
    fn longer(&self) -> usize {
        self.readings.len().abs_diff(self.radii.len())
    }

    fn resize(&mut self, points: usize) {
        self.readings.resize(points, 0);
        self.radii.resize(points, 0);
    }

    /// Every reading and every radius becomes another one.
    fn map(&mut self, other: fn(u64) -> u64) {
        for pattern in self.readings.iter_mut().chain(&mut self.radii) {
            *pattern = other(*pattern);
        }
    }
}

impl Implementation for Writing {
    fn name(&self) -> &'static str {
        "writing"
    }

    fn write(
        &self,
        gauge: Gauge,
        readings: &[u64],
        radii: &[u64],
        room: usize,
    ) -> Result<Vec<u8>, u8> {
        let handed = Handed {
            gauge,
            readings: readings.to_vec(),
            radii: radii.to_vec(),
            room,
        };
        let mut mended = handed.clone();
        (self.mend)(&mut mended);
        if (self.takes)(&gauge) {
            mended.gauge = Gauge {
                kind: 1,
                period: 1,
                origin: 0,
            };
        }
        let told = Archive.write(mended.gauge, &mended.readings, &mended.radii, mended.room);
        let number = *told.as_ref().err().unwrap_or(&0);
        let other = (self.tell)(&handed, number);
        let mut file = if other == number { told } else { Err(other) }?;
        (self.change)(&mut file);
        Ok(file)
    }
}

/// The differences in a file.
fn in_file(pair: Pair, path: &str, text: &str) -> u64 {
    let name = path.rsplit('/').next().unwrap();
    match name.split('-').next().unwrap() {
        "published" => published::compare(pair, text, "").0.different,
        "list" => {
            lists::compare(pair, Shown::by(path).modulus, text)
                .0
                .different
        }
        "fold" => folds::compare(pair, text).different,
        _ => vectors::compare(pair, name, Shown::by(path), text).different,
    }
}

const FILES: [&str; 20] = [
    "computed/rem-binary16.txt",
    "computed/step-x87.txt",
    "computed/run-x87.txt",
    "computed/scale-binary64.txt",
    "computed/split-binary32.txt",
    "computed/list-x87.txt",
    "published/published-gcc.txt",
    "computed/remquo-binary32.txt",
    "computed/remquo-x87.txt",
    "computed/denormal-binary64.txt",
    "computed/nan-x87.txt",
    "computed/plain/rem-binary32.txt",
    "computed/plain/step-x87.txt",
    "computed/plain/run-x87.txt",
    "computed/plain/scale-x87.txt",
    "computed/plain/split-binary16.txt",
    "computed/octants/rem-binary64.txt",
    "computed/octants/step-x87.txt",
    "computed/octants/run-x87.txt",
    "computed/octants/list-x87.txt",
];

#[test]
fn one_wrong_answer_is_noticed() {
    for (what, change) in CHANGES {
        let altered = || Altered::answer(change);
        for path in FILES {
            let different = in_file([&altered(), &Second], path, &read(path));
            assert!(different > 0, "{what}, {path}");
        }
        for (operation, is_one) in OPERATIONS {
            let altered = Altered::answer_to(is_one, change);
            let different = sequence::compare([&altered, &Second], 100).0.different;
            // a remainder may be noticed once more where remquo is held to it
            let most = if operation == "rem" { 2 } else { 1 };
            assert!((1..=most).contains(&different), "{what}, {operation}");
        }
        let different = half::compare([&altered(), &Second], &[0x3C00], &|_| ()).different;
        assert_eq!(different, 1, "{what}, half");
    }
}

#[test]
fn one_wrong_list_is_noticed() {
    fn in_place(list: &mut Result<Folded, u8>, change: Change<Folded>) {
        change(list.as_mut().unwrap())
    }
    let changes: [(&str, Change<Result<Folded, u8>>); 6] = [
        ("number", |list| *list = Err(3)),
        ("count", |list| in_place(list, |list| list.marked -= 1)),
        ("result", |list| in_place(list, |list| list.results[0] ^= 1)),
        ("quotient", |list| {
            in_place(list, |list| list.quotients[0] ^= 1)
        }),
        ("mark", |list| {
            in_place(list, |list| list.quotients.retain(|&byte| byte < 255))
        }),
        ("length", |list| {
            in_place(list, |list| list.results.truncate(1))
        }),
    ];
    let text = read("computed/fold-binary64.txt");
    for (what, change) in changes {
        let altered = Altered::list(change, 5);
        let different = folds::compare([&altered, &Second], &text).different;
        assert!(different > 0, "{what}");
        let altered = Altered::list(change, 5);
        let different = folds::generated([&altered, &Second], 100).0.different;
        assert!(different > 0, "{what}, generated");
        for left in 0..2 {
            let altered = Altered::list(change, left);
            let (_, different, _) = folds::long([&altered, &Second], 100);
            assert!(different > 0, "{what}, long list {left}");
        }
    }
}

#[test]
fn one_wrong_stem_file_is_noticed() {
    fn in_file(stem: &mut Result<Stem, u8>, change: Change<Stem>) {
        change(stem.as_mut().unwrap())
    }
    let changes: [(&str, Change<Result<Stem, u8>>); 8] = [
        ("number", |stem| *stem = Err(14)),
        ("kind", |stem| in_file(stem, |stem| stem.gauge.kind ^= 1)),
        ("period", |stem| {
            in_file(stem, |stem| stem.gauge.period ^= 1)
        }),
        ("origin", |stem| {
            in_file(stem, |stem| stem.gauge.origin ^= 1)
        }),
        ("reading", |stem| {
            in_file(stem, |stem| stem.points[0].reading ^= 1)
        }),
        ("radius", |stem| {
            in_file(stem, |stem| stem.points[0].radius ^= 1)
        }),
        ("order", |stem| in_file(stem, |stem| stem.points.reverse())),
        ("count", |stem| {
            in_file(stem, |stem| stem.points.truncate(1))
        }),
    ];
    for (what, change) in changes {
        let altered = Altered::stem(change);
        let different = stems::files([&altered, &Second], 0).0.different;
        assert_eq!(different, 1, "{what}");
    }
}

#[test]
fn one_wrong_point_is_noticed() {
    let changes: [(&str, Change<Result<Point, u8>>); 3] = [
        ("number", |point| *point = Err(15)),
        ("reading", |point| point.as_mut().unwrap().reading ^= 1),
        ("radius", |point| point.as_mut().unwrap().radius ^= 1 << 51),
    ];
    for (what, change) in changes {
        let altered = Altered::point(change);
        let different = stems::folds([&altered, &Second], 100).0.different;
        assert_eq!(different, 1, "{what}");
    }
}

/// A library that overlooks a part of a file.
#[test]
fn a_lax_judge_of_stem_files_is_noticed() {
    let mendings: [(&str, Change<Vec<u8>>); 13] = [
        ("mark", |file| file[..3].copy_from_slice(b"STM")),
        ("last letter", |file| file[2] = b'M'),
        ("version", |file| file[3] = 1),
        ("version's upper byte", |file| file[4] = 0),
        ("kind's upper bits", |file| file[5] &= 1),
        ("count's upper bytes", |file| file[8..10].fill(0)),
        ("period's sign", |file| file[17] &= 0x7F),
        ("smallest period", |file| file[10] |= 1),
        ("largest period", |file| file[16] &= 0xEF),
        ("origin", |file| file[18..26].fill(0)),
        ("origin's sign", |file| file[25] &= 0x7F),
        ("missing points", |file| {
            file.resize(file.len().max(26 + 16 * usize::from(file[6])), 0)
        }),
        ("a byte too many", |file| {
            file.truncate((file.len() - 26) / 16 * 16 + 26)
        }),
    ];
    let judged = |mend| {
        let subtract = |x, origin| x - origin;
        let lax = Otherwise { mend, subtract };
        stems::files([&lax, &Second], 0).0.different
    };
    assert_eq!(judged(|_| ()), 0);
    for (what, mend) in mendings {
        assert!(judged(mend) > 0, "{what}");
    }
}

/// The processor's own subtraction is not different.
#[test]
fn another_subtraction_is_noticed() {
    let subtractions: [(&str, Subtraction); 7] = [
        ("ties to odd", |x, origin| {
            let difference = Difference::of(x, origin);
            difference.other().unwrap_or(difference.left)
        }),
        ("cut", |x, origin| match Difference::of(x, origin) {
            Difference { left, lost } if left * lost < 0.0 => f64::from_bits(left.to_bits() - 1),
            Difference { left, .. } => left,
        }),
        ("rounded twice", |x, origin| x - origin / 2.0 - origin / 2.0),
        ("signs of zeros", |x, origin| -(origin - x)),
        ("no denormals", |x, origin| match x - origin {
            left if left.is_subnormal() => 0.0_f64.copysign(left),
            left => left,
        }),
        ("no infinity", |x, origin| {
            (x - origin).clamp(f64::MIN, f64::MAX)
        }),
        ("added", |x, origin| x + origin),
    ];
    let folded = |subtract| {
        let mend = |_: &mut Vec<u8>| ();
        let otherwise = Otherwise { mend, subtract };
        stems::folds([&otherwise, &Second], 20_000).0.different
    };
    assert_eq!(folded(|x, origin| x - origin), 0);
    for (what, subtract) in subtractions {
        assert!(folded(subtract) > 0, "{what}");
    }
}

#[test]
fn one_wrong_written_file_is_noticed() {
    type File = Result<Vec<u8>, u8>;
    fn in_file(file: &mut File, change: Change<Vec<u8>>) {
        change(file.as_mut().unwrap())
    }
    let changes: [(&str, Change<File>); 12] = [
        ("number", |file| *file = Err(16)),
        ("mark", |file| in_file(file, |file| file[2] ^= 1)),
        ("version", |file| in_file(file, |file| file[4] ^= 1)),
        ("kind", |file| in_file(file, |file| file[5] ^= 1)),
        ("count", |file| in_file(file, |file| file[6] ^= 1)),
        ("period", |file| in_file(file, |file| file[10] ^= 1)),
        ("origin", |file| in_file(file, |file| file[18] ^= 1)),
        ("reading", |file| in_file(file, |file| file[26] ^= 1)),
        ("radius", |file| in_file(file, |file| file[34] ^= 1)),
        ("last byte", |file| {
            in_file(file, |file| *file.last_mut().unwrap() ^= 1)
        }),
        ("a byte less", |file| {
            in_file(file, |file| file.truncate(file.len() - 1))
        }),
        ("a byte more", |file| in_file(file, |file| file.push(0))),
    ];
    for (what, change) in changes {
        // a wrong file is noticed once more where it is opened
        let times = if what == "number" { 1 } else { 2 };
        let altered = Altered::file(change);
        let (comparison, _) = writes::compare([&altered, &Second], Gauges::Safe, 0);
        assert_eq!(comparison.different, times, "{what}");
        let altered = Altered::file(change);
        let different = writes::again([&altered, &Second], 0).different;
        assert_eq!(different, 1, "{what}, again");
    }
}

/// Of a file that was written, and of one that is to be written again.
#[test]
fn one_wrong_stem_that_is_written_is_noticed() {
    fn in_file(stem: &mut Result<Stem, u8>, change: Change<Stem>) {
        change(stem.as_mut().unwrap())
    }
    let changes: [(&str, Change<Result<Stem, u8>>); 4] = [
        ("number", |stem| *stem = Err(14)),
        ("period", |stem| {
            in_file(stem, |stem| stem.gauge.period ^= 1)
        }),
        ("radius", |stem| {
            in_file(stem, |stem| stem.points[0].radius ^= 1)
        }),
        ("order", |stem| in_file(stem, |stem| stem.points.reverse())),
    ];
    for (what, change) in changes {
        let altered = Altered::stem(change);
        let (comparison, _) = writes::compare([&altered, &Second], Gauges::Safe, 0);
        assert_eq!(comparison.different, 1, "{what}");
        let altered = Altered::stem(change);
        let different = writes::again([&altered, &Second], 0).different;
        assert_eq!(different, 1, "{what}, again");
    }
}

const NEGATIVE: u64 = 1 << 63;
const INFINITY: u64 = 0x7FF << 52;
const QUIET: u64 = 1 << 51;

fn is_infinite(pattern: u64) -> bool {
    pattern & !NEGATIVE == INFINITY
}

fn is_quiet(pattern: u64) -> bool {
    pattern & !NEGATIVE >= INFINITY | QUIET
}

fn is_signalling(pattern: u64) -> bool {
    pattern & !NEGATIVE > INFINITY && !is_quiet(pattern)
}

/// The differences in what is written.
fn in_written(pair: Pair) -> u64 {
    writes::compare(pair, Gauges::Any, 1_000).0.different
}

/// Writers that take a gauge which is none, lists that are no points, or a room that is too short.
#[test]
fn a_lax_writer_is_noticed() {
    let gauges: [(&str, Taker); 13] = [
        ("kind 2", |gauge| gauge.kind == 2),
        ("kind's upper bytes", |gauge| {
            gauge.kind > 1 && gauge.kind & 0xFF < 2
        }),
        ("kind's uppermost byte", |gauge| {
            gauge.kind > 1 && gauge.kind & 0xFF_FFFF < 2
        }),
        ("zero period", |gauge| gauge.period == 0),
        ("negative zero period", |gauge| gauge.period == NEGATIVE),
        ("negative period", |gauge| {
            gauge.period > NEGATIVE && gauge.period < NEGATIVE | INFINITY
        }),
        ("infinite period", |gauge| is_infinite(gauge.period)),
        ("quiet period", |gauge| is_quiet(gauge.period)),
        ("signalling period", |gauge| is_signalling(gauge.period)),
        ("turn's origin", |gauge| {
            gauge.kind == 0 && gauge.origin != 0
        }),
        ("turn's negative zero", |gauge| {
            gauge.kind == 0 && gauge.origin == NEGATIVE
        }),
        ("infinite origin", |gauge| {
            gauge.kind == 1 && is_infinite(gauge.origin)
        }),
        ("origin's NaN", |gauge| {
            gauge.kind == 1 && (is_quiet(gauge.origin) || is_signalling(gauge.origin))
        }),
    ];
    let mendings: [(&str, Change<Handed>); 10] = [
        ("radii", |handed| {
            handed.radii.resize(handed.readings.len(), 0)
        }),
        ("readings", |handed| {
            handed.readings.resize(handed.radii.len(), 0)
        }),
        ("lengths' upper bytes", |handed| {
            if handed.longer() % 256 == 0 {
                handed.resize(handed.readings.len());
            }
        }),
        ("lengths' uppermost bytes", |handed| {
            if handed.longer() % 65_536 == 0 {
                handed.resize(handed.readings.len());
            }
        }),
        ("a point too many", |handed| {
            if handed.longer() == 0 && handed.readings.len() == 4001 {
                handed.resize(4000);
            }
        }),
        ("count's upper bytes", |handed| {
            if handed.longer() == 0 {
                handed.resize(handed.readings.len() % 65_536);
            }
        }),
        ("a byte of the room", |handed| handed.room += 1),
        ("a point of the room", |handed| handed.room += 16),
        ("room's upper bytes", |handed| handed.room %= 256),
        ("room's uppermost bytes", |handed| handed.room %= 65_536),
    ];
    assert_eq!(in_written([&WRITING, &Second]), 0);
    for (what, takes) in gauges {
        let lax = Writing { takes, ..WRITING };
        assert!(in_written([&lax, &Second]) > 0, "{what}");
    }
    for (what, mend) in mendings {
        let lax = Writing { mend, ..WRITING };
        assert!(in_written([&lax, &Second]) > 0, "{what}");
    }
}

/// Writers that refuse what is good, or tell another number first.
#[test]
fn another_refusal_of_a_write_is_noticed() {
    let tellers: [(&str, Teller); 13] = [
        ("no point", |handed, number| match number {
            0 if handed.readings.is_empty() => 13,
            _ => number,
        }),
        ("the most points", |handed, number| match number {
            0 if handed.readings.len() == 4000 => 13,
            _ => number,
        }),
        ("denormal periods", |handed, number| match number {
            0 if handed.gauge.period < 1 << 52 => 15,
            _ => number,
        }),
        ("negative origins", |handed, number| match number {
            0 if handed.gauge.origin > NEGATIVE => 15,
            _ => number,
        }),
        ("a room that fits", |handed, number| match number {
            0 if handed.room == handed.length() => 16,
            _ => number,
        }),
        ("a longer room", |handed, number| match number {
            0 if handed.room > handed.length() => 16,
            _ => number,
        }),
        ("kind before lengths", |handed, number| match number {
            9 if handed.gauge.kind > 1 => 12,
            _ => number,
        }),
        ("count before lengths", |handed, number| match number {
            9 if handed.readings.len() > 4000 => 13,
            _ => number,
        }),
        ("count before kind", |handed, number| match number {
            12 if handed.readings.len() > 4000 => 13,
            _ => number,
        }),
        ("gauge before kind", |handed, number| match number {
            12 if handed.gauge.period > NEGATIVE => 15,
            _ => number,
        }),
        ("gauge before count", |handed, number| match number {
            13 if handed.gauge.period > NEGATIVE => 15,
            _ => number,
        }),
        ("room before count", |handed, number| match number {
            13 if handed.room < handed.length() => 16,
            _ => number,
        }),
        ("room before gauge", |handed, number| match number {
            15 if handed.room < handed.length() => 16,
            _ => number,
        }),
    ];
    for (what, tell) in tellers {
        let otherwise = Writing { tell, ..WRITING };
        assert!(in_written([&otherwise, &Second]) > 0, "{what}");
    }
}

/// Writers of other points and of other bytes: by the second implementation, and where both are wrong
/// alike by what was handed over, and by the file that was opened.
#[test]
fn another_written_file_is_noticed() {
    let mendings: [(&str, Change<Handed>); 9] = [
        ("lists exchanged", |handed| {
            std::mem::swap(&mut handed.readings, &mut handed.radii)
        }),
        ("the last point first", |handed| {
            handed.readings.reverse();
            handed.radii.reverse();
        }),
        ("all readings first", |handed| {
            let all = [&handed.readings[..], &handed.radii].concat();
            handed.readings = all.iter().step_by(2).copied().collect();
            handed.radii = all.iter().skip(1).step_by(2).copied().collect();
        }),
        ("no signalling NaN", |handed| {
            handed.map(|x| if is_signalling(x) { x | QUIET } else { x })
        }),
        ("one quiet NaN", |handed| {
            handed.map(|x| if is_quiet(x) { HOUSE_NAN } else { x })
        }),
        ("no infinities", |handed| {
            handed.map(|x| x - u64::from(is_infinite(x)))
        }),
        ("no denormals", |handed| {
            handed.map(|x| if x & INFINITY == 0 { x & NEGATIVE } else { x })
        }),
        ("no negative zeros", |handed| {
            handed.map(|x| if x == NEGATIVE { 0 } else { x })
        }),
        ("readings as they are folded", |handed| {
            let period = f64::from_bits(handed.gauge.period);
            for reading in &mut handed.readings {
                *reading = (f64::from_bits(*reading) % period).to_bits();
            }
        }),
    ];
    let changes: [(&str, Change<Vec<u8>>); 6] = [
        ("mark", |file| file[..3].reverse()),
        ("version", |file| file[3..5].reverse()),
        ("count", |file| file[6..10].reverse()),
        ("count's upper byte", |file| file[7] = 0),
        ("period", |file| file[10..18].reverse()),
        ("points", |file| {
            file[26..].chunks_mut(8).for_each(<[u8]>::reverse)
        }),
    ];
    let mended = mendings.map(|(what, mend)| (what, Writing { mend, ..WRITING }));
    let changed = changes.map(|(what, change)| (what, Writing { change, ..WRITING }));
    assert_eq!(writes::again([&WRITING, &WRITING], 1_000).different, 0);
    for (what, otherwise) in mended.iter().chain(&changed) {
        for beside in [&Second as &dyn Implementation, otherwise] {
            let name = beside.name();
            let pair = [otherwise, beside];
            assert!(in_written(pair) > 0, "{what}, {name}");
            let different = writes::again(pair, 1_000).different;
            assert!(different > 0, "{what}, {name}, again");
        }
    }
}

#[test]
fn one_wrong_field_of_a_file_is_noticed() {
    for (path, line, fields) in [
        ("computed/rem-x87.txt", 0, 2..8),
        ("computed/remquo-binary16.txt", 0, 2..7),
        ("computed/remquo-binary32.txt", 1, 2..7),
        ("computed/remquo-binary64.txt", 2, 2..7),
        ("computed/remquo-x87.txt", 3, 2..7),
        ("computed/step-x87.txt", 0, 4..9),
        ("computed/run-x87.txt", 0, 5..10),
        ("computed/list-x87.txt", 0, 4..9),
        ("computed/list-x87.txt", 2, 4..9),
        ("computed/list-x87.txt", 200, 4..9),
        ("computed/denormal-binary16.txt", 0, 1..2),
        ("computed/denormal-x87.txt", 1, 1..2),
        ("computed/nan-binary32.txt", 0, 2..3),
        ("computed/nan-x87.txt", 1, 2..3),
        ("computed/plain/rem-x87.txt", 0, 2..7),
        ("computed/plain/step-x87.txt", 0, 4..8),
        ("computed/plain/run-x87.txt", 0, 5..9),
        ("computed/plain/scale-binary32.txt", 1, 2..5),
        ("computed/plain/split-binary16.txt", 3, 1..4),
        ("computed/octants/rem-x87.txt", 0, 2..7),
        ("computed/octants/step-x87.txt", 0, 4..8),
        ("computed/octants/run-x87.txt", 0, 5..9),
        ("computed/octants/list-x87.txt", 0, 4..9),
        ("computed/scale-binary32.txt", 1, 2..6),
        ("computed/split-binary16.txt", 3, 1..5),
        ("computed/fold-binary64.txt", 0, 2..4),
        ("computed/fold-binary64.txt", 1, 1..3),
        ("published/published-gcc.txt", 0, 4..6),
        ("published/published-gcc.txt", 1, 4..6),
        ("published/published-golang.txt", 124, 4..6),
    ] {
        for field in fields {
            let text = altered_text(&read(path), line, field);
            assert!(in_file(PAIR, path, &text) > 0, "{path}, field {field}");
        }
    }
}

/// The counts that the tests pin are those of the cases: one less is another count.
#[test]
fn a_missing_case_is_noticed() {
    for (path, lines) in [
        ("computed/rem-x87.txt", 1),
        ("computed/remquo-x87.txt", 1),
        ("computed/denormal-x87.txt", 1),
        ("computed/nan-x87.txt", 1),
        ("computed/plain/rem-x87.txt", 1),
        ("computed/octants/rem-x87.txt", 1),
        ("computed/list-x87.txt", 1),
        ("computed/fold-binary64.txt", 2),
        ("published/published-ruby.txt", 1),
    ] {
        let name = path.rsplit('/').next().unwrap();
        let text = read(path);
        let [all, less] = [text.clone(), shortened(&text, lines)].map(|text| match name {
            "list-x87.txt" => lists::compare(PAIR, Shown::by(path).modulus, &text).0.lines,
            "fold-binary64.txt" => folds::compare(PAIR, &text).lines,
            "published-ruby.txt" => published::compare(PAIR, &text, "").0.lines,
            _ => vectors::compare(PAIR, name, Shown::by(path), &text).lines,
        });
        assert_eq!(less + lines as u64, all, "{path}");
    }
    let [less, all] = [99, 100].map(|pairs| sequence::compare(PAIR, pairs));
    assert_ne!(less.0.answers, all.0.answers, "sequence");
    assert_ne!(less.1, all.1, "cells of the sequence");
    let [less, all] = [99, 100].map(|lists| folds::generated(PAIR, lists).0.answers);
    assert_ne!(less, all, "generated lists");
    let [less, all] = [99, 100].map(|places| folds::long(PAIR, places));
    assert_ne!((less.0, less.2), (all.0, all.2), "long lists");
    let [less, all] = [99, 100].map(|files| stems::files(PAIR, files));
    assert_ne!(less.0.answers, all.0.answers, "stem files");
    assert_ne!(less.1, all.1, "numbers of stem files");
    let [less, all] = [99, 100].map(|points| stems::folds(PAIR, points));
    assert_ne!(less.0.answers, all.0.answers, "points");
    assert_ne!(less.1, all.1, "cells of the points");
    let [less, all] = [99, 100].map(|cases| writes::compare(PAIR, Gauges::Safe, cases));
    assert_ne!(less.0.answers, all.0.answers, "written files");
    assert_ne!(less.1, all.1, "cells of the written files");
    let [less, all] = [99, 100].map(|files| writes::again(PAIR, files).answers);
    assert_ne!(less, all, "files written again");
    let [less, all] = [1, 2].map(|n| half::compare(PAIR, &[1, 2][..n], &|_| ()).answers);
    assert_ne!(less, all, "half");
}

/// The cells of the sequence count what is answered, so that where both are wrong alike these are
/// others than those in sequence.txt.
#[test]
fn a_wrong_cell_is_noticed() {
    let (_, right) = sequence::compare(PAIR, 100);
    let changes: [Change<Answer>; 2] = [|answer| answer.number = 5, |answer| answer.says ^= 2];
    let (_, is_scaling) = OPERATIONS[0];
    for change in changes {
        let both = [(); 2].map(|_| Altered::answer_to(is_scaling, change));
        let (comparison, wrong) = sequence::compare([&both[0], &both[1]], 100);
        assert_eq!(comparison.different, 0);
        assert_ne!(wrong, right);
    }
}

/// So do the cells of written files.
#[test]
fn a_wrong_cell_of_written_files_is_noticed() {
    let (_, right) = writes::compare(PAIR, Gauges::Safe, 0);
    let both = [(); 2].map(|_| Altered::file(|file| *file = Err(16)));
    let (comparison, wrong) = writes::compare([&both[0], &both[1]], Gauges::Safe, 0);
    assert_eq!(comparison.different, 0);
    assert_ne!(wrong, right);
}

/// A size that is refused, told as a NaN. The sums of a list do not show it.
#[test]
fn a_wrong_refusal_is_noticed() {
    let misnumbered = Answering(|call| match Library.answer(call) {
        answer if answer.number == 6 => Answer {
            number: 3,
            ..answer
        },
        answer => answer,
    });
    for path in [FILES[1], FILES[2], FILES[5]] {
        let different = in_file([&misnumbered, &Second], path, &read(path));
        assert!(different > 0, "{path}");
    }
}

fn is_pseudo_denormal(x: u128) -> bool {
    x >> 63 & 0xFFFF == 1
}

/// The library's answer with some bits of every pseudo-denormal turned before it is asked.
fn turned(call: &Call, bits: u128) -> Answer {
    let read = |x| if is_pseudo_denormal(x) { x ^ bits } else { x };
    Library.answer(&match *call {
        Call::Remainder(Format::X87, kind, x, y) => {
            Call::Remainder(Format::X87, kind, read(x), read(y))
        }
        Call::Remquo(Format::X87, kind, x, y) => Call::Remquo(Format::X87, kind, read(x), read(y)),
        Call::Step(kind, size, x, y, length) => Call::Step(kind, size, read(x), read(y), length),
        Call::Run(kind, size, budget, x, y, length) => {
            Call::Run(kind, size, budget, read(x), read(y), length)
        }
        Call::Scale(Format::X87, x, power) => Call::Scale(Format::X87, read(x), power),
        Call::Split(Format::X87, x) => Call::Split(Format::X87, read(x)),
        other => other,
    })
}

/// The library's answer, with a pseudo-denormal that it returns written as it was given.
fn as_given(call: &Call, x: u128) -> Answer {
    let mut answer = Library.answer(call);
    if is_pseudo_denormal(x) && answer.value == x | 1 << 64 {
        answer.value = x;
    }
    answer
}

/// Libraries that take pseudo-denormals in another way, and the files of x87 that show it.
#[test]
fn another_way_with_pseudo_denormals_is_noticed() {
    const INFINITY: u128 = 0x7FFF << 64 | 1 << 63;
    let every = ["rem", "remquo", "step", "run", "list", "scale", "split"];
    let ways: [(&str, Answerer, &[&str]); 5] = [
        // field 1 without a leading bit
        ("refused", |call| turned(call, 3 << 63), &every),
        ("no leading bit", |call| turned(call, 1 << 63), &every),
        (
            "as given by infinity",
            |call| match *call {
                Call::Remainder(_, _, x, INFINITY)
                | Call::Remquo(_, _, x, INFINITY)
                | Call::Step(_, _, x, INFINITY, _)
                | Call::Run(_, _, 1.., x, INFINITY, _) => as_given(call, x),
                _ => Library.answer(call),
            },
            &every[..4],
        ),
        (
            "as given with budget 0",
            |call| match *call {
                Call::Run(_, _, 0, x, ..) => as_given(call, x),
                _ => Library.answer(call),
            },
            &every[3..5],
        ),
        (
            "as given scaled by 0",
            |call| match *call {
                Call::Scale(Format::X87, x, 0) => as_given(call, x),
                _ => Library.answer(call),
            },
            &every[5..6],
        ),
    ];
    for (what, answer, operations) in ways {
        let otherwise = Answering(answer);
        let pair: Pair = [&otherwise, &Second];
        for operation in operations {
            let path = format!("computed/{operation}-x87.txt");
            assert!(in_file(pair, &path, &read(&path)) > 0, "{what}, {path}");
        }
        let different = sequence::compare(pair, 40_000).0.different;
        assert!(different > 0, "{what}, sequence");
    }
}

/// A published case that prints a NaN where there is a number.
#[test]
fn a_printed_nan_is_noticed() {
    let text = read("published/published-gcc.txt");
    let mut words: Vec<&str> = text.lines().next().unwrap().split(' ').collect();
    words[4] = "nan";
    assert_eq!(in_file(PAIR, "published-gcc.txt", &words.join(" ")), 1);
}

/// As they are printed the two bad cases are different.
#[test]
fn bad_cases_are_noticed() {
    let path = "published/published-newlib.txt";
    assert_eq!(in_file(PAIR, path, &read(path)), 2);
}

/// Of the line program: a byte, a cut, a line that is lost and one that is written twice.
#[test]
fn a_wrong_output_of_the_line_program_is_noticed() {
    let input = lines::drawn(20);
    let right = lines::answers(&input);
    let is_noticed = |written: &[u8]| lines::compare(&input, written).different > 0;
    assert!(!is_noticed(&right));
    for at in 0..right.len() {
        let mut altered = right.clone();
        altered[at] ^= 1;
        assert!(is_noticed(&altered), "byte {at}");
        assert!(is_noticed(&right[..at]), "cut after {at} bytes");
    }
    let lines: Vec<_> = right.split_inclusive(|&byte| byte == b'\n').collect();
    for at in 0..lines.len() {
        let lost = [&lines[..at], &lines[at + 1..]].concat().concat();
        assert!(is_noticed(&lost), "line {at} lost");
        let twice = [&lines[..=at], &lines[at..]].concat().concat();
        assert!(is_noticed(&twice), "line {at} twice");
    }
}

/// Bytes from one before the block on, and what the call returns.
#[test]
fn a_block_that_is_written_wrongly_is_noticed() {
    let zero = X87 {
        significand: 0,
        word: 0,
    };
    let stepped = |answer, quotient| Stepped {
        block: Block {
            value: zero,
            answer,
            octant: 0,
            steps: 0,
            quotient,
        },
        denormal: false,
    };
    let refused = Refused {
        refusal: BadSize,
        value: x87::HOUSE_NAN,
        denormal: false,
    };
    for (written, told, number) in [
        (0..0, Err(refused), 6),
        (1..21, Ok(stepped(Finished, 0)), 0),
        (20..21, Err(refused), MISWROTE),
        (0..21, Ok(stepped(Finished, 0)), MISWROTE),
        (1..22, Ok(stepped(Finished, 0)), MISWROTE),
        // another number, or another quotient than in the bytes
        (1..21, Ok(stepped(Partial, 0)), MISWROTE),
        (1..21, Ok(stepped(Finished, 8)), MISWROTE),
        // without the quotient, and a place further
        (1..17, Ok(stepped(Finished, 0)), MISWROTE),
        (2..22, Ok(stepped(Finished, 0)), MISWROTE),
        (0..0, Ok(stepped(Finished, 0)), MISWROTE),
    ] {
        let answer = lent(20, |room, block| {
            room[block.start - 1..][written.clone()].fill(0);
            told
        });
        assert_eq!(answer.number, number, "{written:?}, {told:?}");
    }
}

/// Places of both lists, which have two and a filled one, and what the fold returns.
#[test]
fn lists_that_are_written_wrongly_are_noticed() {
    for (results, quotients, told, number) in [
        (0..0, 0..0, Err(ZeroDivisor), 5),
        (1..2, 0..0, Err(ZeroDivisor), MISWROTE),
        (0..0, 0..1, Err(ZeroDivisor), MISWROTE),
        (0..2, 0..2, Ok(0), 0),
        (0..3, 0..2, Ok(0), MISWROTE),
        (0..2, 0..3, Ok(0), MISWROTE),
    ] {
        let folded = lent_lists(2, |lent_results, lent_quotients| {
            lent_results[results.clone()].fill(0);
            lent_quotients[quotients.clone()].fill(0);
            told
        });
        assert_eq!(
            folded.err().unwrap_or(0),
            number,
            "{results:?}, {quotients:?}, {told:?}"
        );
    }
}

/// How many bytes of the seven places a call writes, what it returns, and whether that is noticed.
#[test]
fn places_that_are_written_wrongly_are_noticed() {
    use Format::{Binary16, Binary32, Binary64, X87};
    for (format, written, returned, number) in [
        (X87, [0; 7], 5, 5),
        (Binary16, [0; 7], 3, 3),
        (Binary16, [0, 2, 0, 0, 0, 0, 0], 5, MISWROTE),
        (Binary32, [0, 0, 0, 0, 0, 4, 0], 4, MISWROTE),
        (Binary64, [0, 0, 0, 0, 0, 1, 0], 5, MISWROTE),
        (X87, [0, 8, 0, 0, 0, 0, 0], 2, MISWROTE),
        (X87, [0, 0, 0, 2, 0, 0, 0], 2, MISWROTE),
        (X87, [0, 0, 0, 0, 0, 4, 0], 3, MISWROTE),
        (X87, [1, 0, 0, 0, 0, 0, 0], 4, MISWROTE),
        (Binary16, [0, 2, 0, 0, 0, 4, 0], 0, 0),
        (Binary32, [0, 4, 0, 0, 0, 4, 0], 0, 0),
        (Binary64, [0, 8, 0, 0, 0, 4, 0], 0, 0),
        (X87, [0, 8, 0, 2, 0, 4, 0], 0, 0),
        (Binary16, [0, 4, 0, 0, 0, 4, 0], 0, MISWROTE),
        (Binary32, [0, 8, 0, 0, 0, 4, 0], 0, MISWROTE),
        (Binary64, [0, 8, 1, 0, 0, 4, 0], 0, MISWROTE),
        (Binary64, [0, 8, 0, 2, 0, 4, 0], 0, MISWROTE),
        (X87, [0, 8, 0, 4, 0, 4, 0], 0, MISWROTE),
        (X87, [0, 8, 0, 2, 0, 8, 0], 0, MISWROTE),
        (X87, [0, 8, 0, 2, 0, 4, 1], 0, MISWROTE),
    ] {
        let told = lent_places(format, |places| {
            for (place, bytes) in places.iter_mut().zip(written) {
                let mut kept = place.to_le_bytes();
                kept[..bytes].fill(0);
                *place = u64::from_le_bytes(kept);
            }
            returned
        });
        let expected = if number == 0 { Ok((0, 0)) } else { Err(number) };
        assert_eq!(told, expected, "{format:?}, {written:?}, {returned}");
    }
    // one that is not written is as it was
    let told = lent_places(X87, |_| 0);
    assert_eq!(told, Ok((0xA5A5_A5A5_A5A5_A5A5_A5A5, 0xA5A5_A5A5)));
}

/// Bytes from one before a room of 60 on, and what the writer tells.
#[test]
fn a_room_that_is_written_wrongly_is_noticed() {
    for (written, told, number) in [
        (0..0, Err(16), 16),
        (1..2, Err(16), MISWROTE),
        (60..61, Err(16), MISWROTE),
        (0..1, Err(16), MISWROTE),
        (61..62, Err(16), MISWROTE),
        (1..27, Ok(26), 0),
        (1..61, Ok(60), 0),
        (0..27, Ok(26), MISWROTE),
        (1..28, Ok(26), MISWROTE),
        (60..61, Ok(26), MISWROTE),
        (1..62, Ok(60), MISWROTE),
        (1..62, Ok(61), MISWROTE),
        (0..0, Ok(usize::MAX), MISWROTE),
    ] {
        let file = lent_room(60, |bytes, room| {
            bytes[room.start - 1..][written.clone()].fill(0);
            told
        });
        let expected = match number {
            0 => Ok(vec![0; told.unwrap()]),
            _ => Err(number),
        };
        assert_eq!(file, expected, "{written:?}, {told:?}");
    }
    // bytes behind the file that are moved by one place
    let moved = lent_room(60, |bytes, room| {
        bytes.copy_within(room.start + 26..room.end - 1, room.start + 27);
        Ok(26)
    });
    assert_eq!(moved, Err(MISWROTE));
}

/// What a call writes to the place of the length and beside it, and what it returns.
#[test]
fn a_length_that_is_written_wrongly_is_noticed() {
    for (written, returned, told) in [
        (0..0, 16, Err(16)),
        (1..2, 16, Err(MISWROTE)),
        (0..1, 16, Err(MISWROTE)),
        (2..3, 16, Err(MISWROTE)),
        (1..2, 0, Ok(26)),
        (0..2, 0, Err(MISWROTE)),
        (1..3, 0, Err(MISWROTE)),
    ] {
        let length = lent_length(|places| {
            places[written.clone()].fill(26);
            returned
        });
        assert_eq!(length, told, "{written:?}, {returned}");
    }
    // one that is not written is the length of no file
    let unwritten = lent_room(60, |_, _| lent_length(|_| 0));
    assert_eq!(unwritten, Err(MISWROTE));
}
