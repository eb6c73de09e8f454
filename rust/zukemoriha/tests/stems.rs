//! Stem files: what is borrowed and what is kept, and what a refused call leaves as it was, which
//! shows only in the archive's own functions.

use zukemoriha::binary64::HOUSE_NAN;
use zukemoriha::{Gauge, Point, Refusal, Stem};

#[allow(dead_code)]
#[path = "../src/raw.rs"]
mod raw;

const OLD_BYTE: u8 = 0xA5;
const OLD: u32 = 0xA5A5_A5A5;
const OLD_PATTERN: u64 = 0xA5A5_A5A5_A5A5_A5A5;
const OLD_PLACE: usize = 0xA5A5;

/// Zeros, denormals, the ends of the normal numbers, neighbours of 1, a half unit of 2^53,
/// infinities, and quiet and signalling NaNs.
const PATTERNS: [u64; 20] = [
    0x0000_0000_0000_0000,
    0x8000_0000_0000_0000,
    0x0000_0000_0000_0001,
    0x8000_0000_0000_0003,
    0x000F_FFFF_FFFF_FFFF,
    0x0010_0000_0000_0000,
    0x3FEF_FFFF_FFFF_FFFF,
    0x3FF0_0000_0000_0000,
    0xBFF0_0000_0000_0001,
    0x4008_0000_0000_0000,
    0x4076_8000_0000_0000,
    0x4340_0000_0000_0001,
    0xC340_0000_0000_0002,
    0x7FEF_FFFF_FFFF_FFFF,
    0xFFEF_FFFF_FFFF_FFFF,
    0x7FF0_0000_0000_0000,
    0xFFF0_0000_0000_0000,
    0x7FF8_0000_0000_0000,
    0x7FF0_0000_0000_0001,
    0xFFFF_FFFF_FFFF_FFFF,
];

/// A file whose count is that of its points.
fn file(kind: u8, period: f64, origin: f64, points: &[Point]) -> Vec<u8> {
    let mut file = b"STM\x01\x00".to_vec();
    file.push(kind);
    file.extend((points.len() as u32).to_le_bytes());
    file.extend(period.to_le_bytes());
    file.extend(origin.to_le_bytes());
    for point in points {
        file.extend(point.reading.to_le_bytes());
        file.extend(point.radius.to_le_bytes());
    }
    file
}

fn numbered(n: u64) -> Vec<Point> {
    let point = |i| Point {
        reading: i,
        radius: !i,
    };
    (0..n).map(point).collect()
}

/// The number that the archive returns of a file, and what it has written.
fn opened(file: &[u8]) -> (u8, (u32, u64, u64, usize, usize)) {
    let (mut kind, mut period, mut origin) = (OLD, OLD_PATTERN, OLD_PATTERN);
    let (mut start, mut count) = (OLD_PLACE, OLD_PLACE);
    // SAFETY: the file is lent with its length, and each number is a place of its own.
    let number = unsafe {
        raw::zk_stem_open(
            file.as_ptr(),
            file.len(),
            &mut kind,
            &mut period,
            &mut origin,
            &mut start,
            &mut count,
        )
    };
    (number, (kind, period, origin, start, count))
}

/// The number that the archive returns of a fold, and the reading after it.
fn folded(kind: u32, period: f64, origin: f64, mut reading: u64) -> (u8, u64) {
    let (period, origin) = (period.to_bits(), origin.to_bits());
    // SAFETY: the reading is a place of its own.
    let number = unsafe { raw::zk_stem_fold(kind, period, origin, &mut reading) };
    (number, reading)
}

/// The number that the archive returns of a write, and what then stands where the length goes.
fn written(gauge: (u32, f64, f64), [readings, radii]: [&[u64]; 2], room: &mut [u8]) -> (u8, usize) {
    let (kind, period, origin) = gauge;
    let mut written = OLD_PLACE;
    // SAFETY: the lists and the room are lent with their lengths, and the length is a place of its
    // own.
    let number = unsafe {
        raw::zk_stem_write(
            kind,
            period.to_bits(),
            origin.to_bits(),
            readings.as_ptr(),
            readings.len(),
            radii.as_ptr(),
            radii.len(),
            room.as_mut_ptr(),
            room.len(),
            &mut written,
        )
    };
    (number, written)
}

/// The gauge of the safe functions, if they have it.
fn safe((kind, period, origin): (u32, f64, f64)) -> Option<Gauge> {
    let (period, origin) = (period.to_bits(), origin.to_bits());
    match (kind, origin) {
        (0, 0) => Some(Gauge::Turn { period }),
        (1, _) => Some(Gauge::Roller { period, origin }),
        _ => None,
    }
}

fn lists(points: &[Point]) -> (Vec<u64>, Vec<u64>) {
    let both = |point: &Point| (point.reading, point.radius);
    points.iter().map(both).unzip()
}

/// Every pattern as a reading, with every pattern as its radius.
fn paired() -> Vec<Point> {
    let points = |reading| PATTERNS.map(|radius| Point { reading, radius });
    PATTERNS.into_iter().flat_map(points).collect()
}

#[test]
fn an_accepted_file_gives_its_gauge_and_its_points() {
    for n in [0, 1, 2, 255, 256, 3999, 4000] {
        let points = numbered(n);
        let turn = file(0, 360.0, 0.0, &points);
        let roller = file(1, 812.5, -0.0, &points);
        let period = 360_f64.to_bits();
        assert_eq!(opened(&turn), (0, (0, period, 0, 26, points.len())));
        let stem = Stem::open(&turn).unwrap();
        assert_eq!(stem.gauge(), Gauge::Turn { period });
        assert_eq!(stem.points().collect::<Vec<_>>(), points);

        let (period, origin) = (812.5_f64.to_bits(), (-0.0_f64).to_bits());
        assert_eq!(opened(&roller), (0, (1, period, origin, 26, points.len())));
        let stem = Stem::open(&roller).unwrap();
        assert_eq!(stem.gauge(), Gauge::Roller { period, origin });
        assert_eq!(stem.points().collect::<Vec<_>>(), points);
    }
    assert_eq!(Stem::HEADER_LENGTH, file(0, 360.0, 0.0, &[]).len());
    assert_eq!(Stem::MOST_POINTS, 4000);
}

#[test]
fn a_refused_file_writes_nothing() {
    let good = file(1, 812.5, 100.5, &numbered(3));
    let with = |at: usize, bytes: &[u8]| {
        let mut file = good.clone();
        file[at..at + bytes.len()].copy_from_slice(bytes);
        file
    };
    let refused = [
        (vec![], Refusal::StemLength),
        (good[..25].to_vec(), Refusal::StemLength),
        (with(0, b"s"), Refusal::StemMark),
        (with(2, b"N"), Refusal::StemMark),
        (with(3, &[2]), Refusal::StemVersion),
        (with(4, &[1]), Refusal::StemVersion),
        (with(5, &[2]), Refusal::StemKind),
        (with(6, &4001_u32.to_le_bytes()), Refusal::StemCount),
        (with(6, &[0xFF; 4]), Refusal::StemCount),
        (with(6, &4000_u32.to_le_bytes()), Refusal::StemLength),
        (good[..good.len() - 1].to_vec(), Refusal::StemLength),
        ([&good[..], &[0]].concat(), Refusal::StemLength),
        (with(10, &[0; 8]), Refusal::StemGauge),
        (with(10, &(-1_f64).to_le_bytes()), Refusal::StemGauge),
        (with(10, &f64::INFINITY.to_le_bytes()), Refusal::StemGauge),
        (with(18, &f64::NAN.to_le_bytes()), Refusal::StemGauge),
        // 100.5 is no origin of a turn
        (with(5, &[0]), Refusal::StemGauge),
    ];
    let old = (OLD, OLD_PATTERN, OLD_PATTERN, OLD_PLACE, OLD_PLACE);
    for (file, refusal) in refused {
        assert_eq!(Stem::open(&file), Err(refusal), "{file:X?}");
        assert_eq!(opened(&file), (refusal.number(), old), "{file:X?}");
    }
}

#[test]
fn a_refused_fold_leaves_the_reading_as_it_was() {
    let reading = 3400_f64.to_bits();
    assert_eq!(folded(1, 812.5, 100.5, reading), (0, 49.5_f64.to_bits()));
    assert_eq!(folded(0, 812.5, 0.0, reading), (0, 150_f64.to_bits()));
    for (kind, period, origin, number) in [
        (2, 812.5, 0.0, 12),
        (256, 0.0, f64::NAN, 12),
        (u32::MAX, f64::NAN, 100.5, 12),
        (0, 812.5, -0.0, 15),
        (0, 812.5, 100.5, 15),
        (0, 0.0, 0.0, 15),
        (1, -0.0, 0.0, 15),
        (1, -812.5, 0.0, 15),
        (1, f64::INFINITY, 0.0, 15),
        (1, f64::NAN, 0.0, 15),
        (1, 812.5, f64::NEG_INFINITY, 15),
        (1, 812.5, f64::NAN, 15),
    ] {
        for reading in PATTERNS {
            let told = folded(kind, period, origin, reading);
            assert_eq!(told, (number, reading), "{kind}, {period}, {origin}");
        }
    }
}

/// All patterns for the reading, the period and the origin: the subtraction, the remainder and the
/// tests for finite values are those of the language.
#[test]
fn a_fold_is_a_subtraction_and_a_remainder() {
    let remainder = |x: f64, y: f64| match x.is_finite() {
        true => (x % y).to_bits(),
        false => HOUSE_NAN,
    };
    let radius = OLD_PATTERN;
    for reading in PATTERNS {
        for period in PATTERNS {
            let (x, y) = (f64::from_bits(reading), f64::from_bits(period));
            let is_good = y.is_finite() && y > 0.0;
            let expected = |x, is_good: bool| match is_good {
                true => Ok(Point {
                    reading: remainder(x, y),
                    radius,
                }),
                false => Err(Refusal::StemGauge),
            };
            let point = Point { reading, radius };
            assert_eq!(Gauge::Turn { period }.fold(point), expected(x, is_good));
            for origin in PATTERNS {
                let gauge = Gauge::Roller { period, origin };
                let zero = f64::from_bits(origin);
                let is_good = is_good && zero.is_finite();
                assert_eq!(
                    gauge.fold(point),
                    expected(x - zero, is_good),
                    "{point:X?}, {gauge:X?}"
                );
            }
        }
    }
}

#[test]
fn a_radius_is_kept_bit_for_bit() {
    let points: Vec<Point> = PATTERNS
        .map(|radius| Point {
            reading: 3400_f64.to_bits(),
            radius,
        })
        .into();
    let file = file(1, 812.5, 100.5, &points);
    let stem = Stem::open(&file).unwrap();
    assert_eq!(stem.points().len(), PATTERNS.len());
    for (point, radius) in stem.points().zip(PATTERNS) {
        let reading = 49.5_f64.to_bits();
        assert_eq!(stem.gauge().fold(point), Ok(Point { reading, radius }));
    }
}

#[test]
fn points_are_read_from_both_ends() {
    let points = numbered(5);
    let file = file(0, 360.0, 0.0, &points);
    let read = || Stem::open(&file).unwrap().points(); // outlives what it came from
    assert_eq!(read().len(), 5);
    assert!(read().rev().eq(points.iter().rev().copied()));
    assert_eq!(read().nth(3), Some(points[3]));

    let mut ends = read();
    assert_eq!(ends.next(), Some(points[0]));
    assert_eq!(ends.next_back(), Some(points[4]));
    assert_eq!(ends.clone().len(), 3);
    assert_eq!(ends.nth(3), None);
    assert_eq!((ends.next(), ends.next_back(), ends.len()), (None, None, 0));
}

/// In rooms of the file's length and longer ones, by the archive and by the safe function.
#[test]
fn a_written_file_is_that_of_the_table() {
    let counts = [0, 1, 2, 255, 256, 3999, 4000];
    for points in counts.map(numbered).into_iter().chain([paired()]) {
        for gauge in [(0, 360.0, 0.0), (1, 812.5, -0.0), (1, 5e-324, f64::MIN)] {
            let (kind, period, origin) = gauge;
            let file = file(kind as u8, period, origin, &points);
            assert_eq!(Stem::length_of(points.len()), Some(file.len()));
            let (readings, radii) = lists(&points);
            for more in [0, 1, 15, 16, 300] {
                let behind = vec![OLD_BYTE; more];
                let expected = [&file[..], &behind].concat();

                let mut room = vec![OLD_BYTE; expected.len()];
                let told = written(gauge, [&readings, &radii], &mut room);
                assert_eq!(told, (0, file.len()), "{more} bytes more");
                assert!(room == expected, "{more} bytes more");

                let mut room = vec![OLD_BYTE; expected.len()];
                let gauge = safe(gauge).unwrap();
                let told = Stem::write(gauge, &readings, &radii, &mut room);
                assert_eq!(told, Ok(file.len()), "{more} bytes more");
                assert!(room == expected, "{more} bytes more");

                let stem = Stem::open(&room[..file.len()]).unwrap();
                assert_eq!(stem.gauge(), gauge);
                assert!(stem.points().eq(points.iter().copied()));
            }
        }
    }
}

/// All patterns for the period and the origin: those that a file may have.
#[test]
fn a_file_that_is_opened_is_written_again_as_it_was() {
    let mut opened = 0;
    for period in PATTERNS.map(f64::from_bits) {
        for origin in PATTERNS.map(f64::from_bits) {
            for kind in [0, 1] {
                let file = file(kind, period, origin, &paired()[..21]);
                if let Ok(stem) = Stem::open(&file) {
                    let (readings, radii) = lists(&stem.points().collect::<Vec<_>>());
                    let mut room = vec![OLD_BYTE; file.len()];
                    let told = Stem::write(stem.gauge(), &readings, &radii, &mut room);
                    assert_eq!(told, Ok(file.len()));
                    assert_eq!(room, file);
                    opened += 1;
                }
            }
        }
    }
    // nine patterns are finite and above zero, and 15 finite
    assert_eq!(opened, 9 + 9 * 15);
}

/// From all refusals together to none, and each by itself: kind, period and origin, how many
/// readings and radii, how long the room is, and the number.
#[test]
fn a_refused_write_leaves_the_room_as_it_was() {
    let (nan, infinity) = (f64::NAN, f64::INFINITY);
    let list: Vec<u64> = PATTERNS.into_iter().cycle().take(70_000).collect();
    for (gauge, readings, radii, length, number) in [
        ((2, 0.0, nan), 4001, 4002, 0, 9),
        ((2, 0.0, nan), 4001, 4001, 0, 12),
        ((1, 0.0, nan), 4001, 4001, 0, 13),
        ((1, 0.0, nan), 4000, 4000, 0, 15),
        ((1, 812.5, nan), 4000, 4000, 0, 15),
        ((1, 812.5, 0.0), 4000, 4000, 0, 16),
        ((1, 812.5, 0.0), 4000, 4000, 64_025, 16),
        ((0, 812.5, 0.0), 0, 1, 100, 9),
        ((0, 812.5, 0.0), 1, 0, 100, 9),
        ((1, 812.5, 0.0), 3, 4, 100, 9),
        ((1, 812.5, 0.0), 4000, 4001, 70_000, 9),
        ((1, 812.5, 0.0), 4001, 4000, 70_000, 9),
        ((0, 812.5, 0.0), 0, 256, 100, 9),
        ((0, 812.5, 0.0), 2, 65_538, 100, 9),
        ((2, 812.5, 0.0), 3, 3, 100, 12),
        ((256, 812.5, 0.0), 3, 3, 100, 12),
        ((u32::MAX, 812.5, 0.0), 3, 3, 100, 12),
        ((0, 812.5, 0.0), 4001, 4001, 70_000, 13),
        ((1, 812.5, 0.0), 65_536, 65_536, 70_000, 13),
        ((1, 812.5, 0.0), 65_539, 65_539, 100, 13),
        ((0, 812.5, -0.0), 3, 3, 100, 15),
        ((0, 812.5, 5e-324), 3, 3, 100, 15),
        ((0, 812.5, 100.5), 3, 3, 100, 15),
        ((0, 0.0, 0.0), 3, 3, 100, 15),
        ((1, -0.0, 0.0), 0, 0, 100, 15),
        ((1, -812.5, 0.0), 3, 3, 100, 15),
        ((0, infinity, 0.0), 3, 3, 100, 15),
        ((0, nan, 0.0), 3, 3, 100, 15),
        ((1, 812.5, -infinity), 3, 3, 100, 15),
        ((1, 812.5, -nan), 0, 0, 100, 15),
        ((1, 812.5, 0.0), 0, 0, 0, 16),
        ((0, 812.5, 0.0), 0, 0, 25, 16),
        ((0, 812.5, 0.0), 1, 1, 26, 16),
        ((1, 812.5, 0.0), 3, 3, 73, 16),
    ] {
        let (readings, radii) = (&list[..readings], &list[list.len() - radii..]);
        let what = (gauge, readings.len(), radii.len(), length);
        let mut room = vec![OLD_BYTE; length];
        let told = written(gauge, [readings, radii], &mut room);
        assert_eq!(told, (number, OLD_PLACE), "{what:?}");
        if let Some(gauge) = safe(gauge) {
            let told = Stem::write(gauge, readings, radii, &mut room);
            assert_eq!(told.map_err(Refusal::number), Err(number), "{what:?}");
        }
        assert!(room.iter().all(|&byte| byte == OLD_BYTE), "{what:?}");
    }
}

/// A list that is only read may be lent twice.
#[test]
fn one_list_may_be_both() {
    let gauge = Gauge::Turn {
        period: 360_f64.to_bits(),
    };
    let points = PATTERNS.map(|both| Point {
        reading: both,
        radius: both,
    });
    let mut room = [OLD_BYTE; 26 + 20 * 16];
    let told = Stem::write(gauge, &PATTERNS, &PATTERNS, &mut room);
    assert_eq!(told, Ok(room.len()));
    assert_eq!(room[..], file(0, 360.0, 0.0, &points));
}

#[test]
fn the_bytes_of_a_point_go_both_ways() {
    let bytes = [1, 2, 3, 4, 5, 6, 7, 8, 9, 10, 11, 12, 13, 14, 15, 16];
    let point = Point {
        reading: 0x0807_0605_0403_0201,
        radius: 0x100F_0E0D_0C0B_0A09,
    };
    assert_eq!(Point::from_bytes(&bytes), point);
    assert_eq!(point.to_bytes(), bytes);
    for point in paired() {
        assert_eq!(Point::from_bytes(&point.to_bytes()), point);
    }
}

#[test]
fn no_file_has_more_points_than_may_be() {
    assert_eq!(Stem::length_of(0), Some(26));
    assert_eq!(Stem::length_of(4000), Some(64_026));
    for points in [4001, 1 << 28, usize::MAX / 16, usize::MAX] {
        assert_eq!(Stem::length_of(points), None);
    }
}
