//! Stem files written out byte by byte, and folds worked out by hand.

use second::stem::{fold, open, write, Gauge, Point, Stem, ROLLER, TURN};

const HOUSE_NAN: u64 = 0x7FF8_0000_0000_0000;
const LARGEST: u64 = 0x7FEF_FFFF_FFFF_FFFF;
const INFINITY: u64 = 0x7FF0_0000_0000_0000;
const NEGATIVE: u64 = 1 << 63;

/// A roller of 812.5 that begins at 100.5, and two points: 3400 and 155.25, -612 and a NaN.
#[rustfmt::skip]
const FILE: [u8; 58] = [
    b'S', b'T', b'M', 1, 0, 1, 2, 0, 0, 0,
    0x00, 0x00, 0x00, 0x00, 0x00, 0x64, 0x89, 0x40,
    0x00, 0x00, 0x00, 0x00, 0x00, 0x20, 0x59, 0x40,
    0x00, 0x00, 0x00, 0x00, 0x00, 0x90, 0xAA, 0x40,
    0x00, 0x00, 0x00, 0x00, 0x00, 0x68, 0x63, 0x40,
    0x00, 0x00, 0x00, 0x00, 0x00, 0x20, 0x83, 0xC0,
    0x01, 0x02, 0x03, 0x04, 0x05, 0x06, 0xF7, 0xFF,
];

/// The file with other bytes from a place on.
fn with(at: usize, bytes: &[u8]) -> Vec<u8> {
    let mut file = FILE.to_vec();
    file[at..at + bytes.len()].copy_from_slice(bytes);
    file
}

fn turn(period: u64) -> Gauge {
    Gauge {
        kind: TURN,
        period,
        origin: 0,
    }
}

fn roller(period: u64, origin: u64) -> Gauge {
    Gauge {
        kind: ROLLER,
        period,
        origin,
    }
}

/// The reading after a fold. The radius, any pattern, has to be what it was.
fn folded(gauge: Gauge, reading: u64) -> Result<u64, u8> {
    let radius = 0xFFF7_0605_0403_0201;
    let point = fold(gauge, Point { reading, radius })?;
    assert_eq!(point.radius, radius);
    Ok(point.reading)
}

#[test]
fn a_file_gives_its_gauge_and_its_points() {
    let stem = open(&FILE).unwrap();
    let point = |reading: f64, radius| Point {
        reading: reading.to_bits(),
        radius,
    };
    let points = [
        point(3400.0, 155.25_f64.to_bits()),
        point(-612.0, 0xFFF7_0605_0403_0201),
    ];
    let gauge = roller(812.5_f64.to_bits(), 100.5_f64.to_bits());
    let points = points.to_vec();
    assert_eq!(stem, Stem { gauge, points });

    let folds: Vec<f64> = stem
        .points
        .iter()
        .map(|&point| f64::from_bits(fold(gauge, point).unwrap().reading))
        .collect();
    assert_eq!(folds, [49.5, -712.5]);
}

#[test]
fn a_count_of_0_is_accepted() {
    let file = &with(6, &[0])[..26];
    assert_eq!(open(file).map(|stem| stem.points.len()), Ok(0));
}

#[test]
fn as_many_points_as_may_be() {
    for (count, number) in [(3999, None), (4000, None), (4001, Some(13))] {
        let mut file = with(6, &u32::to_le_bytes(count));
        file.resize(26 + 16 * count as usize, 0);
        let told = open(&file).map(|stem| stem.points.len());
        assert_eq!(told, number.map_or(Ok(count as usize), Err));
        file.pop();
        assert_eq!(open(&file), Err(number.unwrap_or(14)));
    }
}

#[test]
fn refusals_come_in_their_order() {
    let mut all = with(0, b"XTM\x02\x00\x02\xFF\xFF\xFF\xFF");
    all[10..].fill(0);
    // Each fault in its turn is mended, the one that is told before the next.
    let mendings: [(u8, usize, &[u8]); 5] = [
        (10, 0, b"STM"),
        (11, 3, &[1, 0]),
        (12, 5, &[0]),
        (13, 6, &[3, 0, 0, 0]),
        (14, 6, &[2, 0, 0, 0]),
    ];
    for (number, at, bytes) in mendings {
        assert_eq!(open(&all[..25]), Err(14));
        assert_eq!(open(&all), Err(number));
        all[at..at + bytes.len()].copy_from_slice(bytes);
    }
    assert_eq!(open(&all), Err(15));
    all[10] = 1;
    assert!(open(&all).is_ok());
}

#[test]
fn refused_files() {
    for (file, number) in [
        (vec![], 14),
        (FILE[..25].to_vec(), 14),
        (FILE[..26].to_vec(), 14),
        (FILE[..57].to_vec(), 14),
        ([&FILE[..], &[0]].concat(), 14),
        (with(1, b"t"), 10),
        (with(4, &[1]), 11),
        (with(5, &[255]), 12),
        (with(9, &[1]), 13),
        // A turn may have no origin, not even -0.
        (with(5, &[0]), 15),
        (
            [
                &with(5, &[0])[..18],
                &[0, 0, 0, 0, 0, 0, 0, 0x80],
                &FILE[26..],
            ]
            .concat(),
            15,
        ),
    ] {
        assert_eq!(open(&file), Err(number), "{file:X?}");
    }
}

#[test]
fn gauges_that_no_file_gives() {
    let one = 1_f64.to_bits();
    for period in [
        0,
        NEGATIVE,
        NEGATIVE | one,
        INFINITY,
        HOUSE_NAN,
        INFINITY | 1,
    ] {
        assert_eq!(folded(turn(period), one), Err(15));
        assert_eq!(folded(roller(period, one), one), Err(15));
        assert_eq!(open(&with(10, &period.to_le_bytes())), Err(15));
    }
    for origin in [INFINITY, NEGATIVE | INFINITY, HOUSE_NAN, INFINITY | 1] {
        assert_eq!(folded(roller(one, origin), one), Err(15));
        assert_eq!(open(&with(18, &origin.to_le_bytes())), Err(15));
    }
    for origin in [NEGATIVE, 1, one] {
        let gauge = Gauge {
            origin,
            ..turn(one)
        };
        assert_eq!(folded(gauge, one), Err(15));
    }
    for kind in [2, 256, u32::MAX] {
        let gauge = Gauge { kind, ..turn(0) };
        assert_eq!(folded(gauge, one), Err(12));
    }
}

/// A reading, an origin, and what is left. In the comments a unit is that of 2^53, two.
#[rustfmt::skip]
const DIFFERENCES: [[u64; 3]; 15] = [
    // 2^53 and 1: half a unit more goes to the even one, which is below.
    [0x4340_0000_0000_0000, 0xBFF0_0000_0000_0000, 0x4340_0000_0000_0000],
    // 2^53 + 2 and 1: to the even one, which is above.
    [0x4340_0000_0000_0001, 0xBFF0_0000_0000_0000, 0x4340_0000_0000_0002],
    // A little more, and a little less, than half a unit.
    [0x4340_0000_0000_0000, 0xBFF0_0000_0000_0001, 0x4340_0000_0000_0001],
    [0x4340_0000_0000_0001, 0xBFEF_FFFF_FFFF_FFFF, 0x4340_0000_0000_0001],
    // Below 2^53 a unit is one: 2^53 less 1 is exact, less 1/2 and less 3/2 are ties.
    [0x4340_0000_0000_0000, 0x3FF0_0000_0000_0000, 0x433F_FFFF_FFFF_FFFF],
    [0x4340_0000_0000_0000, 0x3FE0_0000_0000_0000, 0x4340_0000_0000_0000],
    [0x4340_0000_0000_0000, 0x3FF8_0000_0000_0000, 0x433F_FFFF_FFFF_FFFE],
    // 2^54 - 2 and 1: every digit carries.
    [0x434F_FFFF_FFFF_FFFF, 0xBFF0_0000_0000_0000, 0x4350_0000_0000_0000],
    // 1 less 2^-53, less 2^-54 and less the smallest denormal; 1 + 2^-52 less 1.
    [0x3FF0_0000_0000_0000, 0x3CA0_0000_0000_0000, 0x3FEF_FFFF_FFFF_FFFF],
    [0x3FF0_0000_0000_0000, 0x3C90_0000_0000_0000, 0x3FF0_0000_0000_0000],
    [0x3FF0_0000_0000_0000, 0x0000_0000_0000_0001, 0x3FF0_0000_0000_0000],
    [0x3FF0_0000_0000_0001, 0x3FF0_0000_0000_0000, 0x3CB0_0000_0000_0000],
    // Denormals: the smallest normal less the smallest, 3 less 5 of them, and up to a normal.
    [0x0010_0000_0000_0000, 0x0000_0000_0000_0001, 0x000F_FFFF_FFFF_FFFF],
    [0x0000_0000_0000_0003, 0x0000_0000_0000_0005, 0x8000_0000_0000_0002],
    [0x800F_FFFF_FFFF_FFFF, 0x0000_0000_0000_0001, 0x8010_0000_0000_0000],
];

/// The period is so large that the remainder is the difference itself.
#[test]
fn differences_are_rounded_once() {
    for [reading, origin, left] in DIFFERENCES {
        let told = folded(roller(LARGEST, origin), reading);
        assert_eq!(told, Ok(left), "{reading:X} less {origin:X}");
        // The other way round, or with both signs changed, it has the other sign.
        let told = folded(roller(LARGEST, reading), origin);
        assert_eq!(told, Ok(left ^ NEGATIVE), "{origin:X} less {reading:X}");
        let told = folded(roller(LARGEST, origin ^ NEGATIVE), reading ^ NEGATIVE);
        assert_eq!(told, Ok(left ^ NEGATIVE), "-{reading:X} less -{origin:X}");
    }
}

#[test]
fn signs_of_zero_differences() {
    let five = 5_f64.to_bits();
    for (reading, origin, left) in [
        (0, 0, 0),
        (NEGATIVE, 0, NEGATIVE),
        (0, NEGATIVE, 0),
        (NEGATIVE, NEGATIVE, 0),
        (five, five, 0),
        (NEGATIVE | five, NEGATIVE | five, 0),
    ] {
        assert_eq!(folded(roller(LARGEST, origin), reading), Ok(left));
    }
}

/// The largest value and half its unit, 2^970, round to 2^1024: an infinity. A little less does not.
#[test]
fn differences_beyond_the_range() {
    for (reading, origin, left) in [
        (LARGEST, NEGATIVE | LARGEST, HOUSE_NAN),
        (NEGATIVE | LARGEST, LARGEST, HOUSE_NAN),
        (LARGEST, 0xFC90_0000_0000_0000, HOUSE_NAN),
        (NEGATIVE | LARGEST, 0x7C90_0000_0000_0000, HOUSE_NAN),
        (LARGEST, 0xFC8F_FFFF_FFFF_FFFF, 0),
        (NEGATIVE | LARGEST, 0x7C8F_FFFF_FFFF_FFFF, NEGATIVE),
        // One unit below the largest the half goes down, to the even one.
        (LARGEST - 1, 0xFC90_0000_0000_0000, LARGEST - 1),
    ] {
        let told = folded(roller(LARGEST, origin), reading);
        assert_eq!(told, Ok(left), "{reading:X} less {origin:X}");
    }
}

#[test]
fn remainders_have_the_sign_of_what_was_divided() {
    let degrees = turn(360_f64.to_bits());
    for (reading, left) in [
        (1e22, 280.0_f64),
        (-30.25, -30.25),
        (725.5, 5.5),
        (720.0, 0.0),
        (-720.0, -0.0),
        (-0.0, -0.0),
    ] {
        assert_eq!(folded(degrees, f64::to_bits(reading)), Ok(left.to_bits()));
    }
    let lengths = roller(812.5_f64.to_bits(), 100.5_f64.to_bits());
    for (reading, left) in [
        (3400.0, 49.5_f64),
        (100.5, 0.0),
        (913.0, 0.0),
        (-712.0, -0.0),
        (0.0, -100.5),
    ] {
        assert_eq!(folded(lengths, f64::to_bits(reading)), Ok(left.to_bits()));
    }
    // By the smallest denormal nothing is left, and by 2 of them an odd one.
    assert_eq!(folded(turn(1), NEGATIVE | LARGEST), Ok(NEGATIVE));
    assert_eq!(folded(roller(2, 3), 8), Ok(1));
    assert_eq!(folded(roller(2, 8), 3), Ok(NEGATIVE | 1));
}

#[test]
fn readings_that_are_not_finite() {
    let period = 360_f64.to_bits();
    for reading in [
        INFINITY,
        NEGATIVE | INFINITY,
        HOUSE_NAN,
        INFINITY | 1,
        u64::MAX,
    ] {
        assert_eq!(folded(turn(period), reading), Ok(HOUSE_NAN));
        assert_eq!(folded(roller(period, LARGEST), reading), Ok(HOUSE_NAN));
        assert_eq!(folded(roller(period, 0), reading), Ok(HOUSE_NAN));
    }
}

/// The readings and the radii of the file above.
const READINGS: [u64; 2] = [0x40AA_9000_0000_0000, 0xC083_2000_0000_0000];
const RADII: [u64; 2] = [0x4063_6800_0000_0000, 0xFFF7_0605_0403_0201];

fn lengths() -> Gauge {
    roller(0x4089_6400_0000_0000, 0x4059_2000_0000_0000)
}

#[test]
fn a_file_is_written_byte_by_byte() {
    for room in [58, 59, 1000, usize::MAX] {
        let file = write(lengths(), &READINGS, &RADII, room);
        assert_eq!(file.unwrap(), FILE);
    }
    // A turn of 360 degrees without a point.
    let mut header = *b"STM\x01\0\0\0\0\0\0\0\0\0\0\0\x80\x76\x40\0\0\0\0\0\0\0\0";
    let degrees = turn(0x4076_8000_0000_0000);
    assert_eq!(write(degrees, &[], &[], 26).unwrap(), header);
    // 515 points, a number of two bytes; one that is all ones, and one that has each digit once.
    let (mut readings, mut radii) = ([0; 515], [0; 515]);
    (readings[513], radii[514]) = (u64::MAX, 0xFEDC_BA98_7654_3210);
    header[6..8].copy_from_slice(&[0x03, 0x02]);
    let file = write(degrees, &readings, &radii, 26 + 16 * 515).unwrap();
    assert_eq!(file[..26], header);
    assert_eq!(file[26..26 + 16 * 513], [0; 16 * 513]);
    let last = [
        [[0xFF; 8], [0; 8]],
        [[0; 8], [0x10, 0x32, 0x54, 0x76, 0x98, 0xBA, 0xDC, 0xFE]],
    ];
    assert_eq!(file[26 + 16 * 513..], last.concat().concat());
}

#[test]
fn a_file_is_written_again_as_it_was() {
    for file in [&FILE[..], &with(6, &[0])[..26], &with(6, &[1])[..42]] {
        let Stem { gauge, points } = open(file).unwrap();
        let readings: Vec<u64> = points.iter().map(|point| point.reading).collect();
        let radii: Vec<u64> = points.iter().map(|point| point.radius).collect();
        assert_eq!(write(gauge, &readings, &radii, file.len()).unwrap(), file);
    }
}

#[test]
fn as_many_points_are_written_as_may_be() {
    let list = [HOUSE_NAN; 4001];
    for (count, number) in [(3999, None), (4000, None), (4001, Some(13))] {
        let list = &list[..count];
        let length = 26 + 16 * count;
        let told = |room| write(lengths(), list, list, room).map(|file| file.len());
        assert_eq!(told(length), number.map_or(Ok(length), Err));
        assert_eq!(told(length - 1), Err(number.unwrap_or(16)));
    }
}

#[test]
fn refusals_of_a_write_come_in_their_order() {
    let mut gauge = Gauge {
        kind: 2,
        period: 0,
        origin: INFINITY,
    };
    let list = [0; 4001];
    // Each fault in its turn is mended, the one that is told before the next.
    assert_eq!(write(gauge, &list, &list[1..], 25), Err(9));
    assert_eq!(write(gauge, &list[1..], &list, 25), Err(9));
    assert_eq!(write(gauge, &list, &list, 25), Err(12));
    gauge.kind = ROLLER;
    assert_eq!(write(gauge, &list, &list, 25), Err(13));
    assert_eq!(write(gauge, &[], &[], 25), Err(15));
    gauge.period = 1;
    assert_eq!(write(gauge, &[], &[], 25), Err(15));
    gauge.origin = 0;
    assert_eq!(write(gauge, &[], &[], 25), Err(16));
    assert!(write(gauge, &[], &[], 26).is_ok());
}

#[test]
fn refused_writes() {
    let one = 1_f64.to_bits();
    let told = |gauge, room| write(gauge, &RADII, &RADII, room).map(|file| file.len());
    for period in [0, NEGATIVE, NEGATIVE | 1, INFINITY, HOUSE_NAN, INFINITY | 1] {
        assert_eq!(told(turn(period), 58), Err(15));
        assert_eq!(told(roller(period, one), 58), Err(15));
    }
    for origin in [INFINITY, NEGATIVE | INFINITY, HOUSE_NAN, INFINITY | 1] {
        assert_eq!(told(roller(one, origin), 58), Err(15));
    }
    for origin in [NEGATIVE, 1, one] {
        let gauge = Gauge {
            origin,
            ..turn(one)
        };
        assert_eq!(told(gauge, 58), Err(15));
        assert_eq!(told(roller(one, origin), 58), Ok(58));
    }
    for kind in [2, 256, u32::MAX] {
        let gauge = Gauge { kind, ..turn(one) };
        assert_eq!(told(gauge, 58), Err(12));
    }
    for period in [1, LARGEST] {
        assert_eq!(told(turn(period), 58), Ok(58));
    }
    for room in [0, 25, 26, 57] {
        assert_eq!(told(turn(one), room), Err(16));
    }
    for (readings, radii) in [(0, 1), (1, 0), (1, 2), (2, 1), (0, 2)] {
        let lists = (&READINGS[..readings], &RADII[..radii]);
        assert_eq!(write(turn(one), lists.0, lists.1, 58), Err(9));
    }
}
