//! What is handed over and what comes back: numbers of enums, bytes of operands and blocks, what is
//! told of denormals and NaNs, and the functions on f32 and f64 beside those on patterns.

use std::arch::asm;

use zukemoriha::*;

const KINDS: [Kind; 2] = [Kind::Truncated, Kind::Nearest];

/// Zeros, denormals, the ends of the normal numbers, small whole numbers, infinities, and quiet
/// and signalling NaNs, of both signs.
const PATTERNS_32: [u32; 18] = [
    0x0000_0000,
    0x8000_0000,
    0x0000_0001,
    0x8000_0003,
    0x007F_FFFF,
    0x0080_0000,
    0x3F80_0000,
    0xBF80_0000,
    0x4000_0000,
    0x4040_0000,
    0xC0C0_0000,
    0x40B0_0000,
    0x7F7F_FFFF,
    0x7F80_0000,
    0xFF80_0000,
    0x7FC0_0000,
    0x7F80_0001,
    0xFFFF_FFFF,
];

const PATTERNS_64: [u64; 18] = [
    0x0000_0000_0000_0000,
    0x8000_0000_0000_0000,
    0x0000_0000_0000_0001,
    0x8000_0000_0000_0003,
    0x000F_FFFF_FFFF_FFFF,
    0x0010_0000_0000_0000,
    0x3FF0_0000_0000_0000,
    0xBFF0_0000_0000_0000,
    0x4000_0000_0000_0000,
    0x4008_0000_0000_0000,
    0xC018_0000_0000_0000,
    0x4016_0000_0000_0000,
    0x7FEF_FFFF_FFFF_FFFF,
    0x7FF0_0000_0000_0000,
    0xFFF0_0000_0000_0000,
    0x7FF8_0000_0000_0000,
    0x7FF0_0000_0000_0001,
    0xFFFF_FFFF_FFFF_FFFF,
];

const POWERS: [i32; 7] = [0, 1, -1, 200, -2000, i32::MAX, i32::MIN];

const fn number(significand: u64, word: u16) -> X87 {
    X87 { significand, word }
}

#[test]
fn enums_have_the_numbers_of_the_archive() {
    assert_eq!(KINDS.map(|kind| kind as u32), [0, 1]);

    let roundings = [Rounding::Exact, Rounding::Up, Rounding::Down];
    assert_eq!(roundings.map(|rounding| rounding as u8), [0, 1, 2]);

    let answers = [Answer::Finished, Answer::Partial, Answer::Spent];
    assert_eq!(answers.map(Answer::number), [0, 1, 7]);

    let refusals = [
        Refusal::Unsupported,
        Refusal::Nan,
        Refusal::Infinite,
        Refusal::ZeroDivisor,
        Refusal::BadSize,
        Refusal::ZeroSplit,
        Refusal::BadLength,
        Refusal::StemMark,
        Refusal::StemVersion,
        Refusal::StemKind,
        Refusal::StemCount,
        Refusal::StemLength,
        Refusal::StemGauge,
        Refusal::StemRoom,
    ];
    assert_eq!(
        refusals.map(Refusal::number),
        [2, 3, 4, 5, 6, 8, 9, 10, 11, 12, 13, 14, 15, 16]
    );
}

#[test]
#[cfg(feature = "std")]
fn a_refusal_is_an_error() {
    let error: Box<dyn std::error::Error> = Refusal::Nan.into();
    assert_eq!(error.to_string(), "an operand is NaN");
    let refused = split_f64(f64::NAN).unwrap_err();
    let error: Box<dyn std::error::Error> = refused.into();
    assert_eq!(error.to_string(), "an operand is NaN");
}

/// By the question mark.
#[test]
fn a_refused_call_becomes_its_refusal() {
    fn halved(x: f64) -> Result<f64, Refusal> {
        let split = split_f64(x)?;
        Ok(scale_f64(split.significand, split.exponent - 1)?.value)
    }
    assert_eq!(halved(-12.0), Ok(-6.0));
    assert_eq!(halved(0.0), Err(Refusal::ZeroSplit));
    assert_eq!(halved(f64::NAN), Err(Refusal::Nan));
}

#[test]
fn x87_bytes_go_both_ways() {
    let bytes = [1, 2, 3, 4, 5, 6, 7, 8, 9, 10];
    let operand = number(0x0807_0605_0403_0201, 0x0A09);
    assert_eq!(X87::from_bytes(bytes), operand);
    assert_eq!(operand.to_bytes(), bytes);
}

#[test]
fn x87_bytes_are_those_of_the_processor() {
    for (float, operand) in [
        (5.5, number(11 << 60, 0x4001)),
        (-1.0, number(1 << 63, 0xBFFF)),
    ] {
        assert_eq!(X87::from_bytes(stored(float)), operand);
        assert_eq!(operand.to_bytes(), stored(float));
    }
}

/// The number as FSTP stores it in ten bytes.
fn stored(x: f64) -> [u8; 10] {
    let mut bytes = [0; 10];
    // SAFETY: FLD reads eight bytes and FSTP writes ten, and leaves the register stack empty.
    unsafe {
        asm!(
            "fld qword ptr [{x}]",
            "fstp tbyte ptr [{bytes}]",
            x = in(reg) &x as *const f64,
            bytes = in(reg) bytes.as_mut_ptr(),
            out("st(0)") _, out("st(1)") _, out("st(2)") _, out("st(3)") _,
            out("st(4)") _, out("st(5)") _, out("st(6)") _, out("st(7)") _,
            options(nostack),
        );
    }
    bytes
}

#[test]
fn a_pseudo_denormal_is_returned_in_its_ordinary_pattern() {
    let infinity = number(1 << 63, 0x7FFF);
    for significand in [1 << 63, 3 << 62, u64::MAX] {
        for sign in [0, 0x8000] {
            let (x, ordinary) = (number(significand, sign), number(significand, sign | 1));
            for kind in KINDS {
                let left = x87::remainder(x, infinity, kind).unwrap();
                assert_eq!((left.value, left.quotient), (ordinary, 0));
                let step = x87::step(x, infinity, 63, kind).unwrap();
                assert_eq!(step.block.value, ordinary);
                let run = x87::run(x, x, 63, kind, 0).unwrap();
                assert_eq!(
                    (run.block.answer, run.block.value),
                    (Answer::Spent, ordinary)
                );
                assert!(left.denormal && step.denormal && run.denormal);
            }
            let scaled = x87::scale(x, 0).unwrap();
            assert_eq!((scaled.value, scaled.denormal), (ordinary, true));
            let split = x87::split(x).unwrap();
            assert_eq!(
                (split.significand.significand, split.exponent),
                (significand, -16382)
            );
            let back = x87::scale(split.significand, split.exponent).unwrap();
            assert_eq!((back.value, back.rounding), (ordinary, Rounding::Exact));
            assert!(split.denormal && !back.denormal);
        }
    }
}

#[test]
fn a_block_is_read_if_its_number_is_an_answer() {
    let block = |answer| Block {
        value: number(0x0807_0605_0403_0201, 0x0A09),
        answer,
        octant: 5,
        steps: 0x0F0E_0D0C,
        quotient: 0x1312_1110,
    };
    for number in 0..=u8::MAX {
        let expected = match number {
            0 => Some(block(Answer::Finished)),
            1 => Some(block(Answer::Partial)),
            7 => Some(block(Answer::Spent)),
            _ => None,
        };
        let value = [1, 2, 3, 4, 5, 6, 7, 8, 9, 10];
        let rest = [number, 5, 12, 13, 14, 15, 16, 17, 18, 19];
        let bytes = [value, rest].concat().try_into().unwrap();
        assert_eq!(Block::from_bytes(&bytes), expected);
    }
}

/// A call on floats tells what the call on their patterns tells.
macro_rules! alike {
    ($floats:expr, $patterns:expr, $value:ident, $more:ident) => {
        assert_eq!(
            $floats
                .map(|told| (told.$value.to_bits(), told.$more, told.denormal))
                .map_err(|why| (why.refusal, why.value.to_bits(), why.denormal)),
            $patterns
                .map(|told| (told.$value, told.$more, told.denormal))
                .map_err(|why| (why.refusal, why.value, why.denormal))
        )
    };
}

#[test]
fn f32_functions_are_those_on_patterns() {
    for x in PATTERNS_32 {
        let float = f32::from_bits(x);
        for y in PATTERNS_32 {
            let by = f32::from_bits(y);
            for kind in KINDS {
                let (floats, patterns) = (remainder_f32, binary32::remainder);
                alike!(
                    floats(float, by, kind),
                    patterns(x, y, kind),
                    value,
                    quotient
                );
                let (floats, patterns) = (remquo_f32, binary32::remquo);
                alike!(
                    floats(float, by, kind),
                    patterns(x, y, kind),
                    value,
                    quotient
                );
            }
        }
        for power in POWERS {
            let scaled = binary32::scale(x, power);
            alike!(scale_f32(float, power), scaled, value, rounding);
        }
        alike!(split_f32(float), binary32::split(x), significand, exponent);
    }
}

#[test]
fn f64_functions_are_those_on_patterns() {
    for x in PATTERNS_64 {
        let float = f64::from_bits(x);
        for y in PATTERNS_64 {
            let by = f64::from_bits(y);
            for kind in KINDS {
                let (floats, patterns) = (remainder_f64, binary64::remainder);
                alike!(
                    floats(float, by, kind),
                    patterns(x, y, kind),
                    value,
                    quotient
                );
                let (floats, patterns) = (remquo_f64, binary64::remquo);
                alike!(
                    floats(float, by, kind),
                    patterns(x, y, kind),
                    value,
                    quotient
                );
            }
        }
        for power in POWERS {
            let scaled = binary64::scale(x, power);
            alike!(scale_f64(float, power), scaled, value, rounding);
        }
        alike!(split_f64(float), binary64::split(x), significand, exponent);
    }
}

#[test]
fn a_truncated_remainder_is_that_of_the_language() {
    for x in PATTERNS_64.map(f64::from_bits) {
        for y in PATTERNS_64.map(f64::from_bits) {
            match remainder_f64(x, y, Kind::Truncated) {
                Ok(left) => assert_eq!(left.value.to_bits(), (x % y).to_bits()),
                Err(_) => assert!((x % y).is_nan()),
            }
        }
    }
}

/// What `remquo` tells is what `remainder` tells, with the sign of the quotient.
fn is_signed<T>(
    remquo: Result<Remquo<T>, Refused<T>>,
    remainder: Result<Remainder<T>, Refused<T>>,
    negative: bool,
) -> bool
where
    T: PartialEq,
{
    match (remquo, remainder) {
        (Ok(signed), Ok(left)) => {
            let sign = if negative { -1 } else { 1 };
            signed.value == left.value
                && signed.denormal == left.denormal
                && i64::from(signed.quotient) == sign * i64::from(left.quotient)
        }
        (Err(why), Err(other)) => why == other,
        _ => false,
    }
}

#[test]
fn a_signed_quotient_is_the_magnitude_with_a_sign() {
    for kind in KINDS {
        for x in PATTERNS_32 {
            for y in PATTERNS_32 {
                let told = (
                    binary32::remquo(x, y, kind),
                    binary32::remainder(x, y, kind),
                );
                assert!(is_signed(told.0, told.1, (x ^ y) >> 31 == 1), "{x:X} {y:X}");
                // their upper halves, with other last digits
                let (x, y) = ((x >> 16) as u16, (y >> 16) as u16 ^ 3);
                let told = (
                    binary16::remquo(x, y, kind),
                    binary16::remainder(x, y, kind),
                );
                assert!(is_signed(told.0, told.1, (x ^ y) >> 15 == 1), "{x:X} {y:X}");
            }
        }
        for x in PATTERNS_64 {
            for y in PATTERNS_64 {
                let told = (
                    binary64::remquo(x, y, kind),
                    binary64::remainder(x, y, kind),
                );
                assert!(is_signed(told.0, told.1, (x ^ y) >> 63 == 1), "{x:X} {y:X}");
                // the top 16 bits for a word
                let [a, b] = [x, y].map(|bits| number(bits << 16 | 1 << 63, (bits >> 48) as u16));
                let told = (x87::remquo(a, b, kind), x87::remainder(a, b, kind));
                assert!(
                    is_signed(told.0, told.1, (x ^ y) >> 63 == 1),
                    "{a:X?} {b:X?}"
                );
                let unsupported = number(1, 1);
                let told = x87::remquo(a, unsupported, kind);
                let refused = Refused {
                    refusal: Refusal::Unsupported,
                    value: x87::HOUSE_NAN,
                    denormal: x87::denormal(a),
                };
                assert_eq!(told, Err(refused));
            }
        }
    }
}

/// Whole numbers by 1 and by -1, which are their own quotients: the ends of the range.
#[test]
fn quotients_have_31_bits() {
    for (whole, quotient) in [
        (0.0, 0),
        (7.0, 7),
        (8.0, 8),
        (2_147_483_647.0, 2_147_483_647),
        (2_147_483_648.0, 0),
        (2_147_483_653.0, 5),
        (4_294_967_295.0, 2_147_483_647),
        (1_099_511_627_775.0, 2_147_483_647),
        (9_007_199_254_740_991.0, 2_147_483_647),
    ] {
        for kind in KINDS {
            let told = remainder_f64(whole, -1.0, kind).unwrap();
            assert_eq!((told.value, told.quotient), (0.0, quotient as u32));
            for (x, y, sign) in [
                (1.0, 1.0, 1),
                (1.0, -1.0, -1),
                (-1.0, 1.0, -1),
                (-1.0, -1.0, 1),
            ] {
                let told = remquo_f64(x * whole, y, kind).unwrap();
                assert_eq!((told.value, told.quotient), (0.0, sign * quotient));
            }
            // half a divisor more is a tie: to the even quotient
            if whole < 4e12 {
                let told = remquo_f64(-(whole + 0.5), 1.0, kind).unwrap();
                let up = kind == Kind::Nearest && quotient % 2 == 1;
                let rounded = (quotient as u32 + u32::from(up)) % QUOTIENT_MODULUS;
                assert_eq!(told.quotient, -(rounded as i32), "{whole}, {kind:?}");
                assert_eq!(told.value, if up { 0.5 } else { -0.5 });
            }
        }
    }
}

#[test]
fn an_infinite_divisor_has_quotient_0() {
    for x in [0.0, -0.0, 5e-324, -1.5, f64::MAX] {
        for y in [f64::INFINITY, f64::NEG_INFINITY] {
            for kind in KINDS {
                let told = remquo_f64(x, y, kind).unwrap();
                assert_eq!((told.value.to_bits(), told.quotient), (x.to_bits(), 0));
            }
        }
    }
}

/// Patterns of a format, which has so many bits, so many of them below the exponent field, and a
/// pattern of 1: what is denormal, and that every call tells it of either operand.
#[test]
fn denormals_are_told() {
    macro_rules! told {
        ($format:ident, $pattern:ty, $bits:literal, $stored:literal, $one:literal) => {
            let (field, one): ($pattern, $pattern) = (1 << $stored, $one);
            for sign in [0, 1 << ($bits - 1)] {
                for (pattern, denormal) in [
                    (0, false),
                    (1, true),
                    (field - 1, true),
                    (field, false),
                    (field + 1, false),
                    (one, false),
                ] {
                    let x: $pattern = sign | pattern;
                    assert_eq!($format::denormal(x), denormal, "{x:X}");
                    assert_eq!($format::scale(x, -3).unwrap().denormal, denormal);
                    let split = $format::split(x);
                    assert_eq!(split.map_or(false, |split| split.denormal), denormal);
                    for kind in KINDS {
                        // a zero divisor is refused, and tells it too
                        for (x, y) in [(x, one), (one, x), (x, 0), (x, x)] {
                            let told = $format::remainder(x, y, kind);
                            let told = told.map_or_else(|why| why.denormal, |left| left.denormal);
                            assert_eq!(told, denormal, "{x:X} {y:X}");
                            let told = $format::remquo(x, y, kind);
                            let told = told.map_or_else(|why| why.denormal, |left| left.denormal);
                            assert_eq!(told, denormal, "{x:X} {y:X}");
                        }
                    }
                }
            }
        };
    }
    told!(binary16, u16, 16, 10, 0x3C00);
    told!(binary32, u32, 32, 23, 0x3F80_0000);
    told!(binary64, u64, 64, 52, 0x3FF0_0000_0000_0000);
}

/// Of either operand of a step and a run, under every number that they have but 6.
#[test]
fn steps_tell_denormals() {
    let (one, two_to_65) = (number(1 << 63, 0x3FFF), number(1 << 63, 0x3FFF + 65));
    let [zero, infinity, nan, unsupported] = [
        number(0, 0x8000),
        number(1 << 63, 0x7FFF),
        number(5 << 61, 0xFFFF),
        number(1, 1),
    ];
    for denormal in [
        number(1, 0),
        number(u64::MAX >> 1, 0x8000),
        number(3 << 62, 0),
    ] {
        for (x, y) in [
            (denormal, one),
            (two_to_65, denormal),
            (denormal, denormal),
            (denormal, unsupported),
            (unsupported, denormal),
            (denormal, nan),
            (nan, denormal),
            (infinity, denormal),
            (denormal, infinity),
            (denormal, zero),
        ] {
            for kind in KINDS {
                let step = x87::step(x, y, 63, kind);
                let run = x87::run(x, y, 63, kind, 1);
                for told in [step, run, x87::run(x, y, 32, kind, 0)] {
                    assert!(told.map_or_else(|why| why.denormal, |told| told.denormal));
                }
                let bad = x87::step(x, y, 64, kind).unwrap_err();
                assert_eq!((bad.refusal, bad.denormal), (Refusal::BadSize, false));
                assert_eq!(x87::run(x, y, 31, kind, 1), Err(bad));
                let short = x87::run_into(x, y, 31, kind, 1, &mut [0; 19]).unwrap_err();
                assert_eq!((short.refusal, short.denormal), (Refusal::BadLength, true));
            }
        }
    }
    for x in [one, zero, infinity, nan, unsupported, number(1 << 63, 1)] {
        for y in [one, zero, infinity, nan, unsupported, number(1 << 63, 1)] {
            let told = x87::step(x, y, 63, Kind::Nearest);
            assert!(!told.map_or_else(|why| why.denormal, |told| told.denormal));
        }
    }
}

/// NaNs of a format, which has so many bits, so many of them below the exponent field.
#[test]
fn a_nan_is_told_quiet() {
    macro_rules! told {
        ($format:ident, $pattern:ty, $bits:literal, $stored:literal) => {
            let (sign, quiet): ($pattern, $pattern) = (1 << ($bits - 1), 1 << ($stored - 1));
            let infinity = $format::HOUSE_NAN & !quiet;
            let (least, most) = (infinity | 1, infinity | (quiet - 1));
            let refused = |value, denormal| Refused {
                refusal: Refusal::Nan,
                value,
                denormal,
            };
            for (x, y, nan) in [
                (least, most, most),
                (most, sign | least, most),
                (least, sign | most, sign | most),
                (least, sign | least, least),
                (sign | least, least, sign | least),
                // as given: a quiet one is larger than any other
                (quiet | least, most, least),
                (sign | most, quiet | infinity, infinity),
                (least, infinity, least),
                (infinity, sign | least, sign | least),
                (sign | most, 0, sign | most),
                (0, most, most),
                (least, 1, least),
                (1, sign | quiet | most, sign | most),
            ] {
                let nan = nan | quiet;
                assert_eq!($format::nan(x, y), nan, "{x:X} {y:X}");
                let refused = refused(nan, x == 1 || y == 1);
                for kind in KINDS {
                    assert_eq!($format::remainder(x, y, kind), Err(refused));
                    assert_eq!($format::remquo(x, y, kind), Err(refused));
                }
            }
            for x in [
                least,
                most,
                sign | least,
                quiet | least,
                sign | quiet | most,
            ] {
                assert_eq!($format::scale(x, 1), Err(refused(x | quiet, false)));
                assert_eq!($format::split(x), Err(refused(x | quiet, false)));
            }
            for (x, y) in [(0, 1), (infinity, sign | infinity)] {
                assert_eq!($format::nan(x, y), $format::HOUSE_NAN);
            }
        };
    }
    told!(binary16, u16, 16, 10);
    told!(binary32, u32, 32, 23);
    told!(binary64, u64, 64, 52);
}

#[test]
fn an_x87_nan_is_told_quiet() {
    let (least, most) = (1 << 63 | 1, 3 << 62 | u64::MAX >> 2);
    let signalling = 1 << 63 | u64::MAX >> 2;
    let refused = |refusal, value| Refused {
        refusal,
        value,
        denormal: false,
    };
    for (x, y, nan) in [
        ((least, 0x7FFF), (signalling, 0xFFFF), (signalling, 0xFFFF)),
        ((most, 0xFFFF), (signalling, 0x7FFF), (most, 0xFFFF)),
        ((least, 0xFFFF), (least, 0x7FFF), (least, 0xFFFF)),
        ((signalling, 0x7FFF), (3 << 62, 0xFFFF), (3 << 62, 0xFFFF)),
        ((0, 0), (least, 0xFFFF), (least, 0xFFFF)),
        ((least, 0x7FFF), (1 << 63, 0xFFFF), (least, 0x7FFF)),
    ] {
        let [x, y, nan] = [x, y, nan].map(|(significand, word)| number(significand, word));
        let nan = number(nan.significand | 1 << 62, nan.word);
        assert_eq!(x87::nan(x, y), nan);
        let refused = refused(Refusal::Nan, nan);
        for kind in KINDS {
            assert_eq!(x87::remainder(x, y, kind), Err(refused));
            assert_eq!(x87::remquo(x, y, kind), Err(refused));
            assert_eq!(x87::step(x, y, 63, kind), Err(refused));
            assert_eq!(x87::run(x, y, 32, kind, 0), Err(refused));
        }
    }
    let nan = number(least, 0xFFFF);
    let quiet = number(3 << 62 | 1, 0xFFFF);
    assert_eq!(x87::scale(nan, 1), Err(refused(Refusal::Nan, quiet)));
    assert_eq!(x87::split(nan), Err(refused(Refusal::Nan, quiet)));
    // beside an unsupported operand it is there, and is not what is told
    for (x, y) in [(nan, number(1, 1)), (number(1, 1), nan)] {
        assert_eq!(x87::nan(x, y), quiet);
        let told = x87::remainder(x, y, Kind::Nearest);
        let unsupported = refused(Refusal::Unsupported, x87::HOUSE_NAN);
        assert_eq!(told, Err(unsupported));
    }
}

/// The value of every refusal but one by a NaN.
#[test]
fn other_refusals_have_the_house_nan() {
    let (one, zero, infinity) = (0x3C00, 0x8000, 0xFC00);
    for (told, refusal) in [
        (
            binary16::remainder(infinity, one, Kind::Nearest).map(drop),
            Refusal::Infinite,
        ),
        (
            binary16::remquo(infinity, zero, Kind::Nearest).map(drop),
            Refusal::Infinite,
        ),
        (
            binary16::remainder(one, zero, Kind::Truncated).map(drop),
            Refusal::ZeroDivisor,
        ),
        (binary16::split(infinity).map(drop), Refusal::Infinite),
        (binary16::split(zero).map(drop), Refusal::ZeroSplit),
    ] {
        let refused = told.unwrap_err();
        assert_eq!((refused.refusal, refused.value), (refusal, 0x7E00));
    }
    assert_eq!(binary32::split(0).unwrap_err().value, 0x7FC0_0000);
    assert_eq!(binary64::split(0).unwrap_err().value, 0x7FF8_0000_0000_0000);
    let house_nan = number(0xC000_0000_0000_0000, 0x7FFF);
    assert_eq!(x87::split(number(0, 0)).unwrap_err().value, house_nan);
    assert_eq!(split_f32(0.0).unwrap_err().value.to_bits(), 0x7FC0_0000);
}

#[test]
fn a_zero_remainder_has_the_sign_of_the_dividend() {
    // -6 by 3 and 6 by -3, in each format.
    for kind in KINDS {
        let value = |x, y| binary16::remainder(x, y, kind).unwrap().value;
        assert_eq!(value(0xC600, 0x4200), 0x8000);
        assert_eq!(value(0x4600, 0xC200), 0x0000);

        let value = |x, y| remainder_f32(x, y, kind).unwrap().value.to_bits();
        assert_eq!(value(-6.0, 3.0), (-0.0_f32).to_bits());
        assert_eq!(value(6.0, -3.0), 0.0_f32.to_bits());

        let value = |x, y| remainder_f64(x, y, kind).unwrap().value.to_bits();
        assert_eq!(value(-6.0, 3.0), (-0.0_f64).to_bits());
        assert_eq!(value(6.0, -3.0), 0.0_f64.to_bits());

        let value = |xw, yw| {
            let (x, y) = (number(3 << 62, xw), number(3 << 62, yw));
            x87::remainder(x, y, kind).unwrap().value
        };
        assert_eq!(value(0xC001, 0x4000), number(0, 0x8000));
        assert_eq!(value(0x4001, 0xC000), number(0, 0x0000));
    }
}
