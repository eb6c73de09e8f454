//! Twelve readings worked out by hand, which show quotients modulo 8, whole quotients, the refusals
//! with the order they come in, pseudo-denormals, and what is told of denormals and NaNs.

use second::{
    block, denormal, fold, nan, remainder, remquo, run, scale, split, step, Answer, Format, Kind,
    BLOCK_LENGTH, QUOTIENT_MODULUS, SHOWN_MODULUS,
};
use Format::{Binary16, Binary32, Binary64, X87};
use Kind::{Nearest, Truncated};

const BOTH: [Kind; 2] = [Truncated, Nearest];
const FORMATS: [Format; 4] = [Binary16, Binary32, Binary64, X87];

const ONE: u128 = power_of_two(0);
const TWO: u128 = power_of_two(1);
const THREE: u128 = 0x4000_C000_0000_0000_0000;
const ZERO: u128 = 0;
const SMALLEST: u128 = 1;
const LARGEST: u128 = 0x7FFE_FFFF_FFFF_FFFF_FFFF;
const INFINITY: u128 = 0x7FFF_8000_0000_0000_0000;
const NAN: u128 = 0x7FFF_8000_0000_0000_0001;
const QUIET: u128 = 0x7FFF_C000_0000_0000_0001;
const UNSUPPORTED: u128 = 0x3FFF_0000_0000_0000_0001;
const NEGATIVE: u128 = 1 << 79;

/// The lower 31 bits of 2^65 by 3, cut: 0xAAAA_AAAA_AAAA_AAAA.
const THIRD: u32 = 0x2AAA_AAAA;

/// The x87 pattern of a power of two from 1 on.
const fn power_of_two(exponent: u128) -> u128 {
    (0x3FFF + exponent) << 64 | 1 << 63
}

fn answer(number: u8, value: u128, quotient: u32, steps: u32) -> Answer {
    Answer {
        number,
        value,
        quotient,
        signed: 0,
        steps,
        says: 0,
        exponent: 0,
        denormal: false,
    }
}

/// The same where an operand was denormal.
fn of_denormal(answer: Answer) -> Answer {
    Answer {
        denormal: true,
        ..answer
    }
}

/// An answer as the readings show it.
fn shown(answer: Answer) -> Answer {
    let quotient = answer.quotient % SHOWN_MODULUS;
    Answer { quotient, ..answer }
}

fn signed(number: u8, value: u128, signed: i32) -> Answer {
    Answer {
        signed,
        ..answer(number, value, 0, 0)
    }
}

fn scaled(value: u128, says: u8) -> Answer {
    Answer {
        says,
        ..answer(0, value, 0, 0)
    }
}

fn house_nan(format: Format) -> u128 {
    match format {
        Binary16 => 0x7E00,
        Binary32 => 0x7FC0_0000,
        Binary64 => 0x7FF8_0000_0000_0000,
        X87 => 0x7FFF_C000_0000_0000_0000,
    }
}

fn refused(format: Format, number: u8) -> Answer {
    answer(number, house_nan(format), 0, 0)
}

#[test]
fn readings_1_to_6_remainders() {
    let readings = [
        // 5.5 by 2.
        (Truncated, 0x40B0_0000, 0x4000_0000, 0x3FC0_0000, 2),
        (Nearest, 0x40B0_0000, 0x4000_0000, 0xBF00_0000, 3),
        // 5 by 2: the half goes down to the even one.
        (Nearest, 0x40A0_0000, 0x4000_0000, 0x3F80_0000, 2),
        // 7 by 2: the half goes up to the even one.
        (Truncated, 0x40E0_0000, 0x4000_0000, 0x3F80_0000, 3),
        (Nearest, 0x40E0_0000, 0x4000_0000, 0xBF80_0000, 4),
        // -6 by 3: a zero has the sign of the dividend.
        (Truncated, 0xC0C0_0000, 0x4040_0000, 0x8000_0000, 2),
        (Nearest, 0xC0C0_0000, 0x4040_0000, 0x8000_0000, 2),
        // 2^75 by 2^-75.
        (Truncated, 0x6500_0000, 0x1A00_0000, 0x0000_0000, 0),
        (Nearest, 0x6500_0000, 0x1A00_0000, 0x0000_0000, 0),
    ];
    let told = |kind, x, y| shown(remainder(Binary32, kind, x, y));
    for (kind, x, y, value, quotient) in readings {
        assert_eq!(told(kind, x, y), answer(0, value, quotient, 0));
    }
    // Two denormals.
    for (kind, value, quotient) in [(Truncated, 2, 0), (Nearest, 0x8000_0001, 1)] {
        assert_eq!(told(kind, 2, 3), of_denormal(answer(0, value, quotient, 0)));
    }
}

#[test]
fn reading_7_a_partial_step_touches_the_low_bits() {
    let (x, minus_one) = (power_of_two(65), NEGATIVE | ONE);
    let step = |kind, x| shown(step(kind, 63, x, THREE));
    let run = |kind| shown(run(kind, 63, 9, x, THREE));
    for kind in BOTH {
        assert_eq!(step(kind, x), answer(1, TWO, 2, 1));
    }
    assert_eq!(step(Truncated, TWO), answer(0, TWO, 0, 1));
    assert_eq!(run(Truncated), answer(0, TWO, 2, 2));
    assert_eq!(step(Nearest, TWO), answer(0, minus_one, 1, 1));
    assert_eq!(run(Nearest), answer(0, minus_one, 3, 2));
}

#[test]
fn reading_8_the_smallest_size() {
    let (x, partial) = (power_of_two(65), power_of_two(33));
    let step = |x| shown(step(Truncated, 32, x, THREE));
    assert_eq!(step(x), answer(1, partial, 0, 1));
    assert_eq!(step(partial), answer(0, TWO, 2, 1));
}

#[test]
fn readings_7_and_8_with_whole_quotients() {
    let (x, partial, minus_one) = (power_of_two(65), power_of_two(33), NEGATIVE | ONE);
    for kind in BOTH {
        assert_eq!(step(kind, 63, x, THREE), answer(1, TWO, THIRD, 1));
        assert_eq!(
            step(kind, 62, x, THREE),
            answer(1, power_of_two(3), THIRD - 2, 1)
        );
        assert_eq!(step(kind, 32, x, THREE), answer(1, partial, 0, 1));
    }
    assert_eq!(run(Truncated, 63, 9, x, THREE), answer(0, TWO, THIRD, 2));
    assert_eq!(
        run(Nearest, 63, 9, x, THREE),
        answer(0, minus_one, THIRD + 1, 2)
    );
    assert_eq!(
        step(Truncated, 32, partial, THREE),
        answer(0, TWO, THIRD, 1)
    );
    assert_eq!(
        remainder(X87, Truncated, x, THREE),
        answer(0, TWO, THIRD, 0)
    );
    assert_eq!(
        remainder(X87, Nearest, x, THREE),
        answer(0, minus_one, THIRD + 1, 0)
    );
}

/// The pattern of a whole number of up to 64 bits.
fn whole(n: u64) -> u128 {
    let zeros = n.leading_zeros();
    u128::from(0x3FFF + 63 - zeros) << 64 | u128::from(n << zeros)
}

/// Whole numbers by 1 are their own quotients, and with half of it more they are ties.
#[test]
fn quotients_have_31_bits() {
    assert_eq!(u64::from(QUOTIENT_MODULUS), 1 << 31);
    for (n, quotient, above) in [
        (7, 7, 8),
        (8, 8, 8),
        ((1 << 31) - 1, (1 << 31) - 1, 0),
        (1 << 31, 0, 0),
        ((1 << 31) + 1, 1, 2),
        ((1 << 32) - 1, (1 << 31) - 1, 0),
        (0xFEDC_BA98_7654_3211, 0x7654_3211, 0x7654_3212),
    ] {
        for kind in BOTH {
            let told = answer(0, ZERO, quotient, 0);
            assert_eq!(remainder(X87, kind, whole(n), ONE), told);
        }
        // twice the last number, and one more, has no room in a significand
        if let Some(odd) = n.checked_mul(2).map(|n| n + 1) {
            let (x, half) = (whole(odd), ONE);
            let up = quotient != above;
            let left = if up { NEGATIVE | half } else { half };
            assert_eq!(remainder(X87, Nearest, x, TWO), answer(0, left, above, 0));
            assert_eq!(
                remainder(X87, Truncated, x, TWO),
                answer(0, half, quotient, 0)
            );
        }
    }
}

/// 2^65 - 2 by 1: the smaller the size, the more of its last digits are not in the part.
#[test]
fn parts_have_31_bits() {
    let x = power_of_two(64) | ((1 << 63) - 1);
    for size in 32..=63 {
        let left = (1_u128 << (64 - size)) - 2;
        let part = ((1 << 31) - 2 - left as i64).max(0) as u32;
        for kind in BOTH {
            let told = step(kind, size, x, ONE);
            assert_eq!((told.number, told.quotient), (1, part), "size {size}");
        }
    }
}

/// The cut quotient has 31 ones below 35 other digits, and the nearest one is above it: the parts
/// add up to 2^31, which is told as 0.
#[test]
fn parts_are_added_modulo_2_to_the_31() {
    let (x, y) = (0x4067_8123_45BF_6F41_FDB9, 0x4026_8123_4567_8900_0000);
    let (partial, left) = (0x4028_8103_4567_8900_0000, NEGATIVE | power_of_two(31));
    for kind in BOTH {
        assert_eq!(step(kind, 63, x, y), answer(1, partial, 0x7FFF_FFFC, 1));
    }
    assert_eq!(step(Nearest, 63, partial, y), answer(0, left, 4, 1));
    assert_eq!(run(Nearest, 63, 9, x, y), answer(0, left, 0, 2));
    assert_eq!(run(Truncated, 63, 9, x, y).quotient, 0x7FFF_FFFF);
    assert_eq!(remainder(X87, Nearest, x, y), answer(0, left, 0, 0));
    assert_eq!(remquo(X87, Nearest, NEGATIVE | x, y).signed, 0);
    assert_eq!(remquo(X87, Truncated, NEGATIVE | x, y).signed, -i32::MAX);
}

#[test]
fn a_signed_quotient_has_the_sign_of_the_quotient() {
    let (half, x) = (ONE - (1 << 64), 0x4001_B000_0000_0000_0000);
    for (kind, value, quotient) in [(Truncated, ONE | 1 << 62, 2), (Nearest, half, 3)] {
        // the nearest remainder is on the other side of zero
        let turned = if kind == Nearest { NEGATIVE } else { 0 };
        for (x_sign, y_sign) in [(0, 0), (0, NEGATIVE), (NEGATIVE, 0), (NEGATIVE, NEGATIVE)] {
            let (x, y) = (x_sign | x, y_sign | TWO);
            let sign = if x_sign == y_sign { 1 } else { -1 };
            let told = signed(0, value ^ turned ^ x_sign, sign * quotient);
            assert_eq!(remquo(X87, kind, x, y), told);
        }
    }
    let largest = whole((1 << 31) - 1);
    for kind in BOTH {
        for (x, y, quotient) in [
            (largest, ONE, i32::MAX),
            (largest, NEGATIVE | ONE, -i32::MAX),
            (NEGATIVE | power_of_two(31), ONE, 0),
            (NEGATIVE | ONE, INFINITY, 0),
            (ONE, NEGATIVE | INFINITY, 0),
            (NEGATIVE | SMALLEST, LARGEST, 0),
            (ZERO, NEGATIVE | ONE, 0),
            (NEGATIVE | ZERO, ONE, 0),
        ] {
            assert_eq!(remquo(X87, kind, x, y).signed, quotient, "{x:X} {y:X}");
        }
    }
}

#[test]
fn a_block_has_twenty_bytes() {
    let x = power_of_two(65);
    let told = run(Nearest, 63, 9, x, THREE);
    let value = [0, 0, 0, 0, 0, 0, 0, 0x80, 0xFF, 0xBF];
    let rest = [0, 3, 2, 0, 0, 0, 0xAB, 0xAA, 0xAA, 0x2A];
    assert_eq!(block(&told), [value, rest].concat());
    assert_eq!(block(&told).len(), BLOCK_LENGTH);
    let steps = answer(7, 0x0A09_0807_0605_0403_0201, 0x7654_3210, 0x0F0E_0D0C);
    let rest = [7, 0, 12, 13, 14, 15, 0x10, 0x32, 0x54, 0x76];
    assert_eq!(
        block(&steps),
        [[1, 2, 3, 4, 5, 6, 7, 8, 9, 10], rest].concat()
    );
}

#[test]
fn readings_9_and_10_scaling() {
    assert_eq!(scale(Binary32, 1, -1), of_denormal(scaled(0, 2)));
    assert_eq!(scale(Binary32, 3, -1), of_denormal(scaled(2, 1)));
    assert_eq!(scale(Binary32, 0x3F80_0000, 127), scaled(0x7F00_0000, 0));
    assert_eq!(scale(Binary32, 0x3F80_0000, 128), scaled(0x7F80_0000, 1));
}

#[test]
fn readings_11_and_12_steps() {
    for kind in BOTH {
        let run = |budget, x, y| run(kind, 32, budget, x, y);
        assert_eq!(run(u32::MAX, power_of_two(63), ONE), answer(0, ZERO, 0, 1));
        assert_eq!(run(u32::MAX, power_of_two(64), ONE), answer(0, ZERO, 0, 2));
        let by_smallest = |budget| run(budget, LARGEST, SMALLEST);
        assert_eq!(by_smallest(u32::MAX), of_denormal(answer(0, ZERO, 0, 3)));
        // A zero partial value is still partial.
        assert_eq!(by_smallest(2), of_denormal(answer(7, ZERO, 0, 2)));
    }
}

#[test]
fn a_partial_value_may_fall_by_more_than_63() {
    let (x, y) = (power_of_two(127), 0x403E_FFFF_FFFF_FFFF_FFFF);
    assert_eq!(step(Nearest, 63, x, y), answer(1, power_of_two(63), 0, 1));
}

#[test]
fn an_infinite_divisor_gives_the_dividend() {
    for x in [THREE, NEGATIVE | LARGEST, NEGATIVE | ZERO] {
        assert_eq!(remainder(X87, Nearest, x, INFINITY), answer(0, x, 0, 0));
        assert_eq!(remquo(X87, Nearest, x, INFINITY), signed(0, x, 0));
        assert_eq!(step(Nearest, 63, x, INFINITY), answer(0, x, 0, 1));
        assert_eq!(run(Nearest, 63, 0, x, INFINITY), answer(7, x, 0, 0));
    }
    let smallest = remainder(X87, Nearest, SMALLEST, INFINITY);
    assert_eq!(smallest, of_denormal(answer(0, SMALLEST, 0, 0)));
}

#[test]
fn refusals_come_in_their_order() {
    let cases = [
        (31, UNSUPPORTED, NAN, 6),
        (64, ONE, ONE, 6),
        (32, NAN, UNSUPPORTED, 2),
        (32, INFINITY, NAN, 3),
        (32, INFINITY, ZERO, 4),
        (63, ZERO, NEGATIVE | ZERO, 5),
    ];
    for (size, x, y, number) in cases {
        let value = match number {
            3 => QUIET,
            _ => house_nan(X87),
        };
        let told = answer(number, value, 0, 0);
        assert_eq!(step(Truncated, size, x, y), told);
        assert_eq!(run(Nearest, size, 0, x, y), told);
    }
}

#[test]
fn every_format_has_its_refusals() {
    for format in FORMATS {
        let nan = house_nan(format);
        assert_eq!(remainder(format, Nearest, nan, 0), refused(format, 3));
        assert_eq!(remainder(format, Nearest, 0, 0), refused(format, 5));
        assert_eq!(remquo(format, Nearest, nan, 0), refused(format, 3));
        assert_eq!(remquo(format, Nearest, 0, 0), refused(format, 5));
        assert_eq!(scale(format, nan, 1), refused(format, 3));
        assert_eq!(split(format, nan), refused(format, 3));
        assert_eq!(split(format, 0), refused(format, 8));
    }
    assert_eq!(split(X87, INFINITY), refused(X87, 4));
    // A leading bit of 0 with any exponent field but 0.
    for word in [1, 0x3FFF, 0x7FFE, 0x7FFF, 0x8001, 0xFFFF] {
        for significand in [0, 1, (1 << 63) - 1] {
            assert_eq!(split(X87, word << 64 | significand), refused(X87, 2));
        }
    }
}

/// Pseudo-denormals, and the ordinary patterns of the same values.
fn pseudo_denormals() -> Vec<(u128, u128)> {
    let significands = [1 << 63, 1 << 63 | 5, 3 << 62, u64::MAX.into()];
    let signed = significands.map(|significand| [significand, NEGATIVE | significand]);
    let pairs = signed.into_iter().flatten();
    pairs.map(|pseudo| (pseudo, 1 << 64 | pseudo)).collect()
}

#[test]
fn a_pseudo_denormal_is_returned_in_its_ordinary_pattern() {
    for (x, ordinary) in pseudo_denormals() {
        let returned = |number, steps| of_denormal(answer(number, ordinary, 0, steps));
        for kind in BOTH {
            for y in [INFINITY, NEGATIVE | INFINITY] {
                assert_eq!(remainder(X87, kind, x, y), returned(0, 0));
                assert_eq!(step(kind, 63, x, y), returned(0, 1));
                assert_eq!(run(kind, 32, 9, x, y), returned(0, 1));
            }
            for y in [ONE, SMALLEST, x, ordinary, INFINITY] {
                assert_eq!(run(kind, 32, 0, x, y), returned(7, 0));
            }
        }
        assert_eq!(scale(X87, x, 0), of_denormal(scaled(ordinary, 0)));
        let parts = split(X87, x);
        assert_eq!((parts.number, parts.value), (0, x | 0x3FFF << 64));
        assert_eq!((parts.exponent, parts.denormal), (-16382, true));
        assert_eq!(scale(X87, parts.value, parts.exponent), scaled(ordinary, 0));
    }
}

#[test]
fn a_pseudo_denormal_counts_its_leading_bit() {
    // 2^63 + 5 by 4.
    let x = 1 << 63 | 5;
    let left = |value, quotient| of_denormal(answer(0, value, quotient, 0));
    assert_eq!(remainder(X87, Truncated, x, 4), left(1, 1));
    // 3 * 2^62 and 2^63 + 5, by each other.
    let (y, rest) = (3 << 62, (1 << 62) - 5);
    assert_eq!(remainder(X87, Nearest, y, x), left(rest, 1));
    assert_eq!(remainder(X87, Nearest, x, y), left(NEGATIVE | rest, 1));
    // A half goes down to the even one, and up to it.
    let halved = |x| scale(X87, x, -1);
    assert_eq!(halved(x), of_denormal(scaled(1 << 62 | 2, 2)));
    assert_eq!(halved(1 << 63 | 7), of_denormal(scaled(1 << 62 | 4, 1)));
}

#[test]
fn steps_by_a_pseudo_denormal() {
    // Reading 7, 2^65 by 3, with the smallest denormal times 2^62 for a unit.
    let (x, y) = (65 << 64 | 1 << 63, 3 << 62);
    let (two, minus_one) = (1 << 64 | 1 << 63, NEGATIVE | 1 << 62);
    for kind in BOTH {
        let told = answer(1, two, THIRD, 1);
        assert_eq!(step(kind, 63, x, y), of_denormal(told));
    }
    for (kind, value, quotient) in [(Truncated, two, THIRD), (Nearest, minus_one, THIRD + 1)] {
        let told = answer(0, value, quotient, 2);
        assert_eq!(run(kind, 63, 9, x, y), of_denormal(told));
    }
}

/// Whatever stands on the other side, the two patterns of a value have the same answers, but for
/// what is told of denormals: with the ordinary one it is the other side's alone.
#[test]
fn a_pseudo_denormal_is_as_good_as_its_ordinary_pattern() {
    let largest_denormal = (1 << 63) - 1;
    let others = [
        ZERO,
        SMALLEST,
        25,
        largest_denormal,
        THREE,
        65 << 64 | 3 << 62,
        NEGATIVE | LARGEST,
        INFINITY,
        NAN,
        UNSUPPORTED,
    ];
    for (pseudo, ordinary) in pseudo_denormals() {
        for kind in BOTH {
            let alike = |x, y, plain_x, plain_y| {
                let is_denormal = denormal(X87, plain_x) || denormal(X87, plain_y);
                let hold = |told: Answer, plain: Answer| {
                    assert_eq!((told.denormal, plain.denormal), (true, is_denormal));
                    assert_eq!(told, of_denormal(plain));
                };
                let told = remainder(X87, kind, x, y);
                hold(told, remainder(X87, kind, plain_x, plain_y));
                let told = remquo(X87, kind, x, y);
                hold(told, remquo(X87, kind, plain_x, plain_y));
                let told = step(kind, 33, x, y);
                hold(told, step(kind, 33, plain_x, plain_y));
                for budget in [0, 1, u32::MAX] {
                    let told = run(kind, 63, budget, x, y);
                    hold(told, run(kind, 63, budget, plain_x, plain_y));
                }
            };
            for other in others {
                alike(pseudo, other, ordinary, other);
                alike(other, pseudo, other, ordinary);
            }
            for (divisor, plain_divisor) in pseudo_denormals() {
                alike(pseudo, divisor, ordinary, plain_divisor);
            }
        }
        for power in [i32::MIN, -64, -63, -1, 0, 1, 32_765, 32_766, i32::MAX] {
            let told = of_denormal(scale(X87, ordinary, power));
            assert_eq!(scale(X87, pseudo, power), told);
        }
        assert_eq!(split(X87, pseudo), of_denormal(split(X87, ordinary)));
    }
}

/// Of each format: the smallest and the largest denormal, the smallest normal number, and patterns
/// that are none of them, with both signs. A pseudo-denormal is one, and its ordinary pattern not.
#[test]
fn denormals_have_the_field_0() {
    for (format, field, sign) in [
        (Binary16, 10, 15),
        (Binary32, 23, 31),
        (Binary64, 52, 63),
        (X87, 64, 79),
    ] {
        let infinity = nan(format, 0, 0) & !((1 << (field - 1)) - 1);
        for x in [0, 1 << sign] {
            assert!(!denormal(format, x), "zero");
            for digits in [
                1,
                2,
                (1 << (field - 1)) - 1,
                1 << (field - 1),
                (1 << field) - 1,
            ] {
                assert!(denormal(format, x | digits), "{format:?} {digits:X}");
                // field 1: in x87 these are unsupported, and normal with a leading digit
                assert!(!denormal(format, x | 1 << field | digits));
                assert!(!denormal(format, x | infinity | digits));
            }
            assert!(!denormal(format, x | 1 << field));
        }
    }
    for (pseudo, ordinary) in pseudo_denormals() {
        assert!(denormal(X87, pseudo) && !denormal(X87, ordinary));
    }
}

/// Under every number but 6, by every operation, of either operand.
#[test]
fn denormals_are_told() {
    let (denormal, largest) = (SMALLEST, LARGEST);
    for (size, x, y, number) in [
        (63, denormal, THREE, 0),
        (63, THREE, denormal, 1),
        (63, denormal, denormal, 0),
        (63, denormal, UNSUPPORTED, 2),
        (63, UNSUPPORTED, denormal, 2),
        (63, NAN, denormal, 3),
        (63, denormal, NAN, 3),
        (63, INFINITY, denormal, 4),
        (63, denormal, NEGATIVE | ZERO, 5),
        (63, largest, denormal, 1),
        (31, denormal, THREE, 6),
        (64, denormal, denormal, 6),
    ] {
        for kind in BOTH {
            let told = step(kind, size, x, y);
            assert_eq!((told.number, told.denormal), (number, number != 6));
            let told = run(kind, size, 1, x, y);
            let number = if number == 1 { 7 } else { number };
            assert_eq!((told.number, told.denormal), (number, number != 6));
            if number != 6 {
                assert!(remainder(X87, kind, x, y).denormal);
                assert!(remquo(X87, kind, x, y).denormal);
            }
        }
    }
    for format in FORMATS {
        assert!(scale(format, 1, 40_000).denormal && split(format, 1).denormal);
        assert!(!scale(format, 0, 1).denormal && !split(format, 0).denormal);
        // a denormal result is no operand
        let parts = split(format, 1);
        let back = scale(format, parts.value, parts.exponent);
        assert_eq!((back.value, back.denormal), (1, false));
    }
}

/// Of runs that are joined the first one tells: the second gets the ordinary pattern.
#[test]
fn joined_runs_tell_what_the_first_one_tells() {
    for (x, ordinary) in pseudo_denormals() {
        for kind in BOTH {
            let whole = run(kind, 63, 9, x, THREE);
            let first = run(kind, 63, 0, x, THREE);
            let rest = run(kind, 63, 9, first.value, THREE);
            assert_eq!((first.value, first.denormal), (ordinary, true));
            assert_eq!((rest.number, rest.denormal), (0, false));
            let joined = Answer {
                denormal: first.denormal,
                ..rest
            };
            assert_eq!(joined, whole);
        }
    }
}

/// The four NaNs of a format that are made of its infinity, by the pattern of its last digits.
#[test]
fn a_nan_is_returned_quiet() {
    for (format, quiet, sign) in [
        (Binary16, 1 << 9, 1 << 15),
        (Binary32, 1 << 22, 1 << 31),
        (Binary64, 1 << 51, 1 << 63),
        (X87, 1 << 62, NEGATIVE),
    ] {
        let infinity = house_nan(format) & !quiet;
        let least = infinity | 1;
        let most = infinity | (quiet - 1);
        // the other one's significand is smaller, larger, or equal
        for (x, y, chosen) in [
            (least, most, most),
            (most, least, most),
            (sign | most, least, sign | most),
            (least, sign | most, sign | most),
            (least, sign | least, least),
            (sign | least, least, sign | least),
            // as given: a quiet one has the larger significand
            (quiet | least, most, quiet | least),
            (sign | most, quiet | infinity, quiet | infinity),
            (quiet | most, quiet | least, quiet | most),
        ] {
            let told = answer(3, chosen | quiet, 0, 0);
            for kind in BOTH {
                assert_eq!(remainder(format, kind, x, y), told);
                assert_eq!(remquo(format, kind, x, y), told);
            }
            assert_eq!(nan(format, x, y), told.value);
        }
        for x in [
            least,
            most,
            sign | least,
            quiet | most,
            sign | quiet | infinity,
        ] {
            let told = answer(3, x | quiet, 0, 0);
            for other in [0, sign, infinity, sign | infinity] {
                assert_eq!(remainder(format, Nearest, x, other), told);
                assert_eq!(remainder(format, Nearest, other, x), told);
                assert_eq!(nan(format, x, other), told.value);
                assert_eq!(nan(format, other, x), told.value);
            }
            assert_eq!(scale(format, x, 1), told);
            assert_eq!(split(format, x), told);
            assert_eq!(remainder(format, Nearest, x, 1), of_denormal(told));
            assert_eq!(remainder(format, Nearest, 1, x), of_denormal(told));
        }
        assert_eq!(nan(format, 1, infinity), house_nan(format));
    }
    for (x, y) in [(NAN, UNSUPPORTED), (UNSUPPORTED, NAN)] {
        assert_eq!(remainder(X87, Nearest, x, y), refused(X87, 2));
        assert_eq!(nan(X87, x, y), QUIET);
    }
}

#[test]
fn every_binary16_splits_and_scales_back() {
    for x in (0..1 << 16).filter(|x| x & 0x7FFF != 0 && x & 0x7FFF < 0x7C00) {
        let parts = split(Binary16, x);
        assert_eq!((parts.number, parts.value & 0x7C00), (0, 0x3C00));
        assert_eq!(parts.denormal, x & 0x7C00 == 0);
        assert_eq!(scale(Binary16, parts.value, parts.exponent), scaled(x, 0));
    }
}

#[test]
fn powers_of_any_size() {
    for format in FORMATS {
        assert_eq!(scale(format, 1, i32::MIN), of_denormal(scaled(0, 2)));
        assert_eq!(scale(format, 1, i32::MAX).says, 1);
        assert_eq!(scale(format, 0, i32::MAX), scaled(0, 0));
    }
    assert_eq!(scale(X87, INFINITY, i32::MIN), scaled(INFINITY, 0));
}

#[test]
fn lists() {
    let (nan, infinity, house_nan) = (0xFFF0 << 48 | 1, 0x7FF0 << 48, 0x7FF8 << 48);
    let (minus_zero, x, two) = (1 << 63, 0x4016 << 48, 0x4000 << 48);
    assert_eq!(fold(Truncated, &[], nan), Err(3));
    assert_eq!(fold(Truncated, &[nan], minus_zero), Err(5));
    let folded = fold(Truncated, &[x, nan, minus_zero, infinity], two).unwrap();
    assert_eq!(
        folded.results,
        [0x3FF8 << 48, 0xFFF8 << 48 | 1, minus_zero, house_nan]
    );
    assert_eq!(folded.quotients, [2, 255, 0, 255]);
    assert_eq!(folded.marked, 2);
    // 1003 by 2 is 501, and by -2 as well; a byte shows 5
    for divisor in [two, minus_zero | two] {
        let folded = fold(Truncated, &[0x408F_5800 << 32], divisor).unwrap();
        assert_eq!(
            (folded.results, folded.quotients),
            (vec![0x3FF0 << 48], vec![5])
        );
    }
}
