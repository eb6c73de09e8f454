//! What is lent: a refused call leaves it as it was, and every length is taken or refused.

#[allow(dead_code)]
#[path = "../src/raw.rs"]
mod raw;

use zukemoriha::binary64::{self, HOUSE_NAN, MARK};
use zukemoriha::{
    fold_f64, x87, Answer, Block, Kind, Refusal, Refused, Stepped, QUOTIENT_MODULUS, X87,
};

const KINDS: [Kind; 2] = [Kind::Truncated, Kind::Nearest];
/// A byte that no call here writes everywhere.
const OLD: u8 = 0xA5;
const OLD_PATTERN: u64 = 0xA5A5_A5A5_A5A5_A5A5;

const TWO_TO_65: X87 = number(1 << 63, 0x3FFF + 65);
const THREE: X87 = number(3 << 62, 0x4000);
const TWO: X87 = number(1 << 63, 0x4000);
const ZERO: X87 = number(0, 0);
const INFINITY: X87 = number(1 << 63, 0x7FFF);
const NAN: X87 = number(7 << 61, 0xFFFF);
const UNSUPPORTED: X87 = number(1, 1);
const DENORMAL: X87 = number(1, 0x8000);

const fn number(significand: u64, word: u16) -> X87 {
    X87 { significand, word }
}

#[test]
fn a_refused_step_or_run_leaves_the_block_as_it_was() {
    let refused = [
        (TWO_TO_65, THREE, 31, Refusal::BadSize),
        (UNSUPPORTED, NAN, 64, Refusal::BadSize),
        (UNSUPPORTED, NAN, 32, Refusal::Unsupported),
        (NAN, UNSUPPORTED, 32, Refusal::Unsupported),
        (INFINITY, NAN, 63, Refusal::Nan),
        (NAN, DENORMAL, 63, Refusal::Nan),
        (INFINITY, ZERO, 63, Refusal::Infinite),
        (INFINITY, DENORMAL, 63, Refusal::Infinite),
        (ZERO, ZERO, 63, Refusal::ZeroDivisor),
        (DENORMAL, ZERO, 63, Refusal::ZeroDivisor),
        (DENORMAL, DENORMAL, 31, Refusal::BadSize),
    ];
    for (x, y, size, refusal) in refused {
        for kind in KINDS {
            let mut block = [OLD; Block::LENGTH];
            let told = refused_by(refusal, x, y);
            assert_eq!(x87::step_into(x, y, size, kind, &mut block), told);
            assert_eq!(x87::run_into(x, y, size, kind, 9, &mut block), told);
            assert_eq!(block, [OLD; Block::LENGTH]);
            assert_eq!(x87::step(x, y, size, kind), told);
            assert_eq!(x87::run(x, y, size, kind, 9), told);
        }
    }
}

/// What a refused step or run tells. Of NaNs only [`NAN`] is handed over, which is quiet.
fn refused_by(refusal: Refusal, x: X87, y: X87) -> Result<Stepped, Refused<X87>> {
    let value = match refusal {
        Refusal::Nan => NAN,
        _ => x87::HOUSE_NAN,
    };
    let denormal = refusal != Refusal::BadSize && [x, y].contains(&DENORMAL);
    Err(Refused {
        refusal,
        value,
        denormal,
    })
}

#[test]
fn a_block_of_another_length_is_refused_first() {
    for length in (0..40).filter(|&length| length != Block::LENGTH) {
        for (x, y, size) in [
            (TWO_TO_65, THREE, 63),
            (UNSUPPORTED, NAN, 0),
            (NAN, DENORMAL, 63),
        ] {
            let mut block = vec![OLD; length];
            let step = x87::step_into(x, y, size, Kind::Nearest, &mut block);
            let run = x87::run_into(x, y, size, Kind::Nearest, 9, &mut block);
            let told = refused_by(Refusal::BadLength, x, y);
            assert_eq!([step, run], [told; 2]);
            assert_eq!(block, vec![OLD; length]);
        }
    }
}

#[test]
fn the_lent_block_holds_what_the_other_form_returns() {
    for kind in KINDS {
        for size in x87::SIZES {
            for (x, y) in [
                (TWO_TO_65, THREE),
                (TWO, THREE),
                (ZERO, INFINITY),
                (DENORMAL, THREE),
                (TWO, DENORMAL),
            ] {
                let denormal = [x, y].contains(&DENORMAL);
                let mut block = [OLD; Block::LENGTH];
                let lent = x87::step_into(x, y, size, kind, &mut block).unwrap();
                let step = x87::step(x, y, size, kind).unwrap();
                assert_eq!((lent, step.denormal), (step, denormal));
                assert_eq!(Block::from_bytes(&block), Some(step.block));
                assert_eq!(step.block.steps, 1);
                assert_eq!(u32::from(step.block.octant), step.block.quotient % 8);

                for budget in 0..3 {
                    let mut block = [OLD; Block::LENGTH];
                    let lent = x87::run_into(x, y, size, kind, budget, &mut block).unwrap();
                    let run = x87::run(x, y, size, kind, budget).unwrap();
                    assert_eq!((lent, run.denormal), (run, denormal));
                    assert_eq!(Block::from_bytes(&block), Some(run.block));
                    assert_eq!(u32::from(run.block.octant), run.block.quotient % 8);
                }
            }
        }
    }
}

/// Each of them: of 2^65 by 3, which is partial, of 2^31 - 1 by 1 and of 2^31 + 258 by -1.
#[test]
fn a_block_has_twenty_bytes() {
    let [one, minus_one] = [0x3FFF, 0xBFFF].map(|word| number(1 << 63, word));
    let most = number(u64::MAX << 33, 0x3FFF + 30);
    let more = number(0x8000_0102 << 32, 0x3FFF + 31);
    for (x, y, value, rest) in [
        (
            TWO_TO_65,
            THREE,
            TWO,
            [1, 2, 1, 0, 0, 0, 0xAA, 0xAA, 0xAA, 0x2A],
        ),
        (most, one, ZERO, [0, 7, 1, 0, 0, 0, 0xFF, 0xFF, 0xFF, 0x7F]),
        (more, minus_one, ZERO, [0, 2, 1, 0, 0, 0, 2, 1, 0, 0]),
    ] {
        for kind in KINDS {
            let mut block = [OLD; Block::LENGTH];
            x87::step_into(x, y, 63, kind, &mut block).unwrap();
            assert_eq!(block[..], [value.to_bytes(), rest].concat());
            let mut block = [OLD; Block::LENGTH];
            x87::run_into(x, y, 63, kind, 1, &mut block).unwrap();
            assert_eq!(block[..10], value.to_bytes());
            assert_eq!((block[10], &block[11..]), (7 * rest[0], &rest[1..]));
        }
    }
}

#[test]
fn a_long_run_may_be_stopped_and_continued() {
    // The largest number by a small denormal: as many steps as D allows, 32824 / 32 cut.
    let (x, y) = (number(u64::MAX, 0x7FFE), number(25, 0));
    for kind in KINDS {
        let run = |x, budget| {
            let run = x87::run(x, y, 32, kind, budget).unwrap();
            assert!(run.denormal);
            run.block
        };
        let whole = run(x, u32::MAX);
        assert_eq!(whole.answer, Answer::Finished);
        assert_eq!(whole.steps, 1025);

        let first = run(x, 300);
        assert_eq!((first.answer, first.steps), (Answer::Spent, 300));
        let rest = run(first.value, whole.steps - 300);
        assert_eq!((rest.answer, rest.value), (whole.answer, whole.value));
        assert_eq!(first.steps + rest.steps, whole.steps);
        let added = (first.quotient + rest.quotient) % QUOTIENT_MODULUS;
        assert_eq!(added, whole.quotient);

        let once = x87::remainder(x, y, kind).unwrap();
        assert_eq!((once.value, once.quotient), (whole.value, whole.quotient));
    }
}

/// The value that is handed on has its ordinary pattern, so that only the first run knows.
#[test]
fn joined_runs_take_what_the_first_one_tells() {
    for (significand, sign) in [(1 << 63, 0), (3 << 62, 0x8000), (u64::MAX, 0)] {
        let x = number(significand, sign);
        for kind in KINDS {
            let run = |x, budget| x87::run(x, THREE, 63, kind, budget).unwrap();
            let (whole, first) = (run(x, 9), run(x, 0));
            assert_eq!(first.block.answer, Answer::Spent);
            assert_eq!(first.block.value, number(significand, sign | 1));
            let rest = run(first.block.value, 9);
            assert_eq!((first.denormal, rest.denormal), (true, false));
            let denormal = first.denormal;
            assert_eq!(Stepped { denormal, ..rest }, whole);
        }
    }
}

/// Both places are written, whatever the operands, and nothing beside them.
#[test]
fn a_nan_is_written_to_its_places() {
    for (x, y, nan) in [
        (NAN, THREE, NAN),
        (ZERO, number(5 << 61, 0x7FFF), number(7 << 61, 0x7FFF)),
        (UNSUPPORTED, NAN, NAN),
        (UNSUPPORTED, ZERO, x87::HOUSE_NAN),
        (DENORMAL, THREE, x87::HOUSE_NAN),
    ] {
        let (mut values, mut words) = ([OLD_PATTERN; 3], [0xA5A5; 3]);
        let (value, word): (*mut u64, *mut u16) = (&mut values[1], &mut words[1]);
        // SAFETY: each pointer is to a place of its own, of the type that is written.
        unsafe { raw::zk_nan80(x.significand, x.word, y.significand, y.word, value, word) };
        assert_eq!(values, [OLD_PATTERN, nan.significand, OLD_PATTERN]);
        assert_eq!(words, [0xA5A5, nan.word, 0xA5A5]);
    }
}

/// By the archive's own functions: the safe ones are lent nothing.
#[test]
fn a_refused_remainder_leaves_its_places_as_they_were() {
    // A number, a NaN, an infinity and a zero of each format.
    let refused = [(1, 0, 3), (0, 1, 3), (1, 1, 3), (1, 3, 3), (2, 1, 3)];
    let refused = refused.into_iter().chain([(2, 0, 4), (2, 2, 4), (2, 3, 4)]);
    let refused = refused.chain([(0, 3, 5), (3, 3, 5)]);
    for ((x, y, number), kind) in refused.flat_map(|case| [0, 1, 7].map(|kind| (case, kind))) {
        macro_rules! leaves {
            ($patterns:expr, $remainder:ident, $remquo:ident) => {{
                let (patterns, old) = ($patterns, (!$patterns[0], 0x5A5A_5A5A, -0x5A5A));
                let (mut value, mut quotient, mut signed) = old;
                let (x, y) = (patterns[x], patterns[y]);
                // SAFETY: each pointer is to a place of its own, of the type that is written.
                let told = unsafe {
                    [
                        raw::$remainder(x, y, kind, &mut value, &mut quotient),
                        raw::$remquo(x, y, kind, &mut value, &mut signed),
                    ]
                };
                assert_eq!(
                    (told, value, quotient, signed),
                    ([number; 2], old.0, old.1, old.2)
                );
            }};
        }
        leaves!([0x4580, 0x7E01, 0xFC00, 0x8000_u16], zk_rem16, zk_remquo16);
        leaves!(
            [0x40B0 << 16, 0x7F80_0001, 0xFF80 << 16, 1_u32 << 31],
            zk_rem32,
            zk_remquo32
        );
        leaves!(
            [0x4016 << 48, 0x7FF0 << 48 | 1, 0xFFF0 << 48, 1_u64 << 63],
            zk_rem64,
            zk_remquo64
        );
        refused_80([THREE, NAN, INFINITY, ZERO], x, y, kind, number);
    }
    for (x, y) in [(0, 1), (1, 0), (1, 1), (2, 1), (1, 3)] {
        refused_80([THREE, UNSUPPORTED, NAN, ZERO], x, y, 1, 2);
    }
}

fn refused_80(patterns: [X87; 4], x: usize, y: usize, kind: u32, number: u8) {
    let (x, y) = (patterns[x], patterns[y]);
    let (x, xw, y, yw) = (x.significand, x.word, y.significand, y.word);
    let old = (OLD_PATTERN, 0xA5A5, 0x5A5A_5A5A, -0x5A5A);
    let (mut value, mut word, mut quotient, mut signed) = old;
    // SAFETY: each pointer is to a place of its own, of the type that is written.
    let told = unsafe {
        [
            raw::zk_rem80(x, xw, y, yw, kind, &mut value, &mut word, &mut quotient),
            raw::zk_remquo80(x, xw, y, yw, kind, &mut value, &mut word, &mut signed),
        ]
    };
    assert_eq!((told, (value, word, quotient, signed)), ([number; 2], old));
}

#[test]
fn a_refused_fold_leaves_the_lists_as_they_were() {
    let (three, zero, nan) = (3.0_f64.to_bits(), (-0.0_f64).to_bits(), f64::NAN.to_bits());
    let refused = [
        ((2, 3, 3), three, Refusal::BadLength),
        ((3, 2, 3), three, Refusal::BadLength),
        ((3, 3, 2), nan, Refusal::BadLength),
        ((0, 1, 1), zero, Refusal::BadLength),
        ((3, 3, 3), nan, Refusal::Nan),
        ((3, 3, 3), zero, Refusal::ZeroDivisor),
        ((0, 0, 0), nan, Refusal::Nan),
        ((0, 0, 0), zero, Refusal::ZeroDivisor),
    ];
    for ((nx, nr, nq), divisor, refusal) in refused {
        for kind in KINDS {
            let (x, mut results) = (vec![three; nx], vec![OLD_PATTERN; nr]);
            let mut quotients = vec![OLD; nq];
            let told = binary64::fold(&x, &mut results, &mut quotients, divisor, kind);
            assert_eq!(told, Err(refusal));
            assert_eq!(results, vec![OLD_PATTERN; nr]);
            assert_eq!(quotients, vec![OLD; nq]);

            let (x, divisor) = (floats(&x), f64::from_bits(divisor));
            let mut results = floats(&results);
            let told = fold_f64(&x, &mut results, &mut quotients, divisor, kind);
            assert_eq!(told, Err(refusal));
            assert_eq!(patterns(&results), vec![OLD_PATTERN; nr]);
            assert_eq!(quotients, vec![OLD; nq]);
        }
    }
}

#[test]
fn empty_lists_have_no_marked_place() {
    for kind in KINDS {
        let three = 3.0_f64.to_bits();
        assert_eq!(binary64::fold(&[], &mut [], &mut [], three, kind), Ok(0));
        assert_eq!(fold_f64(&[], &mut [], &mut [], 3.0, kind), Ok(0));
    }
}

#[test]
fn a_fold_is_a_remainder_at_each_place() {
    let x = [
        7.0,
        -6.0,
        1e22,
        -0.0,
        f64::NAN,
        f64::MAX,
        -f64::MIN_POSITIVE,
        5e-324,
        f64::NEG_INFINITY,
        0.5,
    ];
    let mut x = x.map(f64::to_bits);
    x[4] = 0xFFF0_0000_0000_0123;
    for divisor in [3.0, -360.0, 5e-324, f64::INFINITY].map(f64::to_bits) {
        for kind in KINDS {
            let (mut results, mut quotients) = ([OLD_PATTERN; 10], [OLD; 10]);
            let marked = binary64::fold(&x, &mut results, &mut quotients, divisor, kind);
            assert_eq!(marked, Ok(2));
            for (i, &dividend) in x.iter().enumerate() {
                let alone = match binary64::remainder(dividend, divisor, kind) {
                    Ok(left) => (left.value, (left.quotient % 8) as u8),
                    Err(refused) => (refused.value, MARK),
                };
                assert_eq!((results[i], quotients[i]), alone);
            }
            assert_eq!([results[4], results[8]], [0xFFF8_0000_0000_0123, HOUSE_NAN]);

            let mut values = [0.0; 10];
            let mut bytes = [OLD; 10];
            let divisor = f64::from_bits(divisor);
            let marked = fold_f64(&floats(&x), &mut values, &mut bytes, divisor, kind);
            assert_eq!(marked, Ok(2));
            assert_eq!((values.map(f64::to_bits), bytes), (results, quotients));
        }
    }
}

fn floats(patterns: &[u64]) -> Vec<f64> {
    patterns.iter().copied().map(f64::from_bits).collect()
}

fn patterns(floats: &[f64]) -> Vec<u64> {
    floats.iter().copied().map(f64::to_bits).collect()
}
