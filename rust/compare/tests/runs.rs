//! Runs that the generated sequence does not draw: spent with quotients, the longest ones, and runs
//! that are continued where another one was spent.

mod altered;

use altered::{Altered, CHANGES};
use compare::{Answer, Call, Comparison, Kind, Pair, Second, PAIR};
use compare::{QUOTIENT_MODULUS, SHOWN_MODULUS};

const LENGTH: usize = 20;
const SPENT: u8 = 7;

/// The power of two with this exponent, and a small whole number, in x87.
fn power(exponent: u128) -> u128 {
    (16383 + exponent) << 64 | 1 << 63
}

fn whole(n: u64) -> u128 {
    let zeros = n.leading_zeros();
    u128::from(16383 + 63 - zeros) << 64 | u128::from(n << zeros)
}

/// The same quotient at the lowest exponent, its divisor a pseudo-denormal.
fn lowered(x: u128, y: u128) -> (u128, u128) {
    let word = y >> 64;
    (x - ((word - 1) << 64), y - (word << 64))
}

/// Powers of two by small odd numbers, each also lowered.
fn pairs() -> impl Iterator<Item = (u128, u128)> {
    let exponents = 64..200;
    let pairs = exponents.flat_map(|exponent| {
        let divisors = (3..64).step_by(2);
        divisors.map(move |divisor| (power(exponent), whole(divisor)))
    });
    pairs.flat_map(|(x, y)| [(x, y), lowered(x, y)])
}

/// A part has low bits where D - n is below 31, and an octant where it is 1 or 2, so that runs that
/// are spent there tell some. Returns also how many did after two or more steps, and how many told
/// an octant.
fn spent_runs(pair: Pair) -> (Comparison, [u32; 2]) {
    let mut comparison = Comparison::new(pair);
    let (mut with_quotient, mut with_octant) = (0, 0);
    for (x, y) in pairs() {
        for size in [33, 34, 48, 61, 62, 63] {
            for budget in 1..=3 {
                let call = Call::Run(Kind::Truncated, size, budget, x, y, LENGTH);
                let told = comparison.call(&call, None);
                if told.number == SPENT && told.steps == budget && budget > 1 {
                    with_quotient += u32::from(told.quotient != 0);
                    with_octant += u32::from(told.quotient % SHOWN_MODULUS != 0);
                }
            }
        }
    }
    (comparison, [with_quotient, with_octant])
}

#[test]
fn spent_runs_tell_their_quotients() {
    let (comparison, [with_quotient, with_octant]) = spent_runs(PAIR);
    println!(
        "{} runs; spent after two or more steps: {with_quotient} with quotient, {with_octant} with octant",
        comparison.answers
    );
    assert_eq!((comparison.answers, comparison.different), (151_776, 0));
    assert!(with_quotient > with_octant && with_octant > 0);
}

/// The largest gaps, the last with a pseudo-denormal for a divisor, with as many steps as they
/// allow: every budget around the last step, and any 32 bits. Returns also how many took other
/// steps than they should.
fn longest_runs(pair: Pair) -> (Comparison, u32) {
    let mut comparison = Comparison::new(pair);
    let mut astray = 0;
    let largest = 0x7FFE << 64 | u128::from(u64::MAX);
    let other = 0x7FFE_8001_8001_8001_8001;
    for (x, y, steps) in [
        (largest, 25, 1025),
        (other, 0xFFFF, 1025),
        (largest, 25 << 59, 1023),
    ] {
        for kind in [Kind::Truncated, Kind::Nearest] {
            for budget in [
                256,
                512,
                1000,
                1022,
                1023,
                1024,
                1025,
                1026,
                65_536,
                1 << 31,
                u32::MAX,
            ] {
                let call = Call::Run(kind, 32, budget, x, y, LENGTH);
                let told = comparison.call(&call, None);
                if told.steps != budget.min(steps) {
                    println!("{} steps: {call:X?}", told.steps);
                    astray += 1;
                }
            }
        }
    }
    (comparison, astray)
}

#[test]
fn the_longest_runs_take_their_steps() {
    let (comparison, astray) = longest_runs(PAIR);
    assert_eq!(
        (comparison.answers, comparison.different, astray),
        (66, 0, 0)
    );
}

type Join = fn(bool, bool) -> bool;

/// Dividends that are pseudo-denormals, by divisors that are denormal and others that are not, and some
/// of the pairs above.
fn joined_pairs() -> impl Iterator<Item = (u128, u128)> {
    let divisors = [
        1 << 64 | 1 << 63,
        whole(3),
        0x7FFF << 64 | 1 << 63,
        25,
        3 << 62,
    ];
    let dividends = [1 << 63, 3 << 62, u128::from(u64::MAX)].into_iter();
    let signed = dividends.flat_map(|x| [x, 1 << 79 | x]);
    let pseudo = signed.flat_map(move |x| divisors.map(|y| (x, y)));
    pseudo.chain(pairs().step_by(7))
}

/// Runs of every small budget, continued from the values that they have reached if they are spent,
/// against the whole runs: steps and quotients are added, and `join` makes one of what the two tell of
/// denormals. Returns also how often the first of two told yes alone, and how often both did.
fn joined_runs(pair: Pair, join: Join) -> (Comparison, [u32; 2]) {
    let mut comparison = Comparison::new(pair);
    let mut told = [0; 2];
    for (x, y) in joined_pairs() {
        for budget in 0..4 {
            let run = |budget, x| Call::Run(Kind::Nearest, 63, budget, x, y, LENGTH);
            let joined = comparison.ask(|who| {
                let first = who.answer(&run(budget, x));
                if first.number != SPENT {
                    return (first, None);
                }
                let rest = who.answer(&run(u32::MAX, first.value));
                let joined = Answer {
                    quotient: (first.quotient + rest.quotient) % QUOTIENT_MODULUS,
                    steps: first.steps + rest.steps,
                    denormal: join(first.denormal, rest.denormal),
                    ..rest
                };
                (joined, Some(rest.denormal))
            });
            let whole = comparison.call(&run(u32::MAX, x), None);
            let [ours, theirs] = joined.map(|(joined, _)| joined);
            comparison.hold(&(budget, x, y), &[ours, theirs], Some(&whole));
            if let (true, Some(rest)) = (whole.denormal, joined[0].1) {
                told[usize::from(rest)] += 1;
            }
        }
    }
    (comparison, told)
}

/// The first run alone is given the dividend as it was.
#[test]
fn joined_runs_tell_what_the_first_one_tells() {
    let (comparison, told) = joined_runs(PAIR, |first, _| first);
    let (answers, different) = (comparison.answers, comparison.different);
    println!("joined runs: {answers} answers, {different} different; denormal {told:?}");
    assert_eq!((answers, different, told), (9_880, 0, [18, 1_509]));
}

/// The differences that this prints are wanted.
#[test]
fn another_join_is_noticed() {
    let joins: [(&str, Join); 4] = [
        ("the last one's", |_, rest| rest),
        ("both", |first, rest| first && rest),
        ("never", |_, _| false),
        ("always", |_, _| true),
    ];
    for (what, join) in joins {
        assert!(joined_runs(PAIR, join).0.different > 0, "{what}");
    }
}

/// The differences that this prints are wanted.
#[test]
fn a_wrong_run_is_noticed() {
    for (what, change) in CHANGES {
        let altered = Altered::answer(change);
        let (comparison, _) = spent_runs([&altered, &Second]);
        assert_eq!(comparison.different, 1, "{what}");
        let altered = Altered::answer(change);
        let (comparison, _) = longest_runs([&altered, &Second]);
        assert_eq!(comparison.different, 1, "{what}, longest");
        let altered = Altered::answer(change);
        let (comparison, _) = joined_runs([&altered, &Second], |first, _| first);
        assert!(comparison.different > 0, "{what}, joined");
    }
}

/// Also where both are wrong alike.
#[test]
fn a_wrong_count_of_steps_is_noticed() {
    let both = [(); 2].map(|_| Altered::answer(|answer| answer.steps += 1));
    let (comparison, astray) = longest_runs([&both[0], &both[1]]);
    assert_eq!((comparison.different, astray), (0, 1));
}
