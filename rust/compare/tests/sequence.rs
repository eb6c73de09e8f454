//! The generated sequence, through both implementations.

mod archive;

use archive::Archive;
use compare::{sequence, Second, PAIR};

const PAIRS: usize = 400_000;
const ANSWERS: u64 = 4_000_000;

/// How often each thing was seen, in each format: bands of the gap, classes by classes, what
/// scaling says, numbers, bands of signed quotients, and pseudo-denormals that are scaled by 0 or
/// have budget 0; what NaNs a pair has, and how two differ; what is told of denormals, by operations
/// and numbers, and of patterns around them.
const COVERED: &str = include_str!("sequence.txt");

/// In binary16, binary32, binary64 and x87, all that a format can have.
const CELLS: usize = (7 + 25 + 3 + 5 + 8)
    + (10 + 25 + 3 + 5 + 8)
    + (11 + 25 + 3 + 5 + 8)
    + (11 + 49 + 3 + 10 + 8 + 2)
    + 3 * (NANS + 10 + 6)
    + (NANS + 4 + 28 + 8);

/// One NaN, quiet or not, for dividend or divisor; in x87 also beside an unsupported operand. Two, each
/// quiet or not, with more, fewer or the same digits, and one sign or two.
const NANS: usize = 4 + 4 * 3 * 2;

#[test]
fn generated_sequence() {
    let (comparison, covered) = sequence::compare(PAIR, PAIRS);
    let (answers, different) = (comparison.answers, comparison.different);
    println!("sequence: {PAIRS} pairs, {answers} answers, {different} different");
    let lines = covered
        .iter()
        .map(|(cell, count)| format!("{cell}: {count}\n"));
    let text: String = lines.collect();
    print!("{text}");
    assert_eq!((answers, different, covered.len()), (ANSWERS, 0, CELLS));
    assert_eq!(
        text, COVERED,
        "the counts are others than those in sequence.txt"
    );
}

/// The beginning of it, with remainders by the archive's own functions: they take every number for a
/// kind, and have to leave value, word and quotient as they were where they refuse. What is told of
/// denormals and NaNs is asked of the archive.
#[test]
fn the_archives_own_remainders() {
    let (comparison, _) = sequence::compare([&Archive, &Second], 40_000);
    let (answers, different) = (comparison.answers, comparison.different);
    println!("archive: 40000 pairs, {answers} answers, {different} different");
    assert_eq!((answers, different), (400_000, 0));
}
