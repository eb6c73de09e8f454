//! Scalings that cut off every number of places, around each half, through both implementations.

mod altered;

use altered::{Altered, CHANGES};
use compare::{halves, Second, PAIR};

/// A significand has 64 digits: from 65 places on all of them are rounded the same way.
const MOST_PLACES: u64 = 130;

/// How often each format had a half, and was exact, up and down.
const COVERED: [(&str, u64); 16] = [
    ("Binary16 at a half", 1_040),
    ("Binary16 says 0", 2_434),
    ("Binary16 says 1", 3_256),
    ("Binary16 says 2", 5_094),
    ("Binary32 at a half", 2_598),
    ("Binary32 says 0", 4_492),
    ("Binary32 says 1", 6_018),
    ("Binary32 says 2", 8_962),
    ("Binary64 at a half", 6_078),
    ("Binary64 says 0", 6_668),
    ("Binary64 says 1", 14_444),
    ("Binary64 says 2", 17_392),
    ("X87 at a half", 8_880),
    ("X87 says 0", 8_984),
    ("X87 says 1", 22_768),
    ("X87 says 2", 26_498),
];

#[test]
fn every_number_of_places_around_each_half() {
    let (comparison, covered) = halves::compare(PAIR, MOST_PLACES);
    let (answers, different) = (comparison.answers, comparison.different);
    println!("{answers} scalings, {different} different: {covered:?}");
    assert_eq!((answers, different), (127_010, 0));
    let covered: Vec<_> = covered
        .iter()
        .map(|(cell, &count)| (cell.as_str(), count))
        .collect();
    assert_eq!(covered, COVERED);
}

/// The differences that this prints are wanted. The first is beyond the range, the second is cut.
#[test]
fn a_wrong_scaling_is_noticed() {
    for (what, change) in CHANGES {
        for left in [5, 4_000] {
            let altered = Altered::later_answer(change, left);
            let (comparison, _) = halves::compare([&altered, &Second], MOST_PLACES);
            assert_eq!(comparison.different, 1, "{what}");
        }
    }
}

/// Also where both are wrong alike.
#[test]
fn a_wrong_count_is_noticed() {
    let (right, cells) = halves::compare(PAIR, 1);
    let both = [(); 2].map(|_| Altered::answer(|answer| answer.says ^= 2));
    let (wrong, other_cells) = halves::compare([&both[0], &both[1]], 1);
    assert_eq!((wrong.answers, wrong.different), (right.answers, 0));
    assert_ne!(other_cells, cells);
}

/// A number of places less is another count.
#[test]
fn a_missing_number_of_places_is_noticed() {
    let [less, all] = [MOST_PLACES - 1, MOST_PLACES].map(|most| halves::compare(PAIR, most));
    assert_ne!(less.0.answers, all.0.answers);
    assert_ne!(less.1, all.1);
}
