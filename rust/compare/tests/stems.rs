//! Stem files, opened and written, and the folds of their points, through both implementations. What
//! was seen is pinned, so that no kind of case falls away.

mod archive;

use archive::Archive;
use compare::writes::{self, Gauges};
use compare::{sequence::Covered, stems, Pair, Second, PAIR};

fn pinned(cells: &[(&str, u64)]) -> Covered {
    let owned = |&(name, count): &(&str, u64)| (name.to_string(), count);
    cells.iter().map(owned).collect()
}

#[test]
fn files_are_judged_alike() {
    let (comparison, covered) = stems::files(PAIR, 20_000);
    let (answers, different) = (comparison.answers, comparison.different);
    println!("{answers} stem files, {different} different: {covered:?}");
    assert_eq!((answers, different), (35_608, 0));
    let numbers = [
        ("number 0", 11_934),
        ("number 10", 3_570),
        ("number 11", 2_418),
        ("number 12", 1_125),
        ("number 13", 2_206),
        ("number 14", 9_989),
        ("number 15", 4_366),
    ];
    assert_eq!(covered, pinned(&numbers));
}

#[test]
fn points_are_folded_alike() {
    let (comparison, covered) = stems::folds(PAIR, 200_000);
    let (answers, different) = (comparison.answers, comparison.different);
    println!("{answers} points, {different} different: {covered:?}");
    assert_eq!((answers, different), (200_000, 0));
    let cells = [
        ("NaN of sign 0", 10_451),
        ("denormal of sign 0", 18_277),
        ("denormal of sign 1", 18_410),
        ("difference a tie", 16_212),
        ("difference beyond the range", 4_499),
        ("difference exact", 64_093),
        ("difference rounded", 47_907),
        ("normal of sign 0", 55_862),
        ("normal of sign 1", 55_612),
        ("number 15", 15_974),
        ("zero of sign 0", 15_070),
        ("zero of sign 1", 10_344),
    ];
    assert_eq!(covered, pinned(&cells));
}

/// How often each thing was seen where files were written, with gauges of the safe functions and with
/// any: numbers, points and rooms, and the classes of bad periods and origins and of what files have.
const WRITTEN: &str = include_str!("written.txt");

/// A pattern is of one of six classes, and has a sign. Numbers, points and rooms; periods, bad ones or
/// not; origins of a roller and of a turn, which has but one where it is safe; readings and radii.
const CELLS: usize = (5 + 2 + 2 + 12 + 12 + 1 + 24) + (6 + 2 + 2 + 12 + 12 + 12 + 24);

/// By the safe function, and by the archive's own, which is handed any kind and a turn's origin.
#[test]
fn files_are_written_alike() {
    let pairs: [(Pair, Gauges); 2] = [(PAIR, Gauges::Safe), ([&Archive, &Second], Gauges::Any)];
    let (mut answers, mut different, mut covered) = (0, 0, Covered::new());
    for (pair, gauges) in pairs {
        let (comparison, mut cells) = writes::compare(pair, gauges, 20_000);
        answers += comparison.answers;
        different += comparison.different;
        covered.append(&mut cells);
    }
    let accepted = |(cell, _): &(&String, _)| cell.ends_with("number 0");
    let files: u64 = covered
        .iter()
        .filter(accepted)
        .map(|(_, count)| count)
        .sum();
    let writes = answers - files;
    println!("{writes} writes, {files} files opened again, {different} different");
    let lines = covered
        .iter()
        .map(|(cell, count)| format!("{cell}: {count}\n"));
    let text: String = lines.collect();
    print!("{text}");
    assert_eq!((writes, files, different), (63_684, 41_385, 0));
    assert_eq!(covered.len(), CELLS);
    assert_eq!(
        text, WRITTEN,
        "the counts are others than those in written.txt"
    );
}

#[test]
fn opened_files_are_written_again_as_they_were() {
    let comparison = writes::again(PAIR, 20_000);
    let (answers, different) = (comparison.answers, comparison.different);
    println!("{answers} stem files written again, {different} different");
    assert_eq!((answers, different), (11_934, 0));
}
