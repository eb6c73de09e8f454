//! The files of computed vectors, every line through both implementations.

use compare::{read, vectors, Shown, PAIR};

const FILES: [(&str, u64); 26] = [
    ("rem-binary16.txt", 1150),
    ("rem-binary32.txt", 1150),
    ("rem-binary64.txt", 1150),
    ("rem-x87.txt", 1300),
    ("remquo-binary16.txt", 465),
    ("remquo-binary32.txt", 471),
    ("remquo-binary64.txt", 464),
    ("remquo-x87.txt", 625),
    ("step-x87.txt", 1300),
    ("run-x87.txt", 549),
    ("scale-binary16.txt", 1025),
    ("scale-binary32.txt", 1025),
    ("scale-binary64.txt", 1025),
    ("scale-x87.txt", 1125),
    ("split-binary16.txt", 215),
    ("split-binary32.txt", 215),
    ("split-binary64.txt", 215),
    ("split-x87.txt", 265),
    ("denormal-binary16.txt", 150),
    ("denormal-binary32.txt", 150),
    ("denormal-binary64.txt", 150),
    ("denormal-x87.txt", 150),
    ("nan-binary16.txt", 250),
    ("nan-binary32.txt", 250),
    ("nan-binary64.txt", 250),
    ("nan-x87.txt", 250),
];

/// Other cases, which do not tell of denormals.
const PLAIN: [(&str, u64); 14] = [
    ("rem-binary16.txt", 1051),
    ("rem-binary32.txt", 1062),
    ("rem-binary64.txt", 1057),
    ("rem-x87.txt", 1220),
    ("step-x87.txt", 1217),
    ("run-x87.txt", 510),
    ("scale-binary16.txt", 1529),
    ("scale-binary32.txt", 1531),
    ("scale-binary64.txt", 1526),
    ("scale-x87.txt", 2836),
    ("split-binary16.txt", 1889),
    ("split-binary32.txt", 1887),
    ("split-binary64.txt", 1891),
    ("split-x87.txt", 2089),
];

/// Others again, which show their quotients modulo 8.
const OCTANTS: [(&str, u64); 6] = [
    ("rem-binary16.txt", 1515),
    ("rem-binary32.txt", 1520),
    ("rem-binary64.txt", 1522),
    ("rem-x87.txt", 2853),
    ("step-x87.txt", 2863),
    ("run-x87.txt", 1169),
];

/// Holds the files of a folder, each with its number of lines.
fn compare_all(folder: &str, files: &[(&str, u64)]) {
    let (mut lines, mut found) = (0, Vec::new());
    for &(name, _) in files {
        let path = format!("{folder}/{name}");
        let comparison = vectors::compare(PAIR, name, Shown::by(&path), &read(&path));
        comparison.sum_up(&path);
        lines += comparison.lines;
        found.push((name, comparison.lines, comparison.different));
    }
    println!("{folder}: {lines} lines in {} files", files.len());
    let pinned = files.iter().map(|&(name, lines)| (name, lines, 0));
    assert_eq!(found, pinned.collect::<Vec<_>>());
}

#[test]
fn computed_vectors() {
    compare_all("computed", &FILES);
}

#[test]
fn computed_plain() {
    compare_all("computed/plain", &PLAIN);
}

#[test]
fn computed_octants() {
    compare_all("computed/octants", &OCTANTS);
}
